#!/bin/sh
# What comes of a stream of 10.5 Mbit/s, a piece of 1,316 octets each millisecond from `rist send` to `rist recv`, where the system has a fault
# in the middle: a disk that is full below OUT, a reader of OUT that goes, an interface of the receiver or of the sender that is down for
# half a second and for three seconds, a receiver, a sender or a gateway that is stopped for five seconds (SIGSTOP, SIGCONT), and all
# programs on one processor, with losses, at 10.5 and 42 Mbit/s. Each row says which pieces came. None may come twice, out of its place or
# altered; what is missing has to lie in the time of the fault, and nothing may be missing where the interface was down for less than the
# receiver's delay and the receiver asks often enough; and each program has to end with the status that docs/MANUAL.md says.
#
# With NAMES only these parts: disk pipe interface stop processor. RIST in the environment stands for another program than the one that is
# built here. It takes six minutes, needs root, ip (Debian: iproute2), taskset (util-linux) and python3, and writes only below a new
# folder in /tmp. It ends with 1 where something isn't as it should be; where a tool isn't there, or without root, it says so and ends
# with status 3, without `recv` with status 4.
set -eu
here=$(cd "$(dirname "$0")" && pwd)
top=$(dirname "$here")
. "$here/recv_common.sh"
need python3 ip timeout env taskset mount
[ "$(id -u)" = 0 ] || { echo 'not root here'; exit 3; }
work=$(mktemp -d /tmp/faults.XXXXXX)
near=rist-near-$$ far=rist-far-$$ started=
trap 'kill -KILL $started 2> /dev/null || true; ip netns del $near 2> /dev/null || true; ip netns del $far 2> /dev/null || true
    umount "$work/small" 2> /dev/null || true; rm -rf "$work"' EXIT
if [ -z "${RIST-}" ]; then
    need_recv
    RIST=$top/crates/rist/out/rist
fi
rist="env --block-signal=INT,TERM $RIST"
python3 "$here/pieces.py" make "$work/source" 12000
bad=0

# judge FROM TO MOST: whether all that came are pieces of the source in order, each once, and none is missing but pieces from FROM to TO, MOST at most.
judge() {
    python3 - "$work/source" "$work/came" "$@" <<'PY'
import sys
source, came = (open(name, 'rb').read() for name in sys.argv[1:3])
start, stop, most = (int(word) for word in sys.argv[3:])
pieces = [source[at:at + 1316] for at in range(0, len(source), 1316)]
seen, wrong = [], 0
for at in range(0, len(came), 1316):
    piece = came[at:at + 1316]
    k = int.from_bytes(piece[1:5], 'big')
    if k >= len(pieces) or piece != pieces[k]:
        wrong += 1
    else:
        seen.append(k)
rising = all(one < two for one, two in zip(seen, seen[1:]))
gone = sorted(set(range(len(pieces))) - set(seen))
inside = all(start <= k < stop for k in gone)
print(f'  {len(seen)} of {len(pieces)} pieces came, ' + (f'missing {len(gone)} from {gone[0]} to {gone[-1]}' if gone else 'none missing')
      + ('' if rising else ', NOT in order') + (f', {wrong} ALTERED' if wrong else ''))
good = rising and not wrong and inside and len(gone) <= most
print('  as it should be' if good else '  FAILED')
sys.exit(not good)
PY
}

# ended NAME STATUS WANTED LOG
ended() {
    sed 's/^/  /' "$4"
    echo "  rist $1 ended with status $2"
    [ "$2" = "$3" ] || { echo "  FAILED: status $3 is wanted"; bad=1; }
}

chosen() { case " ${names:-disk pipe interface stop processor} " in *" $1 "*) ;; *) return 1 ;; esac }
names=$*

# receive OUT WORDS and send PORT WORDS: in the background, their ids in `receiver` and `sender`.
receive() {
    out=$1
    shift
    $rist recv "$out" 127.0.0.1:5000 --idle 8000 "$@" > "$work/log" 2>&1 &
    receiver=$!
    started="$started $receiver"
    sleep 0.5
}
send() {
    port=$1
    shift
    $rist send "$work/source" "127.0.0.1:$port" --gap 1000 "$@" > "$work/sent" 2>&1 &
    sender=$!
    started="$started $sender"
}

# both WANTED: waits for both; the receiver's status has to be WANTED.
both() {
    status=0 got=0
    wait $sender || status=$?
    wait $receiver || got=$?
    started=
    ended send "$status" 0 "$work/sent"
    ended recv "$got" "$1" "$work/log"
}

if chosen disk; then
    echo 'a disk that is full: 4 MB of room for 15.8 MB'
    mkdir "$work/small"
    mount -t tmpfs -o size=4m none "$work/small"
    receive "$work/small/out"
    send 5000
    both 5
    cp "$work/small/out" "$work/came"
    umount "$work/small"
    cmp -s -n "$(wc -c < "$work/came")" "$work/came" "$work/source" && echo "  OUT has the first $(wc -c < "$work/came") octets" ||
        { echo '  FAILED: OUT has other octets'; bad=1; }
fi

if chosen pipe; then
    echo 'a reader that goes after 2,000,000 octets'
    : > "$work/got"
    { got=0; $rist recv - 127.0.0.1:5000 --idle 8000 2> "$work/log" || got=$?; echo $got > "$work/got"; } | head -c 2000000 > "$work/came" &
    receiver=$!
    started="$started $receiver"
    sleep 0.5
    send 5000
    status=0
    wait $sender || status=$?
    wait $receiver || true
    for _ in $(seq 100); do
        [ -s "$work/got" ] && break
        sleep 0.1
    done
    started=
    ended send "$status" 0 "$work/sent"
    ended recv "$(cat "$work/got")" 5 "$work/log"
    cmp -s -n 2000000 "$work/came" "$work/source" || { echo '  FAILED: other octets'; bad=1; }
fi

# down SIDE DEVICE SECONDS DELAY TO MOST WORDS: the interface is down for so long, 3 s after the begin; up to the place TO so many pieces
# may be missing at most. WORDS are more of the receiver's.
down() {
    echo "the interface of the $1 is down for $3 s, a delay of $4 ms $7"
    rm -f "$work/came"
    timeout 60 ip netns exec "$far" $rist recv "$work/came" 10.9.0.2:5000 --idle 9000 --delay "$4" --span 8192 $7 > "$work/log" 2>&1 &
    receiver=$!
    sleep 0.5
    timeout 60 ip netns exec "$near" $rist send "$work/source" 10.9.0.2:5000 --gap 1000 --store 16384 --linger 7000 > "$work/sent" 2>&1 &
    sender=$!
    started="$receiver $sender"
    sleep 3
    space=$near
    [ "$1" = sender ] || space=$far
    ip -n "$space" link set "$2" down
    sleep "$3"
    ip -n "$space" link set "$2" up
    both 0
    judge 2500 "$5" "$6" || bad=1
}
if chosen interface; then
    ip netns add "$near"
    ip netns add "$far"
    ip link add near0 netns "$near" type veth peer name far0 netns "$far"
    ip -n "$near" addr add 10.9.0.1/24 dev near0
    ip -n "$far" addr add 10.9.0.2/24 dev far0
    ip -n "$near" link set near0 up
    ip -n "$far" link set far0 up
    sleep 1
    down receiver far0 0.5 2000 2500 0 ''
    down sender near0 0.5 2000 2500 0 ''
    down receiver far0 3 1000 7500 4500 ''
    down sender near0 3 1000 7500 4500 ''
    down receiver far0 3 1000 7500 4500 '--nack mask'
    down receiver far0 3 5000 7500 1500 ''
    down receiver far0 3 5000 7500 0 '--nack mask'
    down receiver far0 3 5000 7500 0 '--tries 32'
fi

# halt ID: it is stopped for five seconds, 3 s from now.
halt() {
    sleep 3
    kill -STOP "$1"
    sleep 5
    kill -CONT "$1"
}
if chosen stop; then
    echo 'recv is stopped for 5 s, a delay of 1,000 ms'
    receive "$work/came"
    send 5000
    halt $receiver
    both 0
    judge 2000 9500 7000 || bad=1

    echo 'send is stopped for 5 s, a delay of 1,000 ms and a span of 2,048'
    receive "$work/came"
    send 5000
    halt $sender
    both 0
    judge 2500 10500 5000 || bad=1

    echo 'the same, with a span of 16,384'
    receive "$work/came" --span 16384
    send 5000 --store 16384
    halt $sender
    both 0
    judge 2500 12000 5000 || bad=1

    echo 'gate is stopped for 5 s, a delay of 1,000 ms at both'
    receive "$work/came"
    $rist gate 127.0.0.1:4000 127.0.0.1:5000 --idle 8000 > "$work/gate" 2>&1 &
    gate=$!
    started="$started $gate"
    sleep 0.5
    send 4000
    halt $gate
    got=0
    wait $gate || got=$?
    ended gate "$got" 0 "$work/gate"
    both 0
    judge 2000 9500 7500 || bad=1
fi

if chosen processor; then
    for speed in 1000 250; do
        echo "all on one processor, with 4 per cent lost each way, a piece each $speed us"
        timeout 90 taskset -c 0 python3 "$here/relay.py" --lose 4 --lose-back 4 --delay 5 --seed 7 --whole 20 --quiet 6 --most 80 7000:5000 > "$work/relay" &
        relay=$!
        await_ready "$work/relay"
        rist="taskset -c 0 env --block-signal=INT,TERM $RIST"
        receive "$work/came" --span 8192
        $rist send "$work/source" 127.0.0.1:7000 --gap $speed > "$work/sent" 2>&1 &
        sender=$!
        started="$relay $receiver $sender"
        both 0
        kill $relay 2> /dev/null || true
        wait $relay 2> /dev/null || true
        grep relay: "$work/relay" | sed 's/^/  /'
        judge 11980 12000 20 || bad=1
        rist="env --block-signal=INT,TERM $RIST"
    done
fi
[ $bad = 0 ] && echo 'all as it should be' || echo 'FAILED'
exit $bad
