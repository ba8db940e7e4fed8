#!/bin/sh
# Links over IPv6, and two uplinks to one destination. First a stream of 2,000 pieces of 1,316 octets from `rist send` to
# `rist recv` over [::1], by an address, a URL, in the tunnel and by a name, and one from `udp://[::1]` to `udp://[::1]`. Then
# two machines, network namespaces with two pairs of interfaces between them, and one address of the far one that both ways
# lead to: `rist send` on two links to it, each with its `from=`, and a rule for each; the first way is taken down in the
# middle. 6,000 pieces, one each millisecond, must all come, in order, over IPv4 and over IPv6; each way must carry its share.
# At last faulty links, each with its status and the last line of its error output. It takes a minute, needs root, python3, ip
# (Debian: iproute2) and unshare (util-linux), and writes only below a new folder in /tmp. Where a tool isn't there it says so
# and ends with status 3. RIST in the environment stands for another program than the one that is built here. It ends with 1
# where anything differs.
set -eu
here=$(cd "$(dirname "$0")" && pwd)
top=$(dirname "$here")
. "$here/recv_common.sh"
need python3 ip timeout cmp unshare
[ "$(id -u)" = 0 ] || { echo 'not root here'; exit 3; }
work=$(mktemp -d /tmp/paths.XXXXXX)
near=rist-near-$$ far=rist-far-$$ started=
trap 'kill $started 2> /dev/null || true; ip netns del $near 2> /dev/null || true; ip netns del $far 2> /dev/null || true; rm -rf "$work"' EXIT
if [ -z "${RIST-}" ]; then
    need_recv
    RIST=$top/crates/rist/out/rist
fi
python3 "$here/pieces.py" make "$work/short" 2000
python3 "$here/pieces.py" make "$work/long" 6000
bad=0

# same NAME SOURCE: whether what came is the source, octet for octet.
same() {
    if cmp -s "$work/$2" "$work/came"; then
        echo "$1: all came"
    else
        echo "$1: $(wc -c < "$work/came") of $(wc -c < "$work/$2") octets came, or others"
        cat "$work/log"
        bad=1
    fi
}

# alone RECV_LINK SEND_LINK WORDS..: the short stream from one link to the other on this machine, both with these words.
alone() {
    into=$1
    onto=$2
    shift 2
    timeout 60 "$RIST" recv "$work/came" "$into" --idle 3000 "$@" > "$work/log" 2>&1 &
    started=$!
    sleep 0.5
    timeout 60 "$RIST" send "$work/short" "$onto" --linger 1500 "$@" || bad=1
    wait "$started" || bad=1
    started=
    same "$onto to $into $*" short
}

alone '[::1]:5000' '[::1]:5000'
alone 'rist://@[::]:5000?buffer=500' 'rist://[::1]:5000?from=::1'
alone '[0:0:0:0:0:0:0:1]:5001' '[::1]:5001' --profile main --pass x

# A name with addresses of IPv6 alone, of which the first one counts: the system's hosts are stood in for where the sender runs.
printf '::1 far.invalid\nfd08::2 far.invalid\n' > "$work/hosts"
timeout 60 "$RIST" recv "$work/came" '[::1]:5000' --idle 3000 > "$work/log" 2>&1 &
started=$!
sleep 0.5
timeout 60 unshare -m sh -c 'mount --bind "$1/hosts" /etc/hosts && exec "$2" send "$1/short" far.invalid:5000 --linger 1500' - "$work" "$RIST" || bad=1
wait "$started" || bad=1
started=
same 'far.invalid:5000 to [::1]:5000' short

# A feeder gives the pieces to [::1]:5602, `rist send` and `rist recv` carry them, and a reader at [::1]:5604 writes what comes.
timeout 60 python3 - "$work/came" <<'PYTHON' &
import socket, sys
it = socket.socket(socket.AF_INET6, socket.SOCK_DGRAM)
it.setsockopt(socket.SOL_SOCKET, socket.SO_RCVBUF, 4194304)
it.bind(("::1", 5604))
it.settimeout(15)
with open(sys.argv[1], "wb") as out:
    try:
        while True:
            out.write(it.recv(2048))
            it.settimeout(4)
    except TimeoutError:
        pass
PYTHON
reader=$!
timeout 60 "$RIST" recv 'udp://[::1]:5604?from=::1' '[::1]:5000' --idle 4000 > "$work/log" 2>&1 &
receiver=$!
timeout 20 "$RIST" send 'udp://[::1]:5602' '[::1]:5000' --gap 1 --linger 1500 > "$work/sender" 2>&1 &
sender=$!
started="$reader $receiver $sender"
sleep 0.7
python3 - "$work/short" <<'PYTHON'
import socket, sys, time
it = socket.socket(socket.AF_INET6, socket.SOCK_DGRAM)
octets = open(sys.argv[1], "rb").read()
for at in range(0, len(octets), 1316):
    it.sendto(octets[at:at + 1316], ("::1", 5602))
    time.sleep(0.001)
PYTHON
wait "$reader" || bad=1
kill "$sender" 2> /dev/null || true
wait "$sender" 2> /dev/null || true
wait "$receiver" || bad=1
started=
same 'udp://[::1]:5602 to udp://[::1]:5604' short

ip netns add "$near"
ip netns add "$far"
ip -n "$near" link set lo up
ip -n "$far" link set lo up
for path in 0 1; do
    ip link add "near$path" netns "$near" type veth peer name "far$path" netns "$far"
    ip -n "$near" addr add "10.9.$path.1/24" dev "near$path"
    ip -n "$far" addr add "10.9.$path.2/24" dev "far$path"
    ip -n "$near" addr add "fd09:$path::1/64" dev "near$path" nodad
    ip -n "$far" addr add "fd09:$path::2/64" dev "far$path" nodad
    ip -n "$near" link set "near$path" up
    ip -n "$far" link set "far$path" up
done
ip netns exec "$near" sh -c 'for it in /proc/sys/net/ipv4/conf/*/rp_filter; do echo 0 > $it; done'
ip -n "$far" addr add 10.8.0.1/32 dev lo
ip -n "$far" addr add fd08::1/128 dev lo nodad

# ways: a rule and a table for each address of the near machine; they go with an interface that is taken down.
ways() {
    for path in 0 1; do
        ip -n "$near" rule add from "10.9.$path.1" lookup "10$path" 2> /dev/null || true
        ip -n "$near" route replace 10.8.0.1 via "10.9.$path.2" dev "near$path" table "10$path"
        ip -n "$near" -6 rule add from "fd09:$path::1" lookup "10$path" 2> /dev/null || true
        ip -n "$near" -6 route replace fd08::1 via "fd09:$path::2" dev "near$path" table "10$path"
    done
}

# sent PATH: how many packets left by this interface of the near machine.
sent() {
    ip netns exec "$near" cat "/sys/class/net/near$1/statistics/tx_packets"
}

# uplinks LINK FIRST SECOND: the long stream to one link from two addresses, of which the first one's way is cut after 3 s.
uplinks() {
    ways
    sleep 1
    before0=$(sent 0)
    before1=$(sent 1)
    timeout 60 ip netns exec "$far" "$RIST" recv "$work/came" "$1" --idle 3000 > "$work/log" 2>&1 &
    receiver=$!
    started=$receiver
    sleep 0.5
    timeout 60 ip netns exec "$near" "$RIST" send "$work/long" "$1?from=$2" "$1?from=$3" --gap 1000 > "$work/sender" 2>&1 &
    sender=$!
    started="$started $sender"
    sleep 3
    ip -n "$near" link set near0 down
    wait "$sender" || bad=1
    cat "$work/sender"
    wait "$receiver" || bad=1
    started=
    same "$2 and $3 to $1, the first cut" long
    first=$(($(sent 0) - before0))
    second=$(($(sent 1) - before1))
    echo "packets by the two ways: $first and $second"
    { [ "$first" -gt 1500 ] && [ "$first" -lt 5000 ] && [ "$second" -gt 5900 ]; } || bad=1
    ip -n "$near" link set near0 up
    ip -n "$near" addr replace "fd09:0::1/64" dev near0 nodad
}

uplinks 10.8.0.1:5000 10.9.0.1 10.9.1.1
uplinks '[fd08::1]:5000' fd09:0::1 fd09:1::1

# refused STATUS TEXT WORDS..: the words end with this status, and the last line of the error output is this text.
refused() {
    status=$1
    text=$2
    shift 2
    found=0
    timeout 60 "$RIST" "$@" > "$work/out" 2> "$work/log" || found=$?
    said=$(tail -n 1 "$work/log")
    if [ "$found" = "$status" ] && [ "$said" = "rist: $text" ]; then
        echo "$*: $text"
    else
        echo "$*: status $found and '$said', not status $status and 'rist: $text'"
        bad=1
    fi
}

place='an address and a port, as 127.0.0.1:5000 or [::1]:5000'
settings='behind ? stand from= with an address of the same kind, ttl=1..255 for IPv4, or both by &'
bound='a link that listens is bound to its address, and takes nothing behind it'
refused 2 'no HOST:PORT in rist://::1:5000' send "$work/short" rist://::1:5000
refused 2 'no HOST:PORT in rist://[1::2::3]:5000' send "$work/short" 'rist://[1::2::3]:5000'
refused 2 'no HOST:PORT in rist://[10.9.0.1]:5000' send "$work/short" 'rist://[10.9.0.1]:5000'
refused 2 "LINK ::1:5000: $place (rist send --help)" send "$work/short" ::1:5000
refused 2 "LINK [fe80::1%eth0]:5000: $place (rist send --help)" send "$work/short" '[fe80::1%eth0]:5000'
refused 2 "LINK 10.8.0.1:5000?from=::1: $settings (rist send --help)" send "$work/short" 'rist://10.8.0.1:5000?from=::1'
refused 2 "LINK [::1]:5000?ttl=8: $settings (rist send --help)" send "$work/short" '[::1]:5000?ttl=8'
refused 2 "LINK 10.8.0.1:5000?from=eth0: $settings (rist send --help)" send "$work/short" '10.8.0.1:5000?from=eth0'
refused 2 "LINK [::1]:5000?from=::1: $bound (rist recv --help)" recv "$work/out.ts" 'rist://[::1]:5000?from=::1'
refused 2 "LINK [::1]:5000?from=::1: $bound (rist gate --help)" gate '[::1]:5000?from=::1' '[::1]:6000?from=::1'
refused 3 '192.0.2.1:0: Cannot assign requested address (os error 99)' send "$work/short" '10.8.0.1:5000?from=192.0.2.1'
[ "$bad" = 0 ] || exit 1
echo 'all as stated'
