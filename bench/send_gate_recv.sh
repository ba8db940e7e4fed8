#!/bin/sh
# Sends 8,000 pieces of 1,316 octets, one each millisecond, with `rist send` to `rist gate` and from there to `rist recv`, through
# relay.py on both hops, and compares octets. Each relay loses 4 per cent of the datagrams each way, takes 5 ms for each and up to
# 8 ms more for 2 per cent, and doubles 1 per cent: in the Simple Profile by both kinds of request; in the Main Profile enciphered,
# with null packets deleted, from a source that has some; and from the gateway on to `ristreceiver` of librist (Debian: rist-tools),
# where that is there. Pieces before the first that came and after the last can't be known to be missing; none may be missing
# between, and none may come twice. It takes two minutes, needs python3, uses 127.0.0.1 alone and writes only below a new folder
# in /tmp. Where a tool isn't there it says so and ends with status 3, without `gate` with status 4.
# Words: the relays' seed (default 1), how many pieces (8,000), microseconds between two (1,000).
set -eu
seed=${1:-1} count=${2:-8000} gap=${3:-1000}
here=$(cd "$(dirname "$0")" && pwd)
top=$(dirname "$here")
. "$here/recv_common.sh"
need python3 timeout
work=$(mktemp -d /tmp/send_gate_recv.XXXXXX)
started=
trap 'kill $started 2> /dev/null || true; rm -rf "$work"' EXIT
need_recv
"$top/bin/rist" gate 127.0.0.1:5000 127.0.0.1:7100 --turns 1 > "$work/log" 2>&1 || { cat "$work/log"; echo 'this rist has no gate'; exit 4; }
loss='--lose 4 --lose-back 4 --delay 5 --late 2 --later 8 --double 1 --whole 20 --quiet 6'

# relay WORDS LINKS NAME: a relay that is ready.
relay() {
    timeout 80 python3 "$here/relay.py" $loss --seed "$seed" $1 $2 > "$work/$3" &
    started="$started $!"
    await_ready "$work/$3"
}

# gate WORDS: from the first relay to the second.
gate() {
    timeout 80 "$top/bin/rist" gate 127.0.0.1:5000 127.0.0.1:7100 --idle 4000 $1 > "$work/gate" 2>&1 &
    gate=$!
    started="$started $gate"
}

# send NAME WORDS: the source to the first relay.
send() {
    status=0
    timeout 80 "$top/bin/rist" send "$work/source" 127.0.0.1:7000 --gap "$gap" --linger 2000 $1 || status=$?
    [ "$status" = 0 ] || echo "rist send ended with status $status"
}

# ended: the gateway and both relays.
ended() {
    gated=0
    wait $gate || gated=$?
    cat "$work/gate"
    [ "$gated" = 0 ] || echo "rist gate ended with status $gated"
    for end in $started; do wait "$end" || true; done
    started=
    grep -h relay: "$work/first" "$work/second"
}

# try NAME SESSION SEND RECV RELAY MAKE: over both hops, with the session's words and those of each end.
try() {
    name=$1 session=$2 send=$3 recv=$4 relay=$5 make=$6
    echo "$name"
    python3 "$here/pieces.py" make "$work/source" "$count" $make
    relay "$relay" 7000:5000 first
    relay "$relay" 7100:5100 second
    timeout 80 "$top/bin/rist" recv "$work/came" 127.0.0.1:5100 --idle 5000 $session $recv > "$work/log" 2>&1 &
    receiver=$!
    gate "$session $send $recv"
    sleep 0.3
    send "$session $send"
    got=0
    wait $receiver || got=$?
    cat "$work/log"
    ended
    [ "$got" = 0 ] || { echo "rist recv ended with status $got"; return 1; }
    python3 "$here/pieces.py" compare "$work/source" "$work/came" 0 20 && [ "$status$gated" = 00 ]
}

bad=0
try 'Simple Profile, range requests' '' '' '' '' '' || bad=1
try 'Simple Profile, mask requests' '' "--first $((65536 - count / 2))" '--nack mask' '' '' || bad=1
try 'Main Profile, enciphered, nulls deleted' '--profile main --pass secret' '--nulls' '' --one-port nulls || bad=1

if command -v ristreceiver > /dev/null; then
    echo 'Simple Profile, from the gateway to ristreceiver'
    python3 "$here/pieces.py" make "$work/source" "$count"
    relay '' 7000:5000 first
    relay '--lose 0 --lose-back 0' 7100:5100 second
    python3 "$here/pieces.py" take "$work/came" 6000 &
    taker=$!
    ristreceiver -p 0 -i 'rist://@127.0.0.1:5100' -o 'udp://127.0.0.1:6000' > "$work/log" 2>&1 &
    librist=$!
    started="$taker $librist $started"
    sleep 1
    gate ''
    sleep 0.3
    send ''
    sleep 3
    kill $librist
    sleep 0.5
    kill $taker
    ended
    # It drops what comes before it saw the first report of its sender.
    python3 "$here/pieces.py" compare "$work/source" "$work/came" 100 20 && [ "$status$gated" = 00 ] || bad=1
else
    echo 'no ristreceiver here (Debian: rist-tools): not tried'
fi
exit $bad
