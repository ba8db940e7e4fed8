#!/bin/sh
# Sends 8,000 pieces of 1,316 octets, one each millisecond, with librist's `ristsender` (Debian: rist-tools) to `rist recv`, and
# compares octets: straight, and through relay.py with 4 per cent of the datagrams lost each way, by both kinds of request; then
# with each datagram on two links, of which one is cut in the middle, and as many lost.
# Pieces before the first that came and after the last can't be known to be missing; none may be missing between, and none may
# come twice. It takes a minute and a half, needs python3, uses 127.0.0.1 alone and writes only below a new folder in /tmp. Where a
# tool isn't there it says so and ends with status 3, without `recv` with status 4.
set -eu
here=$(cd "$(dirname "$0")" && pwd)
top=$(dirname "$here")
. "$here/recv_common.sh"
need ristsender python3 timeout
work=$(mktemp -d /tmp/librist_to_recv.XXXXXX)
started=
trap 'kill $started 2> /dev/null || true; rm -rf "$work"' EXIT
need_recv
python3 "$here/pieces.py" make "$work/source" 8000

# try NAME TO RELAY RECV: what `recv RECV` gets of ristsender, which sends to the links TO, through a relay with the words RELAY, if any.
try() {
    name=$1 to=$2 relay=$3 recv=$4
    echo "$name"
    started=
    if [ -n "$relay" ]; then
        timeout 60 python3 "$here/relay.py" $relay > "$work/relay" &
        started="$!"
        await_ready "$work/relay"
    fi
    timeout 60 "$top/bin/rist" recv "$work/came" $recv --idle 4000 > "$work/log" 2>&1 &
    receiver=$!
    sleep 0.5
    timeout 60 ristsender -p 0 -i 'udp://@127.0.0.1:6000' -o "$to" > "$work/ristsender" 2>&1 &
    sender=$!
    started="$started $receiver $sender"
    sleep 1.5
    timeout 60 python3 "$here/pieces.py" feed "$work/source" 6000 1000
    sleep 3
    kill $sender
    status=0
    wait $receiver || status=$?
    cat "$work/log"
    if [ -n "$relay" ]; then
        wait ${started%% *} || true
        grep relay: "$work/relay"
    fi
    started=
    [ "$status" = 0 ] || { echo "rist recv ended with status $status"; return 1; }
    python3 "$here/pieces.py" compare "$work/source" "$work/came" 100 20
}

bad=0
one='rist://127.0.0.1:7000'
try 'straight' 'rist://127.0.0.1:5000' '' '127.0.0.1:5000' || bad=1
lossy='--lose 4 --lose-back 4 --delay 5 --seed 7 --whole 100 --quiet 3'
try '4 per cent lost each way, range requests' "$one" "$lossy 7000:5000" '127.0.0.1:5000 --nack range' || bad=1
try '4 per cent lost each way, mask requests' "$one" "$lossy 7000:5000" '127.0.0.1:5000 --nack mask' || bad=1
# After the cut half of the requests go to the dead link (docs/MANUAL.md).
try 'two links, the second cut after 4,000, 4 per cent lost each way' "$one,rist://127.0.0.1:7100" \
    "$lossy --cut 1@4000 7000:5000 7100:5100" '127.0.0.1:5000 127.0.0.1:5100 --tries 20' || bad=1
exit $bad
