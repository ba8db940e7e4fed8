#!/bin/sh
# A stream that comes in datagrams of UDP and goes in such: a feeder gives pieces of 1,316 octets, one each millisecond, to
# `rist send udp://..`, whose datagrams pass relay.py to `rist recv .. udp://..`, and a reader takes what that plays out. The relay loses 5
# per cent of the datagrams each way and takes 5 ms for each. As it is, and as RTP at both ends, where every third packet of the feeder
# has sources, an extension and padding, and the reader looks at numbers and timestamps. Then both with datagrams of 1 to 1,500 octets, and
# among them empty ones and ones of 1,501, which have to be dropped: each has to come as it was sent. SIGTERM ends the sender. Octets, and of
# mixed datagrams their bounds, are compared: no piece may be missing but 20 at the end. It takes two minutes,
# needs python3, uses 127.0.0.1 alone and writes only below a new folder in /tmp. Where a tool isn't there it says so and ends with
# status 3; it ends with 1 where something is missing or a program ended with another status than 0.
# Words: how many pieces (8,000), microseconds between two (1,000), and a built program that stands for bin/rist (none).
set -eu
count=${1:-8000} gap=${2:-1000} program=${3:-}
here=$(cd "$(dirname "$0")" && pwd)
top=$(dirname "$here")
. "$here/recv_common.sh"
need python3 timeout
work=$(mktemp -d /tmp/udp_ends.XXXXXX)
started=
trap 'kill $started 2> /dev/null || true; rm -rf "$work"' EXIT
if [ -n "$program" ]; then
    rist="env --block-signal=INT,TERM $program"
else
    need_recv
    rist=$top/bin/rist
fi
python3 "$here/pieces.py" make "$work/source" "$count"

# try NAME SCHEME FED TAKEN: the stream with this scheme at both ends, fed and taken in these forms.
try() {
    name=$1 scheme=$2 fed=$3 taken=$4
    echo "$name"
    python3 "$here/relay.py" --lose 5 --lose-back 5 --delay 5 --seed 5 --whole 20 --quiet 6 --most 120 7000:5000 > "$work/relay" &
    relay=$!
    started="$relay"
    await_ready "$work/relay"
    python3 "$here/pieces.py" take "$work/came" 6001 $taken &
    reader=$!
    started="$started $reader"
    $rist recv "$scheme://127.0.0.1:6001" 127.0.0.1:5000 --idle 5000 > "$work/log" 2>&1 &
    receiver=$!
    started="$started $receiver"
    $rist send "$scheme://127.0.0.1:6000" 127.0.0.1:7000 --gap 100 --linger 2000 > "$work/sent" 2>&1 &
    sender=$!
    started="$started $sender"
    sleep 1
    python3 "$here/pieces.py" feed "$work/source" 6000 "$gap" $fed
    sleep 1
    kill -TERM $sender
    status=0 got=0
    wait $sender || status=$?
    wait $receiver || got=$?
    cat "$work/sent" "$work/log"
    wait $relay || true
    grep relay: "$work/relay" || true
    read=0 judged=0
    kill $reader 2> /dev/null || read=1
    wait $reader 2> /dev/null || true
    started=
    [ "$status" = 0 ] || echo "rist send ended with status $status"
    [ "$got" = 0 ] || echo "rist recv ended with status $got"
    [ "$read" = 0 ] || echo 'the reader ended before'
    case $taken in
    mixed*) python3 "$here/pieces.py" alike "$work/source" "$work/came" 20 || judged=1 ;;
    *) python3 "$here/pieces.py" compare "$work/source" "$work/came" 0 20 || judged=1 ;;
    esac
    [ "$status$got$read$judged" = 0000 ]
}

bad=0
try 'a piece in a datagram' udp '' '' || bad=1
try 'a piece in an RTP packet' rtp rtp rtp || bad=1
try 'datagrams of mixed lengths' udp mixed mixed || bad=1
try 'RTP packets of mixed lengths' rtp mixed-rtp mixed-rtp || bad=1
exit $bad
