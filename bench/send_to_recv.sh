#!/bin/sh
# Sends 8,000 pieces of 1,316 octets, one each millisecond, with `rist send` to `rist recv` through relay.py, and compares octets.
# The relay loses 4 per cent of the datagrams each way, takes 5 ms for each and up to 8 ms more for 2 per cent, and doubles 1 per
# cent: by both kinds of request, in the Simple Profile and enciphered in the Main Profile; then on two links of which one is cut
# in the middle. Pieces before the first that came and after the last can't be known to be missing; none may be missing between,
# and none may come twice. It takes two minutes, needs python3, uses 127.0.0.1 alone and writes only below a new folder in /tmp.
# Where a tool isn't there it says so and ends with status 3, without `recv` with status 4.
# Words: the relay's seed (default 1), how many pieces (8,000), microseconds between two (1,000).
set -eu
seed=${1:-1} count=${2:-8000} gap=${3:-1000}
here=$(cd "$(dirname "$0")" && pwd)
top=$(dirname "$here")
. "$here/recv_common.sh"
need python3 timeout
work=$(mktemp -d /tmp/send_to_recv.XXXXXX)
started=
trap 'kill $started 2> /dev/null || true; rm -rf "$work"' EXIT
need_recv
python3 "$here/pieces.py" make "$work/source" "$count"
loss='--lose 4 --lose-back 4 --delay 5 --late 2 --later 8 --double 1 --whole 20 --quiet 4'

# try NAME SESSION SEND RECV RELAY LINKS INS OUTS: a sending to INS and a receiving at OUTS with the session's words and those of
# each, and a relay with the words RELAY between them.
try() {
    name=$1 session=$2 send=$3 recv=$4 relay=$5 links=$6 ins=$7 outs=$8
    echo "$name"
    timeout 60 python3 "$here/relay.py" $loss --seed "$seed" $relay $links > "$work/relay" &
    started="$!"
    await_ready "$work/relay"
    timeout 60 "$top/bin/rist" recv "$work/came" $outs --idle 3000 $session $recv > "$work/log" 2>&1 &
    receiver=$!
    started="$started $receiver"
    sleep 0.3
    status=0
    timeout 60 "$top/bin/rist" send "$work/source" $ins --gap "$gap" --linger 2000 $session $send || status=$?
    [ "$status" = 0 ] || echo "rist send ended with status $status"
    got=0
    wait $receiver || got=$?
    cat "$work/log"
    wait ${started%% *} || true
    started=
    grep relay: "$work/relay"
    [ "$got" = 0 ] || { echo "rist recv ended with status $got"; return 1; }
    python3 "$here/pieces.py" compare "$work/source" "$work/came" 0 20 && [ "$status" = 0 ]
}

bad=0
keyed='--profile main --pass secret'
half=$((count / 2))
one=7000:5000 in=127.0.0.1:7000 out=127.0.0.1:5000
# With mask requests the sequence numbers wrap in the middle.
for nack in range mask; do
    first=0
    [ $nack = range ] || first=$((65536 - half))
    try "Simple Profile, $nack requests" '' "--first $first" "--nack $nack" '' $one $in $out || bad=1
    try "Main Profile, enciphered, $nack requests" "$keyed" "--first $first" "--nack $nack" --one-port $one $in $out || bad=1
done
# Until the cut link's worker ends, half of the requests go there: more of them are allowed.
two='7000:5000 7002:5002' ins='127.0.0.1:7000 127.0.0.1:7002' outs='127.0.0.1:5000 127.0.0.1:5002' tries='--tries 20'
try 'two links, one cut in the middle' '' '' "$tries" "--cut 1@$half" "$two" "$ins" "$outs" || bad=1
try 'two links, enciphered, one cut in the middle' "$keyed" '' "$tries" "--one-port --cut 0@$half" "$two" "$ins" "$outs" || bad=1
exit $bad
