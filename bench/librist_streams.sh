#!/bin/sh
# Two streams in one tunnel of librist's (Debian: rist-tools 0.2.7), captured and split: `ristsender` with two inputs of different
# `stream-id`, through relay.py to `ristreceiver`; tcpdump writes what comes to the receiver's port, and `rist split` makes a file of
# each stream of it.
#
# First nothing is lost, some datagrams are late and some doubled, in clear and under AES-128: each file is compared octet for octet
# with what was fed. At most two pieces before the first that came and twenty after the last may be missing, since the sender is
# stopped, and none between. Then 5 per cent are lost each way: each file is compared with the pieces of its stream that the capture
# has. A `ristreceiver` 0.2.7 follows one stream of a sender at a time, so not all that is lost is asked for.
#
# COUNT, GAP (microseconds) and RIST in the environment stand for another count of pieces, another gap, and another program than the
# one that is built here. It takes a minute, wants root for tcpdump, uses 127.0.0.1 alone and writes only below a new folder in /tmp. It ends
# with 1 where something is missing; where a tool isn't there it says so and ends with status 3.
set -eu
here=$(cd "$(dirname "$0")" && pwd)
top=$(dirname "$here")
. "$here/recv_common.sh"
need ristsender ristreceiver tcpdump python3 timeout
work=$(mktemp -d /tmp/librist_streams.XXXXXX)
chmod 755 "$work"
started=
trap 'kill $started 2> /dev/null || true; rm -rf "$work"' EXIT
RIST=${RIST:-$top/bin/rist}
count=${COUNT:-3000} gap=${GAP:-3000}
python3 "$here/pieces.py" make "$work/one" "$count"
python3 "$here/pieces.py" make "$work/two" "$count" nulls

# capture NAME LIBRIST RELAY..: a capture of both streams with the words LIBRIST for librist, and RELAY.. for the relay.
capture() {
    name=$1 words=$2
    shift 2
    timeout 120 python3 "$here/relay.py" --one-port --seed 61 --quiet 4 --most 100 "$@" 7000:5000 > "$work/relay" &
    started="$!"
    await_ready "$work/relay"
    timeout 120 tcpdump -i lo -U -w "$work/link.pcap" 'udp dst port 5000' > "$work/tcpdump" 2>&1 &
    started="$started $!"
    timeout 120 ristreceiver -p 1 $words -i 'rist://@127.0.0.1:5000?buffer=1000' -o udp://127.0.0.1:6900 > "$work/receiver" 2>&1 &
    started="$started $!"
    sleep 1
    timeout 120 ristsender -p 1 $words -i 'udp://@127.0.0.1:6000?stream-id=1000,udp://@127.0.0.1:6100?stream-id=2000' \
        -o 'rist://127.0.0.1:7000?buffer=1000' > "$work/sender" 2>&1 &
    started="$started $!"
    sleep 1.5
    timeout 60 python3 "$here/pieces.py" feed "$work/one" 6000 "$gap" &
    feed=$!
    timeout 60 python3 "$here/pieces.py" feed "$work/two" 6100 "$gap"
    wait $feed
    sleep 3
    kill $started 2> /dev/null || true
    wait $started 2> /dev/null || true
    started=
    sed "s/^relay:/$name:/" "$work/relay" | grep "^$name:" || true
}

# split OPTION..: both streams of the capture.
split() {
    "$RIST" split --tunnel librist "$@" --pcap --udp 5000 "$work/link.pcap" "1000=$work/first,2000=$work/second"
}

# compare_fed: what came of both streams beside what was fed.
compare_fed() {
    python3 "$here/pieces.py" compare "$work/one" "$work/first" 2 20 || bad=1
    python3 "$here/pieces.py" compare "$work/two" "$work/second" 2 20 || bad=1
}

bad=0
capture clear '' --late 5 --double 3 --delay 5
if split; then compare_fed; else bad=1; fi
capture sealed '-s drill -e 128' --late 5 --double 3 --delay 5
if split --pass drill; then compare_fed; else bad=1; fi
capture lossy '' --lose 5 --lose-back 5 --delay 5
if split --delay 10000 --span 16384; then
    python3 "$here/pieces.py" held "$work/one" "$work/link.pcap" "$work/first" || bad=1
    python3 "$here/pieces.py" held "$work/two" "$work/link.pcap" "$work/second" || bad=1
else
    bad=1
fi
exit $bad
