#!/bin/sh
# Caller and listener exchanged, in the Main Profile: the receiver calls and the sender listens. 3,000 pieces of 1,316 octets, one each 3 ms,
# through relay.py as the receiver's NAT, with 5 per cent of the datagrams lost each way: `rist send --listen` to `rist recv --call`, in clear,
# under AES-128, and as the second of two flows to `rist fan --call`; `ristsender` as listener (Debian: rist-tools 0.2.7) to `rist recv --call`, and
# `rist send --listen` to `ristreceiver` as caller, both in clear, under AES-128 and AES-256. What came is compared octet for octet. Pieces before
# the first that came and after the last can't be known to be missing: at most two before, and twenty after where librist sends, since its sender
# is stopped. None may be missing between.
#
# With NAMES only the runs of these names, as `own-clear from-librist-128`. COUNT, GAP (microseconds) and RIST in the environment stand for
# another count of pieces, another gap, and another program than the one that is built here. It takes four minutes, needs python3, uses
# 127.0.0.1 alone and writes only below a new folder in /tmp. It ends with 1 where something is missing; where a tool isn't there it says so and
# ends with status 3, without `recv` with status 4.
set -eu
here=$(cd "$(dirname "$0")" && pwd)
top=$(dirname "$here")
. "$here/recv_common.sh"
need ristsender ristreceiver python3 timeout
work=$(mktemp -d /tmp/callers.XXXXXX)
started=
trap 'kill $started 2> /dev/null || true; rm -rf "$work"' EXIT
if [ -z "${RIST-}" ]; then
    need_recv
    RIST=$top/bin/rist
fi
count=${COUNT:-3000} gap=${GAP:-3000}
python3 "$here/pieces.py" make "$work/plain" "$count"
wanted=" $* "
# The receiver sends to port 7000, the sender is bound to 5000.
lossy='--one-port --lose 5 --lose-back 5 --delay 5 --seed 61 --quiet 6 7000:5000'
sealed='--pass drill --bits'

# chosen NAME: whether the run of this name is wanted; it says so.
chosen() {
    [ "$wanted" = '  ' ] || case $wanted in *" $1 "*) ;; *) return 1 ;; esac
    echo "$1"
}

# relayed: starts the relay, whose process is the first of `started`.
relayed() {
    timeout 120 python3 "$here/relay.py" $lossy --most 100 > "$work/relay" &
    started="$!"
    await_ready "$work/relay"
}

# ended WORDS..: ends what was started, and compares the source SOURCE with what came.
ended() {
    kill $started 2> /dev/null || true
    wait $started 2> /dev/null || true
    started=
    grep relay: "$work/relay"
    python3 "$here/pieces.py" compare "$@"
}

# listening WORDS..: `rist send --listen` with these words, once a receiver calls. Its status is this function's.
listening() {
    timeout 100 "$RIST" send "$work/plain" 127.0.0.1:5000 --listen --profile main --lead 1000 --gap "$gap" --linger 2000 "$@" \
        > "$work/log" 2>&1
}

# own NAME WORDS: both ends are this program.
own() {
    chosen "$1" || return 0
    rm -f "$work/came"
    relayed
    relay=$started
    timeout 120 "$RIST" recv "$work/came" 127.0.0.1:7000 --call --profile main --idle 4000 $2 > "$work/recv" 2>&1 &
    receiver=$!
    started="$started $receiver"
    sleep 0.5
    status=0
    listening $2 || status=$?
    wait $receiver || status=$?
    cat "$work/log" "$work/recv"
    started=$relay
    ended "$work/plain" "$work/came" 0 0 && [ "$status" = 0 ]
}

# from_librist NAME LIBRIST WORDS: ristsender listens, and `rist recv` calls it.
from_librist() {
    chosen "$1" || return 0
    rm -f "$work/came"
    relayed
    relay=$started
    timeout 100 ristsender -p 1 $2 -i udp://@127.0.0.1:6000 -o 'rist://@127.0.0.1:5000?buffer=1000' > "$work/librist" 2>&1 &
    sender=$!
    started="$started $sender"
    sleep 0.5
    timeout 120 "$RIST" recv "$work/came" 127.0.0.1:7000 --call --profile main --tunnel librist --idle 5000 $3 > "$work/recv" 2>&1 &
    receiver=$!
    started="$started $receiver"
    sleep 1.5
    timeout 60 python3 "$here/pieces.py" feed "$work/plain" 6000 "$gap"
    sleep 3
    kill $sender
    status=0
    wait $receiver || status=$?
    cat "$work/recv"
    started=$relay
    ended "$work/plain" "$work/came" 2 20 && [ "$status" = 0 ]
}

# to_librist NAME LIBRIST WORDS: `rist send` listens, and ristreceiver calls it.
to_librist() {
    chosen "$1" || return 0
    rm -f "$work/came"
    relayed
    timeout 120 python3 "$here/pieces.py" take "$work/came" 6000 &
    started="$started $!"
    timeout 120 ristreceiver -p 1 $2 -i 'rist://127.0.0.1:7000?buffer=1000' -o udp://127.0.0.1:6000 > "$work/librist" 2>&1 &
    started="$started $!"
    sleep 0.5
    status=0
    listening --tunnel librist $3 || status=$?
    sleep 1
    cat "$work/log"
    ended "$work/plain" "$work/came" 2 2 && [ "$status" = 0 ]
}

# fan NAME: two senders' flows lie in one tunnel only where one program sends them: here one flow, at the second of two ports.
fan() {
    chosen "$1" || return 0
    rm -f "$work/came"
    relayed
    relay=$started
    timeout 120 "$RIST" fan "1968=$work/none,1970=$work/came" 127.0.0.1:7000 --call --idle 4000 > "$work/recv" 2>&1 &
    receiver=$!
    started="$started $receiver"
    sleep 0.5
    status=0
    listening --port 1970 || status=$?
    wait $receiver || status=$?
    cat "$work/log" "$work/recv"
    started=$relay
    ended "$work/plain" "$work/came" 0 0 && [ "$status" = 0 ] && [ ! -s "$work/none" ]
}

bad=0
own own-clear '' || bad=1
own own-128 "$sealed 128" || bad=1
fan fan-clear || bad=1
from_librist from-librist-clear '' '' || bad=1
from_librist from-librist-128 '-s drill -e 128' "$sealed 128" || bad=1
from_librist from-librist-256 '-s drill -e 256' "$sealed 256" || bad=1
to_librist to-librist-clear '' '' || bad=1
to_librist to-librist-128 '-s drill -e 128' "$sealed 128" || bad=1
to_librist to-librist-256 '-s drill -e 256' "$sealed 256" || bad=1
exit $bad
