#!/bin/sh
# The Main Profile with librist's tools (Debian: rist-tools 0.2.7) at the other end, under `--tunnel librist`: 3,000 pieces of 1,316
# octets, one each 3 ms, through relay.py with 5 per cent of the datagrams lost each way, `rist send` to `ristreceiver` and `ristsender`
# to `rist recv`: in clear, under AES-128 and AES-256, and with null packets deleted, each enciphered and in clear. What came is compared
# octet for octet. Pieces before the first that came and after the last can't be known to be missing: at most two before, and twenty after
# where librist sends, since its sender is stopped. None may be missing between. Then `send` through `gate` to `ristreceiver`, in clear and enciphered, and
# from the Simple Profile into an enciphered tunnel.
#
# With NAMES only the runs of these names, as `send-clear recv-128 gate-128`. COUNT, GAP (microseconds) and RIST in the environment stand
# for another count of pieces, another gap, and another program than the one that is built here. It takes five minutes, needs python3,
# uses 127.0.0.1 alone and writes only below a new folder in /tmp. It ends with 1 where something is missing; where a tool isn't there it
# says so and ends with status 3, without `recv` with status 4.
set -eu
here=$(cd "$(dirname "$0")" && pwd)
top=$(dirname "$here")
. "$here/recv_common.sh"
need ristsender ristreceiver python3 timeout
work=$(mktemp -d /tmp/librist_tunnel.XXXXXX)
started=
trap 'kill $started 2> /dev/null || true; rm -rf "$work"' EXIT
if [ -z "${RIST-}" ]; then
    need_recv
    RIST=$top/bin/rist
fi
count=${COUNT:-3000} gap=${GAP:-3000}
python3 "$here/pieces.py" make "$work/plain" "$count"
python3 "$here/pieces.py" make "$work/nulls" "$count" nulls
wanted=" $* "
lossy='--one-port --lose 5 --lose-back 5 --delay 5 --seed 61 --quiet 4 7000:5000'
sealed='--pass drill --bits'
tunnel='--profile main --tunnel librist'

# chosen NAME: whether the run of this name is wanted; it says so.
chosen() {
    [ "$wanted" = '  ' ] || case $wanted in *" $1 "*) ;; *) return 1 ;; esac
    echo "$1"
}

# relayed: starts the relay, whose process is the first of `started`.
relayed() {
    timeout 120 python3 "$here/relay.py" $lossy --most 100 > "$work/relay" &
    started="$!"
    await_ready "$work/relay"
}

# taken LIBRIST: what ristreceiver with the words LIBRIST gives out, to the file `came`.
taken() {
    rm -f "$work/came"
    timeout 120 python3 "$here/pieces.py" take "$work/came" 6000 &
    started="$started $!"
    timeout 120 ristreceiver -p 1 $1 -i 'rist://@127.0.0.1:5000?buffer=1000' -o udp://127.0.0.1:6000 > "$work/librist" 2>&1 &
    started="$started $!"
    sleep 1.5
}

# ended WORDS..: ends what was started, and compares the source SOURCE with what came.
ended() {
    kill $started 2> /dev/null || true
    wait $started 2> /dev/null || true
    started=
    grep relay: "$work/relay"
    python3 "$here/pieces.py" compare "$@"
}

# sent NAME SOURCE LIBRIST RIST: `rist send` to ristreceiver.
sent() {
    chosen "$1" || return 0
    relayed
    taken "$3"
    status=0
    timeout 100 "$RIST" send "$work/$2" 127.0.0.1:7000 --profile main --tunnel librist --lead 200 --gap "$gap" --linger 2000 $4 \
        > "$work/log" 2>&1 || status=$?
    sleep 1
    cat "$work/log"
    ended "$work/$2" "$work/came" 2 2 && [ "$status" = 0 ]
}

# received NAME SOURCE LIBRIST RIST: ristsender to `rist recv`.
received() {
    chosen "$1" || return 0
    rm -f "$work/came"
    relayed
    relay=$started
    timeout 120 "$RIST" recv "$work/came" 127.0.0.1:5000 --profile main --tunnel librist --idle 4000 $4 > "$work/log" 2>&1 &
    receiver=$!
    started="$started $receiver"
    sleep 0.5
    timeout 100 ristsender -p 1 $3 -i udp://@127.0.0.1:6000 -o 'rist://127.0.0.1:7000?buffer=1000' > "$work/librist" 2>&1 &
    sender=$!
    started="$started $sender"
    sleep 1.5
    timeout 60 python3 "$here/pieces.py" feed "$work/$2" 6000 "$gap"
    sleep 3
    kill $sender
    status=0
    wait $receiver || status=$?
    cat "$work/log"
    started=$relay
    ended "$work/$2" "$work/came" 2 20 && [ "$status" = 0 ]
}

# gated NAME LIBRIST RIST SEND GATE: `rist send` with the words SEND through `rist gate` with the words RIST and GATE to ristreceiver, with the
# losses between the last two.
gated() {
    chosen "$1" || return 0
    relayed
    taken "$2"
    timeout 100 "$RIST" gate 127.0.0.1:4000 127.0.0.1:7000 $tunnel --idle 4000 $3 $5 \
        > "$work/gate" 2>&1 &
    gate=$!
    started="$started $gate"
    sleep 0.5
    status=0
    timeout 100 "$RIST" send "$work/plain" 127.0.0.1:4000 --lead 500 --gap "$gap" --linger 2000 --flow 6 $4 \
        > "$work/log" 2>&1 || status=$?
    wait $gate || status=$?
    sleep 1
    cat "$work/log" "$work/gate"
    ended "$work/plain" "$work/came" 100 2 && [ "$status" = 0 ]
}

bad=0
sent send-clear plain '' '' || bad=1
sent send-128 plain '-s drill -e 128' "$sealed 128" || bad=1
sent send-256 plain '-s drill -e 256' "$sealed 256" || bad=1
sent send-nulls nulls '' '--nulls' || bad=1
sent send-nulls-128 nulls '-s drill -e 128' "--nulls $sealed 128" || bad=1
received recv-clear plain '' '' || bad=1
received recv-128 plain '-s drill -e 128' "$sealed 128" || bad=1
received recv-256 plain '-s drill -e 256' "$sealed 256" || bad=1
received recv-nulls nulls '-n' '' || bad=1
received recv-nulls-128 nulls '-n -s drill -e 128' "$sealed 128" || bad=1
gated gate-clear '' '' "$tunnel" '' || bad=1
gated gate-128 '-s drill -e 128' "$sealed 128" "$tunnel $sealed 128" '' || bad=1
gated gate-simple-128 '-s drill -e 128' "$sealed 128" '' '--in-profile simple' || bad=1
exit $bad
