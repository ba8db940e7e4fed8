#!/bin/sh
# A live encoder that begins three seconds after `rist send -`: ffmpeg makes ten seconds of a test picture and a tone in real time, a
# transport stream of 4 Mbit/s, which `rist recv -` gives to a decoder, ffmpeg once more. Straight, and through relay.py with 4 per cent
# of the datagrams lost each way, in the Simple Profile and enciphered in the tunnel. What came has to be what was sent: all of it in the
# straight run, else but for 20 pieces at the end at most. Both programs have to end with 0, and the decoder has to find no error. It takes
# a minute and a quarter, needs ffmpeg and python3, uses 127.0.0.1 alone and writes only below a new folder in /tmp. Where a tool isn't
# there it says so and ends with status 3, without `recv` with status 4.
set -eu
here=$(cd "$(dirname "$0")" && pwd)
top=$(dirname "$here")
. "$here/recv_common.sh"
need ffmpeg python3 timeout
work=$(mktemp -d /tmp/encoder_live.XXXXXX)
started=
trap 'kill $started 2> /dev/null || true; rm -rf "$work"' EXIT
need_recv

# encode: the stream, to the standard output.
encode() {
    sleep 3
    ffmpeg -nostdin -loglevel error -re -f lavfi -i testsrc2=size=640x360:rate=25 \
        -re -f lavfi -i sine=frequency=440:sample_rate=48000 -t 10 \
        -c:v mpeg2video -b:v 3M -maxrate 3M -bufsize 1M -g 25 -c:a mp2 -b:a 128k -f mpegts -muxrate 4M -
}

# decode SESSION..: what `recv` gives in a session of these words, to nowhere; it is kept too.
decode() {
    {
        got=0
        timeout 60 "$top/bin/rist" recv - 127.0.0.1:5000 --idle 6000 "$@" 2> "$work/log" || got=$?
        echo "$got" > "$work/got"
    } | tee "$work/came" | ffmpeg -nostdin -loglevel error -f mpegts -i - -f null - 2> "$work/decoder"
}

# same MOST: whether the first octets that were sent came, and all but MOST pieces of them.
same() {
    python3 - "$work/source" "$work/came" "$1" <<'PY'
import sys
source, came, most = open(sys.argv[1], 'rb').read(), open(sys.argv[2], 'rb').read(), int(sys.argv[3])
print(f'{len(came)} of {len(source)} octets came', '' if source.startswith(came) else ', and not the first ones', sep='')
sys.exit(not source or not source.startswith(came) or len(source) - len(came) > most * 1316)
PY
}

# try NAME TO MOST RELAY SESSION..: the stream to port TO, through a relay with the words RELAY, if any, in a session of these words;
# MOST pieces may be missing at the end.
try() {
    name=$1 to=$2 most=$3 relay=$4
    shift 4
    echo "$name"
    started=
    if [ -n "$relay" ]; then
        timeout 60 python3 "$here/relay.py" $relay > "$work/relay" &
        started="$!"
        await_ready "$work/relay"
    fi
    decode "$@" &
    decoder=$!
    started="$started $decoder"
    sleep 0.5
    status=0
    encode | tee "$work/source" | timeout 60 "$top/bin/rist" send - "127.0.0.1:$to" --gap 2500 "$@" || status=$?
    [ "$status" = 0 ] || echo "rist send ended with status $status"
    wait $decoder || true
    cat "$work/log"
    got=$(cat "$work/got")
    [ "$got" = 0 ] || echo "rist recv ended with status $got"
    if [ -n "$relay" ]; then
        wait ${started%% *} || true
        grep relay: "$work/relay"
    fi
    started=
    echo "lines from the decoder: $(wc -l < "$work/decoder")"
    same "$most" && [ ! -s "$work/decoder" ] && [ "$status" = 0 ] && [ "$got" = 0 ]
}

bad=0
try 'straight' 5000 0 '' || bad=1
lossy='--lose 4 --lose-back 4 --delay 5 --seed 7 --whole 20 --quiet 6'
try '4 per cent lost each way' 7000 20 "$lossy 7000:5000" || bad=1
try 'enciphered, 4 per cent lost each way' 7000 20 "$lossy --one-port 7000:5000" --profile main --pass secret || bad=1
exit $bad
