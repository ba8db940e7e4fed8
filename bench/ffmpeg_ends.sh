#!/bin/sh
# ffmpeg (Debian) as the encoder before `rist send udp://..` and as the player behind `rist recv .. udp://..`, and both by `rtp://`: ten
# seconds of a test picture and a tone, a transport stream of 4 Mbit/s, in real time through relay.py with 5 per cent of the datagrams lost
# each way. datagram_tee.py keeps what ffmpeg sends and what `rist recv` gives, and hands both on. All octets that ffmpeg sent have to come,
# in order, with nothing behind them but null packets, of which 20 datagrams follow the stream so that the end can be asked for again. The
# player has to decode what comes without an error, to the same pictures and tones as the stream that was sent has in a file, but for the last
# one, whose end ffmpeg keeps back where it sends RTP.
#
# RIST in the environment stands for another program than the one that is built here. It takes a minute, needs ffmpeg and python3, uses
# 127.0.0.1 alone and writes only below a new folder in /tmp. It ends with 1 where something is missing or a program ended with another
# status than 0; where a tool isn't there it says so and ends with status 3, without `recv` with status 4.
set -eu
here=$(cd "$(dirname "$0")" && pwd)
top=$(dirname "$here")
. "$here/recv_common.sh"
need ffmpeg python3 timeout env
work=$(mktemp -d /tmp/ffmpeg_ends.XXXXXX)
started=
trap 'kill $started 2> /dev/null || true; rm -rf "$work"' EXIT
if [ -z "${RIST-}" ]; then
    need_recv
    RIST=$top/crates/rist/out/rist
fi
rist="env --block-signal=INT,TERM $RIST"
ffmpeg='ffmpeg -nostdin -loglevel error'
$ffmpeg -f lavfi -i testsrc2=size=640x360:rate=25 -f lavfi -i sine=frequency=440:sample_rate=48000 -t 10 -c:v mpeg2video -b:v 3M \
    -maxrate 3M -bufsize 1M -g 25 -c:a mp2 -b:a 128k -f mpegts -muxrate 4M "$work/source"

# By a URL of RTP ffmpeg drops the first packet, by which it sees what comes.
cat > "$work/rtp.sdp" <<'SDP'
v=0
o=- 0 0 IN IP4 127.0.0.1
s=-
c=IN IP4 127.0.0.1
t=0 0
m=video 6200 RTP/AVP 33
SDP

# try SCHEME FORM LENGTH FROM: the stream with this scheme at both ends, given by ffmpeg in the form FORM, in datagrams of LENGTH octets, and
# taken with the words FROM. The player ends where nothing comes any more: of UDP it says so as an error, and of RTP an RTCP BYE tells it.
try() {
    echo "$1"
    : > "$work/front"
    timeout 90 python3 "$here/relay.py" --lose 5 --lose-back 5 --delay 5 --seed 5 --whole 20 --quiet 6 --most 80 7000:5000 > "$work/relay" &
    relay=$!
    started="$relay"
    [ "$1" = rtp ] && form=rtp || form=
    timeout 90 python3 "$here/datagram_tee.py" "$work/sent" 6100 6000 $form tail=20 > "$work/front" &
    front=$!
    timeout 90 python3 "$here/datagram_tee.py" "$work/came" 6002 6200 $form ${form:+bye} > "$work/rear" &
    rear=$!
    started="$started $front $rear"
    await_ready "$work/relay"
    await_ready "$work/front"
    await_ready "$work/rear"
    timeout 90 $ffmpeg -y -analyzeduration 1000000 $4 -map 0 -f framemd5 "$work/seen" 2> "$work/player" &
    player=$!
    started="$started $player"
    timeout 90 $rist recv "$1://127.0.0.1:6002" 127.0.0.1:5000 --idle 4000 > "$work/log" 2>&1 &
    receiver=$!
    started="$started $receiver"
    timeout 90 $rist send "$1://127.0.0.1:6000" 127.0.0.1:7000 --gap 100 --linger 2000 > "$work/sender" 2>&1 &
    sender=$!
    started="$started $sender"
    sleep 1
    encoded=0 status=0 got=0 played=0
    timeout 60 $ffmpeg -re -i "$work/source" -map 0 -c copy -f $2 "$1://127.0.0.1:6100?pkt_size=$3" 2> "$work/encoder" || encoded=$?
    kill $front
    wait $front || encoded=$?
    sleep 1
    kill -TERM $sender
    wait $sender || status=$?
    wait $receiver || got=$?
    kill $rear
    wait $rear || got=$?
    wait $player || played=$?
    sed -i '/^udp:.*: Input.output error$/d; /Last message repeated/d' "$work/player"
    kill $relay 2> /dev/null || true
    wait $relay || true
    started=
    cat "$work/sender" "$work/log" "$work/encoder" "$work/player"
    grep relay: "$work/relay" || true
    echo "ffmpeg sent $(tail -n 1 "$work/front"); came: $(tail -n 1 "$work/rear")"
    [ "$encoded" = 0 ] || echo "the encoder, or what keeps its octets, ended with status $encoded"
    [ "$status" = 0 ] || echo "rist send ended with status $status"
    [ "$got" = 0 ] || echo "rist recv, or what keeps its octets, ended with status $got"
    [ "$played" = 0 ] || echo "the player ended with status $played"
    $ffmpeg -y -f mpegts -i "$work/sent" -map 0 -f framemd5 "$work/wanted" 2> "$work/end" || true
    python3 - "$work" <<'PY' && [ "$encoded$status$got$played" = 0000 ] && [ ! -s "$work/player" ] && [ ! -s "$work/encoder" ]
import sys
work = sys.argv[1]
sent, came = (open(f'{work}/{name}', 'rb').read() for name in ('sent', 'came'))
NULL = bytes([0x47, 0x1F, 0xFF, 0x10]) + bytes([0xFF]) * 184
behind = came[len(sent):]
is_whole = len(sent) > 4_000_000 and came.startswith(sent)
only_nulls = behind == NULL * (len(behind) // 188)
print(f'{len(sent)} octets were sent, {"all" if is_whole else "NOT all"} came in order; behind them {len(behind) // 188} null packets'
      + ('' if only_nulls else ', and OTHER OCTETS'))


def frames(name):
    """The digests of the frames of each stream."""
    of = {}
    for line in open(f'{work}/{name}'):
        if not line.startswith('#'):
            stream, *_, digest = line.split(',')
            of.setdefault(stream.strip(), []).append(digest.strip())
    return of


wanted, seen = frames('wanted'), frames('seen')
is_seen = bool(wanted)
for stream, digests in sorted(wanted.items()):
    got = seen.get(stream, [])
    fits = got[:len(digests) - 1] == digests[:-1]
    is_seen = is_seen and fits
    print(f'stream {stream}: {len(got)} of {len(digests)} frames were played, ' + ('the same' if fits else 'NOT the same'))
sys.exit(not (is_whole and only_nulls and is_seen))
PY
}

bad=0
try udp mpegts 1316 '-i udp://127.0.0.1:6200?fifo_size=100000&timeout=5000000' || bad=1
try rtp rtp_mpegts 1328 "-protocol_whitelist file,udp,rtp -i $work/rtp.sdp" || bad=1
[ $bad = 0 ] && echo 'all octets, and no error' || echo 'FAILED'
exit $bad
