#!/bin/sh
# ffmpeg with librist inside (Debian: ffmpeg 5.1) at either end of an enciphered link, under `--tunnel librist`, through relay.py with
# 5 per cent of the datagrams lost each way: ten seconds of a test picture, a transport stream of 4 Mbit/s, sent in real time by
# ffmpeg to `rist recv` under AES-128, and by `rist send` to ffmpeg under AES-256. What ffmpeg sends and what comes out of `recv` are
# whole datagrams of its own size, so the stream that came is asked for its continuity: each PID counts its packets, and none may be
# missing, but for what an end lost. What ffmpeg receives it writes anew, so its pictures are counted: 250 were made, its demuxer
# skips some at the start, and none may be missing between.
#
# It takes a minute, needs python3, uses 127.0.0.1 alone and writes only below a new folder in /tmp. RIST and RATE in the environment
# stand for another program than the one that is built here, and for another rate than 4,000 kbit/s. It ends with 1 where something is
# missing; where a tool isn't there it says so and ends with status 3, without `recv` with status 4.
set -eu
here=$(cd "$(dirname "$0")" && pwd)
top=$(dirname "$here")
. "$here/recv_common.sh"
need ffmpeg ffprobe python3 timeout
work=$(mktemp -d /tmp/ffmpeg_tunnel.XXXXXX)
started=
trap 'kill $started 2> /dev/null || true; rm -rf "$work"' EXIT
if [ -z "${RIST-}" ]; then
    need_recv
    RIST=$top/bin/rist
fi
rate=${RATE:-4000}
lossy='--one-port --lose 5 --lose-back 5 --delay 5 --seed 61 --quiet 5 --most 60 7000:5000'
ffmpeg -nostdin -loglevel error -f lavfi -i testsrc2=size=320x180:rate=25 -t 10 -c:v mpeg2video -b:v $((rate * 3 / 4))k \
    -maxrate $((rate * 3 / 4))k -bufsize $((rate / 4))k -g 25 -f mpegts -muxrate ${rate}k "$work/source"

# relayed: starts the relay, whose process is the first of `started`.
relayed() {
    timeout 90 python3 "$here/relay.py" $lossy > "$work/relay" &
    started="$!"
    await_ready "$work/relay"
}

# continuous FILE: whether each PID's packets follow one another, and how many there are. ffmpeg ends some 40 ms after its last datagram,
# so what was lost of the last 20 nobody sends again.
continuous() {
    python3 - "$1" "$rate" <<'PY'
import sys
octets = open(sys.argv[1], 'rb').read()
last, breaks, ends, packets = {}, 0, 0, len(octets) // 188
for at in range(0, packets * 188, 188):
    packet = octets[at:at + 188]
    pid = int.from_bytes(packet[1:3], 'big') & 0x1FFF
    if packet[0] != 0x47:
        print(f'no packet at {at}')
        sys.exit(1)
    if pid == 0x1FFF or not packet[3] & 0x10:
        continue
    if pid in last and packet[3] & 15 != (last[pid] + 1) & 15:
        if at < (packets - 7 * 20) * 188:
            breaks += 1
        else:
            ends += 1
    last[pid] = packet[3] & 15
print(f'{packets} packets, {breaks} breaks' + (f', and {ends} among the last 140' if ends else ''))
sys.exit(breaks > 0 or packets < 5 * int(sys.argv[2]))
PY
}

bad=0
echo 'ffmpeg to recv, AES-128'
relayed
timeout 60 "$RIST" recv "$work/came" 127.0.0.1:5000 --profile main --tunnel librist --pass drill --bits 128 --idle 4000 \
    > "$work/log" 2>&1 &
receiver=$!
started="$started $receiver"
sleep 0.5
# ffmpeg tells an error of the closed library at its end, also where all went well.
timeout 60 ffmpeg -nostdin -loglevel error -re -i "$work/source" -map 0 -c copy -rist_profile main -pkt_size 1316 -secret drill \
    -encryption 128 -f mpegts -muxrate ${rate}k rist://127.0.0.1:7000 > "$work/ffmpeg" 2>&1 || true
status=0
wait $receiver || status=$?
cat "$work/log"
kill $started 2> /dev/null || true
wait $started 2> /dev/null || true
started=
grep relay: "$work/relay"
continuous "$work/came" && [ "$status" = 0 ] || bad=1

echo 'send to ffmpeg, AES-256'
relayed
timeout 60 ffmpeg -nostdin -loglevel error -y -rist_profile main -buffer_size 1000 -secret drill -encryption 256 -f mpegts \
    -i rist://@127.0.0.1:5000 -c copy -f mpegts "$work/back" > "$work/ffmpeg" 2>&1 &
receiver=$!
started="$started $receiver"
sleep 2
status=0
timeout 60 "$RIST" send "$work/source" 127.0.0.1:7000 --profile main --tunnel librist --lead 200 --pass drill --bits 256 --gap $((10528000 / rate)) \
    --linger 2000 > "$work/log" 2>&1 || status=$?
cat "$work/log"
sleep 2
kill -INT $receiver 2> /dev/null || true
wait $receiver 2> /dev/null || true
kill $started 2> /dev/null || true
wait $started 2> /dev/null || true
started=
grep relay: "$work/relay"
ffprobe -v error -select_streams v:0 -show_entries packet=pts -of csv=p=0 "$work/back" > "$work/pictures"
python3 - "$work/pictures" <<'PY' || bad=1
import sys
times = [int(word) for word in open(sys.argv[1]).read().replace(',', ' ').split() if word.isdigit()]
gaps = sum(1 for one, next in zip(times, times[1:]) if next - one != 3600)
print(f'{len(times)} of 250 pictures, {gaps} gaps between them')
sys.exit(len(times) < 150 or gaps > 0)
PY
[ "$status" = 0 ] || bad=1
exit $bad
