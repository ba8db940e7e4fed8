#!/bin/sh
# Takes a pcap file of a session of librist's `ristsender` and `ristreceiver` (Debian: rist-tools) with `tcpdump`: 8,000
# pieces of 1,316 octets, one each millisecond, through relay.py with 4 per cent of the datagrams lost each way. Then
# `rist show --pcap` is compared with the counts of `tshark`: media to the receiver, control to it with its reports and RTT
# echoes, and the control that goes back with its echoes and requests; and `rist replay --pcap` with the payloads that tshark
# finds, each number once and in order, and with the pieces. At the end `replay --pcap` to nowhere over a made file of 380,000
# packets, beside a C program that reads the same file and writes each payload (pcap_baseline.c), and beside `replay` of the same
# datagrams in a capture file.
# tcpdump needs root. It takes some minutes, uses 127.0.0.1 alone and writes only below a new folder in /tmp. Where a tool isn't
# there it says so and ends with status 3. A busy machine can lose pieces before they are sent: that is said, and is no fault.
set -eu
here=$(cd "$(dirname "$0")" && pwd)
top=$(dirname "$here")
. "$here/recv_common.sh"
need tcpdump tshark ristsender ristreceiver python3 cc timeout
work=$(mktemp -d /tmp/pcap_of_a_session.XXXXXX)
chmod 755 "$work"
started=
trap 'kill $started 2> /dev/null || true; rm -rf "$work"' EXIT
"$top/bin/rist" replay "$top/examples/three.ristcap" /dev/null
python3 "$here/pieces.py" make "$work/source" 8000

# One session into $work/pcap. What goes back can be shown by its port only where that is odd, so its port is drawn again where
# it isn't.
session() {
    timeout 60 tcpdump -i lo -U -B 65536 -w "$work/pcap" udp > "$work/tcpdump" 2>&1 &
    capture=$!
    timeout 60 python3 "$here/relay.py" --lose 4 --lose-back 4 --delay 5 --seed 7 --whole 100 --quiet 3 7000:5000 \
        > "$work/relay" &
    relay=$!
    timeout 60 ristreceiver -p 0 -i 'rist://@127.0.0.1:5000' -o 'udp://127.0.0.1:6002' > "$work/receiver" 2>&1 &
    receiver=$!
    started="$capture $relay $receiver"
    await_ready "$work/relay"
    timeout 60 ristsender -p 0 -i 'udp://@127.0.0.1:6000' -o 'rist://127.0.0.1:7000' > "$work/sender" 2>&1 &
    sender=$!
    started="$started $sender"
    sleep 1.5
    timeout 60 python3 "$here/pieces.py" feed "$work/source" 6000 1000
    sleep 2
    kill $sender $receiver
    sleep 0.5
    kill $capture
    wait $relay $capture || true
    started=
    back=$(tcpdump -r "$work/pcap" -n 'udp src port 5001 or udp src port 7001' 2> /dev/null \
        | sed -n 's/.*> 127\.0\.0\.1\.\([0-9]*[13579]\):.*/\1/p' | head -n 1)
}
for _ in 1 2 3 4 5 6 7 8; do
    session
    [ -z "$back" ] || break
done
[ -n "$back" ] || { echo 'no odd port went back in eight sessions'; exit 1; }

# counted PORT TEST: in how many datagrams to this port tshark finds this. RTCP is looked for at the control ports.
counted() {
    tshark -r "$work/pcap" -d udp.port==5001,rtcp -d "udp.port==$back,rtcp" -Y "udp.dstport == $1 and ($2)" -T fields \
        -e frame.number 2> /dev/null | wc -l
}
# shown PORT: what `show` makes of the datagrams to a port and the next one.
shown() { "$top/bin/rist" show --pcap --udp "$1" "$work/pcap" > "$work/lines"; }
# has WORD..: how many of its lines have all these words.
has() {
    cp "$work/lines" "$work/left"
    for word in "$@"; do
        grep "$word" "$work/left" > "$work/next" || true
        mv "$work/next" "$work/left"
    done
    wc -l < "$work/left"
}
bad=0
same() {
    echo "$1: $2 shown, $3 by tshark"
    [ "$2" = "$3" ] && [ "$2" -gt 0 ] || bad=1
}
echo "$(wc -c < "$work/pcap") octets of pcap, $(tcpdump -r "$work/pcap" -n udp 2> /dev/null | wc -l) datagrams"
shown 5000
same 'media to the receiver' "$(has '"channel":"media"' '"item":"media"')" "$(counted 5000 udp)"
same 'control to the receiver' "$(has '"channel":"control"' '"item":"control"')" "$(counted 5001 udp)"
same '  with reports' "$(has '"packets":.*20[01]')" "$(counted 5001 'rtcp.pt == 200 or rtcp.pt == 201')"
same '  with APP packets, which are RTT echoes' "$(has '"packets":.*204')" "$(counted 5001 'rtcp.app.subtype >= 2')"
echo "  media that were sent again: $(has '"again":true')"
shown $((back - 1))
same "control back, to port $back" "$(has '"channel":"control"' '"item":"control"')" "$(counted "$back" udp)"
same '  with reports' "$(has '"packets":.*20[01]')" "$(counted "$back" 'rtcp.pt == 200 or rtcp.pt == 201')"
same '  with APP packets, which are RTT echoes and requests' "$(has '"packets":.*204')" "$(counted "$back" rtcp.app.subtype)"
same '  with requests' "$(has '"asks":\[\[')" "$(counted "$back" 'rtcp.app.subtype == 0')"

"$top/bin/rist" replay --pcap --udp 5000 "$work/pcap" "$work/came"
tshark -r "$work/pcap" -Y 'udp.dstport == 5000' -T fields -e udp.payload 2> /dev/null > "$work/payloads"
python3 - "$work/payloads" "$work/arrived" <<'PYTHON'
import sys
kept = {}
for line in open(sys.argv[1]):
    datagram = bytes.fromhex(line.strip())
    kept.setdefault(int.from_bytes(datagram[2:4], 'big'), datagram[12:])
with open(sys.argv[2], 'wb') as out:
    for number in sorted(kept):
        out.write(kept[number])
PYTHON
if cmp -s "$work/came" "$work/arrived"; then
    echo "replayed: $(wc -c < "$work/came") octets, those of the payloads by tshark"
else
    echo 'replayed: other octets than those of the payloads by tshark'
    bad=1
fi
python3 "$here/pieces.py" compare "$work/source" "$work/came" 100 20 || true

# A file of 380,000 media packets of 1,316 octets in Ethernet frames, one each millisecond; and the same as a capture file.
python3 - "$work/large" "$work/capture" <<'PYTHON'
import struct, sys
with open(sys.argv[1], 'wb') as out, open(sys.argv[2], 'wb') as capture:
    out.write(struct.pack('<IHHIIII', 0xA1B2C3D4, 2, 4, 0, 0, 262144, 1))
    capture.write(b'RISTCAP1')
    payload = bytes(range(256)) * 6
    for k in range(380000):
        rtp = struct.pack('>BBHII', 0x80, 33, k % 65536, k * 90 % 2**32, 0x10203040) + payload[:1316]
        udp = struct.pack('>HHHH', 5000, 5000, 8 + len(rtp), 0) + rtp
        ip = struct.pack('>BBHHHBBH', 0x45, 0, 20 + len(udp), 0, 0x4000, 64, 17, 0) + bytes([127, 0, 0, 1] * 2) + udp
        frame = bytes(12) + b'\x08\x00' + ip
        out.write(struct.pack('<IIII', k // 1000, k % 1000 * 1000, len(frame), len(frame)) + frame)
        capture.write(struct.pack('>BBHQ', 0, 0, len(rtp), k * 1000) + rtp)
PYTHON
cc -O2 -o "$work/baseline" "$here/pcap_baseline.c"
"$top/bin/rist" replay --pcap --udp 5000 "$work/large" "$work/came"
"$work/baseline" "$work/large" "$work/arrived"
cmp "$work/came" "$work/arrived" || bad=1
python3 - "$top/bin/rist" "$work" <<'PYTHON'
import os, subprocess, sys, time
rist, work = sys.argv[1:]

# The least time of three runs: by the clock and by the processor, in seconds.
def seconds(*words):
    best = (1e9, 0.0)
    for _ in range(3):
        before, start = os.times(), time.monotonic()
        subprocess.run(words, check=True)
        wall, after = time.monotonic() - start, os.times()
        best = min(best, (wall, after.children_user + after.children_system - before.children_user - before.children_system))
    return best

pcap, capture = work + '/large', work + '/capture'
ours = seconds(rist, 'replay', '--pcap', '--udp', '5000', pcap, '/dev/null')
size = os.path.getsize(pcap) / 1e6
print(f'replay --pcap to nowhere: {size:.0f} MB in {ours[0]:.3f} s, {size / ours[0]:.0f} MB/s; by the processor {ours[1]:.3f} s, '
      f'{size / ours[1]:.0f} MB/s (best of three runs)')
for name, other in [('the C program', seconds(work + '/baseline', pcap, '/dev/null')),
                    ('replay of the capture file', seconds(rist, 'replay', capture, '/dev/null'))]:
    print(f'  beside {name}, {other[0]:.3f} s and {other[1]:.3f} s: ratio {ours[0] / other[0]:.2f} by the clock, '
          f'{ours[1] / other[1]:.2f} by the processor')
PYTHON
exit $bad
