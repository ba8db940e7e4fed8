#!/bin/sh
# What `rist report --pcap --udp 5000` tells, beside an independent count of the same pcap file by tshark's fields: how many were sent by
# their numbers, how many came first time and how many as a repeat (the last bit of the SSRC marks a retransmission, VSF TR-06-1, 5.3.3),
# how many never came, octets, the length, jitter (RFC 3550, 6.4.1, without smoothing) and restarts where the page has them, and the octets
# of each second of the link; and what the receiver asked for, as `rist show`
# tells it and as the last line of `recv --stats` counts it, beside tshark's. tcpdump takes the sessions on the loopback interface: `rist send` to `rist recv` with 5 per cent lost each way
# and requests by bit mask, the same with 20 per cent lost and requests by range, and with each number asked for just once, a sender that is
# started again under another SSRC, and `ristsender` to `ristreceiver`. Where no packet is late both see the same, so all numbers have to be equal. Then ten million records
# from a pipe through `rist report` and `rist count`: the greatest memory, at most 1 MB above that of a hundredth of the records, and
# processor time, at most twice that of `count`.
#
# RECORDS (10,000,000), COUNT (6,000 pieces) and RIST in the environment stand for other numbers of records and pieces, and for another
# program than the one that is built here. With NAMES only these parts: mask range once restart librist records. It takes four minutes, needs
# root, tcpdump, tshark, python3 and rist-tools (Debian), and writes only below a new folder in /tmp. It ends with 1 where something
# differs; where a tool isn't there it says so and ends with status 3.
set -eu
here=$(cd "$(dirname "$0")" && pwd)
top=$(dirname "$here")
. "$here/recv_common.sh"
need tcpdump tshark ristsender ristreceiver python3 timeout env
[ "$(id -u)" = 0 ] || { echo 'not root here'; exit 3; }
work=$(mktemp -d /tmp/report_tshark.XXXXXX)
chmod 755 "$work"
started=
trap 'kill $started 2> /dev/null || true; rm -rf "$work"' EXIT
if [ -z "${RIST-}" ]; then
    need_recv
    RIST=$top/crates/rist/out/rist
fi
rist="env --block-signal=INT,TERM $RIST"
count=${COUNT:-6000}
python3 "$here/pieces.py" make "$work/source" "$count"
python3 "$here/pieces.py" cut "$work/source" $((count / 2)) "$work/first" "$work/second"

# begin LOSS: tcpdump, and a relay that loses so much each way, and delays some by up to 6 ms.
begin() {
    timeout 120 tcpdump -Z root -i lo -U -B 65536 -w "$work/pcap" 'udp port 5000 or udp port 5001' > "$work/tcpdump" 2>&1 &
    capture=$!
    timeout 120 python3 "$here/relay.py" --lose "$1" --lose-back "$1" --delay 5 --late 30 --later 6 --seed 9 --quiet 5 --most 100 7000:5000 > "$work/relay" &
    started="$capture $!"
    await_ready "$work/relay"
    sleep 1
}

# end: they are ended once what was sent is through.
end() {
    sleep 1
    kill -INT $capture
    wait $capture || true
    kill $started 2> /dev/null || true
    wait $started || true
    started=
    cat "$work/log"
    grep dropped "$work/tcpdump" || true
}

# receive WORDS
receive() {
    timeout 100 $rist recv "$work/came" 127.0.0.1:5000 --idle 4000 --stats 100 --stats-file "$work/stats" "$@" > "$work/log" 2>&1 &
    receiver=$!
    started="$started $receiver"
    sleep 0.5
}

send() {
    timeout 100 $rist send "$work/$1" 127.0.0.1:7000 --gap 1000 --linger 1500 --flow "$2" --first "$3"
}

# beside WORDS: the page of the pcap file by these words, beside the fields of tshark.
beside() {
    "$RIST" report --pcap --udp 5000 "$work/pcap" "$work/page" "$@"
    # What goes back goes to a port of the relay's: that is made an odd one, which `show` takes.
    python3 - "$work/pcap" "$work/back" <<'PY'
import struct, sys
with open(sys.argv[1], 'rb') as octets, open(sys.argv[2], 'wb') as out:
    out.write(octets.read(24))
    while head := octets.read(16):
        frame = bytearray(octets.read(struct.unpack('<I', head[8:12])[0]))
        if frame[34:36] == struct.pack('>H', 5001):
            frame[36:38] = struct.pack('>H', 9001)
            out.write(head + frame)
PY
    "$RIST" show --pcap --udp 9000 "$work/back" > "$work/lines"
    tshark -r "$work/pcap" -d udp.port==5000,rtp -Y 'udp.dstport == 5000' -T fields -e frame.time_epoch -e rtp.ssrc -e rtp.seq -e udp.length \
        -e rtp.timestamp -e rtp.cc -e rtp.ext -e rtp.padding > "$work/media" 2> /dev/null
    tshark -r "$work/pcap" -Y 'udp.dstport == 5000 or udp.dstport == 5001' -T fields -e frame.time_epoch -e udp.dstport > "$work/times" 2> /dev/null
    tshark -r "$work/pcap" -d udp.port==5001,rtcp -Y 'udp.srcport == 5001' -T fields -E occurrence=a -e rtcp.app.subtype -e rtcp.app.data \
        -e rtcp.rtpfb.nack_pid -e rtcp.rtpfb.nack_blp > "$work/asked" 2> /dev/null
    python3 - "$work" <<'PY'
import json, os, re, sys
work = sys.argv[1]


def micros(text):
    whole, _, part = text.partition('.')
    return int(whole) * 1_000_000 + int(part[:6].ljust(6, '0'))


# By tshark: media by flow, unwrapped.
rows = [line.rstrip('\n').split('\t') for line in open(f'{work}/times')]
times = [micros(at) for at, _ in rows]
began = {port: micros(at) for at, port in reversed(rows)}
start, length = times[0], max(times) - times[0]
flows, seconds, jitter, transits = {}, [0] * (length // 1_000_000 + 1), [], {}
for line in open(f'{work}/media'):
    at, ssrc, seq, octets, stamp, sources, *rest = line.rstrip('\n').split('\t')
    assert sources in ('0', '') and not any(it in ('1', 'True') for it in rest), line
    ssrc, seq, octets = int(ssrc, 0), int(seq), int(octets) - 20
    flow = flows.setdefault(ssrc & ~1, {})
    if flow:
        last = next(reversed(flow))
        seq = last + ((seq - last + 0x8000) % 0x10000 - 0x8000)
    if seq not in flow and not ssrc & 1:
        # RFC 3550, 6.4.1: how far the transits of this packet and of the one before differ, in tenths of a millisecond
        transit = (micros(at) * 9 // 100 - int(stamp)) % 2**32
        apart = (transit - transits.get(ssrc, transit)) % 2**32
        jitter += [min(apart, 2**32 - apart) // 9] if ssrc in transits else []
        transits[ssrc] = transit
    flow.setdefault(seq, (ssrc & 1, octets))
    seconds[(micros(at) - start) // 1_000_000] += octets
kept = [it for flow in flows.values() for it in flow.values()]
sent = sum(max(flow) - min(flow) + 1 for flow in flows.values())
by_tshark = {'Length': length // 1_000_000, 'Written': sum(octets for _, octets in kept), 'Sent': sent,
             'First time': sum(not again for again, _ in kept), 'Recovered': sum(again for again, _ in kept), 'Never written': sent - len(kept)}

jitter.sort(reverse=True)
spread = {f'Jitter, {name}': f'{jitter[above] // 10}.{jitter[above] % 10}'
          for name, above in (('least', len(jitter) - 1), ('median', len(jitter) // 2), ('99%', len(jitter) // 100))}

# By the page.
text = re.sub(r'(?<=\d),(?=\d{3})', '', open(f'{work}/page', encoding='ascii').read())
page = {it[0]: int(it[1]) for it in re.findall(r'<tr><th>([^<]*)</th><td>(\d+)</td>', text)}
tenths = dict(re.findall(r'<tr><th>(Jitter[^<]*)</th><td>([\d.]+)</td>', text))
links = re.findall('<tr>' + r'<td>(\d+)</td>' * 4 + '</tr>', text)
chart = re.search(r"<h2>Link 0</h2>.*? d='M0 0([^']*)'", text, re.S)
points = [int(it) for it in re.findall(r'V(\d+)', chart.group(1))] if chart else []

# What was asked for: the numbers of all requests, each as often as it was named.
asked = []
for line in open(f'{work}/asked'):
    subtypes, data, pids, masks = (it.split(',') if it else [] for it in line.rstrip('\n').split('\t'))
    for subtype, octets in zip(subtypes, data):
        words = bytes.fromhex(octets.replace(':', ''))
        if subtype == '0':
            for at in range(0, len(words) - 3, 4):
                first, more = int.from_bytes(words[at:at + 2], 'big'), int.from_bytes(words[at + 2:at + 4], 'big')
                asked += [(first + k) & 0xFFFF for k in range(more + 1)]
    # Some versions of tshark list the numbers of a mask behind the one that its word begins with, others don't.
    pids, at = [int(pid, 0) for pid in pids], 0
    for mask in (int(mask, 0) for mask in masks):
        named = [pids[at]] + [(pids[at] + 1 + k) & 0xFFFF for k in range(16) if mask >> k & 1]
        asked += named
        at += len(named) if pids[at:at + len(named)] == named else 1
shown = []
for line in open(f'{work}/lines'):
    for first, more in json.loads(line).get('asks', []):
        shown += [(first + k) & 0xFFFF for k in range(more + 1)]

print('by tshark: ' + ', '.join(f'{key} {value}' for key, value in {**by_tshark, **spread}.items()) + f'; asked for {len(asked)}, of them {len(set(asked))} numbers')
wrong = [f'{key}: the page says {page[key]}, tshark {value}' for key, value in by_tshark.items() if page[key] != value]
if 'Restarts' in page and page['Restarts'] != len(flows) - 1:
    wrong.append(f"restarts: the page says {page['Restarts']}, tshark {len(flows) - 1}")
if tenths and tenths != spread:
    wrong.append(f'jitter: the page says {tenths}, tshark {spread}')
row = ('0', str(sum(seconds)), str(by_tshark['First time']), str(by_tshark['Recovered']))
if links and links != [row]:
    wrong.append(f'the link: the page says {links}, tshark {row}')
if page['Late']:
    wrong.append(f"late: the page says {page['Late']}, so both don't see the same")
if not by_tshark['Recovered'] or not asked:
    wrong.append('nothing was lost, or tshark sees no requests')
if sorted(shown) != sorted(asked):
    wrong.append(f'asked for: {len(shown)} shown, {len(asked)} by tshark')
# The last line of `recv` comes seconds after its last request. A request that is made before the sender's first control datagram came
# goes nowhere: none is where that came within the 25 ms for which no packet is asked for.
if os.path.exists(f'{work}/stats'):
    told = [it['asked'] for it in map(json.loads, open(f'{work}/stats')) if it['event'] == 'receiver'][-1]
    if told < len(asked) or told > len(asked) and began['5001'] - began['5000'] < 25_000:
        wrong.append(f'asked for: {told} by the last line of `recv`, {len(asked)} by tshark')
if points != seconds:
    wrong.append(f'octets of the link: the page says {points}, tshark {seconds}')
bits = page['Written'] * 8
if not abs(page['Rate'] - bits * 1000 // length) <= 1:
    wrong.append(f"rate: the page says {page['Rate']}, by tshark's times {bits * 1000 // length}")
print('\n'.join(f'FAILED: {it}' for it in wrong) or 'the page says the same, and `show` of what was asked for')
sys.exit(bool(wrong))
PY
}

bad=0
wanted=" ${*:-mask range once restart librist records} "
chosen() { case $wanted in *" $1 "*) echo "$2" ;; *) return 1 ;; esac }

if chosen mask '5 per cent lost each way, requests by bit mask'; then
    begin 5
    receive --nack mask
    send source 270544960 0 || bad=1
    wait $receiver || bad=1
    end
    beside || bad=1
fi
if chosen range '20 per cent lost each way, requests by range, numbers that wrap'; then
    begin 20
    receive --tries 20
    send source 270544960 65000 || bad=1
    wait $receiver || bad=1
    end
    beside || bad=1
fi
if chosen once '20 per cent lost each way, each number asked for once'; then
    begin 20
    receive --tries 1
    send source 270544960 0 || bad=1
    wait $receiver || bad=1
    end
    beside || bad=1
fi
if chosen restart 'a sender that is started again'; then
    begin 5
    receive --restart 2000
    send first 270544960 65000 || bad=1
    sleep 3
    send second 541085010 7 || bad=1
    wait $receiver || bad=1
    end
    beside --restart 2000 || bad=1
fi
if chosen librist 'ristsender to ristreceiver, 5 per cent lost each way'; then
    begin 5
    timeout 60 ristreceiver -p 0 -i 'rist://@127.0.0.1:5000' -o 'udp://127.0.0.1:6002' > "$work/log" 2>&1 &
    receiver=$!
    timeout 60 ristsender -p 0 -i 'udp://@127.0.0.1:6000' -o 'rist://127.0.0.1:7000' > "$work/sender" 2>&1 &
    sender=$!
    started="$started $receiver $sender"
    sleep 1.5
    timeout 60 python3 "$here/pieces.py" feed "$work/source" 6000 1000
    sleep 2
    kill $sender $receiver
    : > "$work/log"
    rm -f "$work/stats"
    end
    beside || bad=1
fi
if chosen records "${RECORDS:-10000000} records from a pipe"; then
    python3 - "$RIST" "${RECORDS:-10000000}" "$work/page" <<'PY' || bad=1
import os, subprocess, sys, time
program, records, page = sys.argv[1], int(sys.argv[2]), sys.argv[3]


def peak(pid):
    """The greatest memory of a process so far, in KB; 0 once it is gone. The `ru_maxrss` of a child is at least that of this program."""
    try:
        with open(f'/proc/{pid}/status') as told:
            return max((int(line.split()[1]) for line in told if line.startswith('VmHWM:')), default=0)
    except OSError:
        return 0


def piped(words, count):
    """Pipes a packed capture of so many records into a command. Returns its processor time in seconds and its greatest memory in KB."""
    source = subprocess.Popen(['head', '-c', str(count * 1316), '/dev/zero'], stdout=subprocess.PIPE)
    pack = subprocess.Popen([program, 'pack', '-', '-', '--gap', '500'], stdin=source.stdout, stdout=subprocess.PIPE)
    source.stdout.close()
    told = subprocess.Popen([program, *words], stdin=pack.stdout, stdout=subprocess.DEVNULL)
    pack.stdout.close()
    most = ended = 0
    while not ended:
        most = max(most, peak(told.pid))
        time.sleep(0.02)
        ended, status, used = os.wait4(told.pid, os.WNOHANG)
    assert status == 0 and pack.wait() == 0, (words, status)
    return used.ru_utime + used.ru_stime, most


least = max(records // 100, 1000)
few = {command: piped(words, least)[1] for command, words in (('report', ['report', '-', page]), ('count', ['count', '-']))}
report, count = piped(['report', '-', page], records), piped(['count', '-'], records)
ratio = report[0] / count[0]
print(f'report: {report[0]:.2f} s of the processor, {report[1]} KB, of {least} records {few["report"]} KB; count: {count[0]:.2f} s, {count[1]} KB, '
      f'of {least} records {few["count"]} KB; time {ratio:.2f} times that of count; the page has {os.path.getsize(page)} octets')
bad = ratio > 2 or report[1] > few['report'] + 1024 or count[1] > few['count'] + 1024
print('FAILED: time or memory' if bad else 'memory bounded, and time at most twice')
sys.exit(bad)
PY
fi
exit $bad
