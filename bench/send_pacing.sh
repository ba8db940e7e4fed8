#!/bin/sh
# Whether `rist send --gap 100` keeps its times, on one link and where four share the stream: 100,000 pieces go to sockets on this
# machine, and the last must have come within 2 ms of 99,999 gaps after the first. Times are the kernel's, of each datagram as it
# came. Ends with status 1 where that isn't so, or where some didn't come. Needs python3; bin/rist builds the program. It takes
# half a minute, and writes only below a new folder in /tmp.
set -eu
command -v python3 > /dev/null || { echo "no python3 here"; exit 3; }
here=$(cd "$(dirname "$0")" && pwd)
work=$(mktemp -d /tmp/send_pacing.XXXXXX)
trap 'rm -rf "$work"' EXIT
head -c 131600000 /dev/zero > "$work/source"
"$here/../bin/rist" replay /dev/null /dev/null > "$work/log" 2>&1 || true
python3 - "$here/../bin/rist" "$work/source" <<'PYTHON'
import select, socket, struct, subprocess, sys
PIECES, GAP = 100_000, 100
STAMP = 35                                     # SO_TIMESTAMPNS


def bound(port):
    end = socket.socket(socket.AF_INET, socket.SOCK_DGRAM)
    end.setsockopt(socket.SOL_SOCKET, socket.SO_RCVBUF, 8 << 20)
    end.setsockopt(socket.SOL_SOCKET, STAMP, 1)
    end.bind(('127.0.0.1', port))
    return end


def keeps(links):
    """Sends over so many links, prints how late the pieces were, and says whether the times were kept."""
    ends = [bound(5000 + 2 * link) for link in range(links)]
    words = [sys.argv[1], 'send', sys.argv[2], *[f'127.0.0.1:{5000 + 2 * link}' for link in range(links)], '--gap', str(GAP), '--linger', '0']
    sender = subprocess.Popen(words + (['--share', ':'.join(['1'] * links)] if links > 1 else []))
    times, high = {}, 0
    while len(times) < PIECES:
        ready, _, _ = select.select(ends, [], [], 5)
        if not ready:
            break
        for end in ready:
            octets, extra, _, _ = end.recvmsg(2048, 64)
            seconds, nanos = struct.unpack('qq', extra[0][2][:16])
            number = high + (int.from_bytes(octets[2:4], 'big') - high + 0x8000) % 0x10000 - 0x8000
            times[number] = seconds * 1_000_000 + nanos / 1000
            high = max(high, number)
    status = sender.wait()
    for end in ends:
        end.close()
    late = [at - times[0] - number * GAP for number, at in times.items()] if 0 in times else [0.0]
    off = times.get(PIECES - 1, 0.0) - times.get(0, 0.0) - (PIECES - 1) * GAP
    print(f'links {links}: {len(times)} of {PIECES} pieces came; the last was {off:.0f} us off its time, and the latest {max(late):.0f} us; status {status}')
    return len(times) == PIECES and abs(off) <= 2000 and status == 0


sys.exit(0 if all([keeps(1), keeps(4)]) else 1)
PYTHON
