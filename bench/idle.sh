#!/bin/sh
# What a receiver costs on links on which nothing comes: `rist recv` on one, four and sixteen links and `rist gate` from one link to one, each
# for SECONDS (8) after three seconds of silence: per cent of one processor, in all and for each link that is received on. Then how soon the
# first packet after three seconds of silence is written, with `--delay 1`, twenty times: the median and the longest, in milliseconds.
#
# RIST in the environment stands for another program than the one that is built here. It takes two minutes, uses 127.0.0.1 alone and writes
# only below a new folder in /tmp. It ends with 1 where a link costs more than MOST per cent (0.5), or the median is above 10 ms.
set -eu
here=$(cd "$(dirname "$0")" && pwd)
top=$(dirname "$here")
. "$here/recv_common.sh"
need python3
work=$(mktemp -d /tmp/idle.XXXXXX)
trap 'rm -rf "$work"' EXIT
if [ -z "${RIST-}" ]; then
    need_recv
    RIST=$top/crates/rist/out/rist
fi
python3 - "$RIST" "$work" "${SECONDS_EACH:-8}" "${MOST:-0.5}" <<'PYTHON'
import os, select, signal, socket, statistics, struct, subprocess, sys, time

rist, work, seconds, most = sys.argv[1], sys.argv[2], float(sys.argv[3]), float(sys.argv[4])
TICKS = os.sysconf('SC_CLK_TCK')


def used(pid):
    """The processor time of a process so far, in seconds."""
    with open(f'/proc/{pid}/stat', encoding='ascii') as it:
        fields = it.read().rpartition(')')[2].split()
    return (int(fields[11]) + int(fields[12])) / TICKS


def links(count, first=5000):
    return [f'127.0.0.1:{first + 2 * k}' for k in range(count)]


def idle(name, words, count):
    """Per cent of a processor that a silent run takes, for each link."""
    ran = subprocess.Popen([rist, *words], stderr=subprocess.DEVNULL)
    time.sleep(3)
    start, before = time.monotonic(), used(ran.pid)
    time.sleep(seconds)
    cost = 100 * (used(ran.pid) - before) / (time.monotonic() - start)
    if ran.poll() is not None:
        sys.exit(f'{name} ended')
    ran.kill()
    ran.wait()
    print(f'{name}: {cost:.2f} per cent of a processor, {cost / count:.2f} for each link', flush=True)
    return cost / count


def media(number, stamp):
    """A media packet of one transport packet (RFC 3550 5.1)."""
    return struct.pack('>BBHII', 0x80, 33, number % 65536, stamp % 2 ** 32, 0x10203040) + b'\x47' + bytes(187)


def waits():
    """How long after it was sent the first packet after three seconds of silence is written, in milliseconds."""
    ran = subprocess.Popen([rist, 'recv', '-', '127.0.0.1:5000', '--delay', '1'], stdout=subprocess.PIPE, stderr=subprocess.DEVNULL)
    end = socket.socket(socket.AF_INET, socket.SOCK_DGRAM)
    time.sleep(1)
    found = []
    begin = time.monotonic()
    for number in range(20):
        time.sleep(3)
        start = time.monotonic()
        end.sendto(media(number, int((start - begin) * 90000)), ('127.0.0.1', 5000))
        ready, _, _ = select.select([ran.stdout], [], [], 2)
        if not ready or len(os.read(ran.stdout.fileno(), 188)) != 188:
            sys.exit('a packet is missing')
        found.append(1000 * (time.monotonic() - start))
    ran.kill()
    ran.wait()
    return found


dear = [idle(f'recv on {count}', ['recv', os.path.join(work, 'out'), *links(count)], count) for count in (1, 4, 16)]
dear.append(idle('gate from 1 to 1', ['gate', *links(1), *links(1, 6000), '--in', '1'], 1))
found = waits()
print(f'a packet after silence is written after {statistics.median(found):.1f} ms by the median, {max(found):.1f} at most')
sys.exit(1 if max(dear[:3]) > most or statistics.median(found) > 10 else 0)
PYTHON
