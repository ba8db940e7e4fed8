#!/bin/sh
# What a stream of 200 Mbit/s costs both ends, in processor time: a feeder gives a datagram of 1,316 octets each 52 us to a sender over UDP, which
# sends it over loopback to a receiver, which gives it out over UDP again. The ends are `rist send` and `rist recv`, librist's `ristsender` and
# `ristreceiver`, and a C program that sends on what comes and does no more (`udp_baseline.c`): in the Simple Profile, in the tunnel in clear, and
# enciphered with keys of 128 and 256 bits, one after another, and again and again; of each the median. Then `rist` alone on 1, 4 and 16
# links that each carry every datagram, at 50 Mbit/s: processor time a datagram that went over a link.
# Words: how many times each (5), how many seconds of the stream (4). RIST in the environment stands for another program than the one that is
# built here. It takes ten minutes, needs cc, python3, ristsender and ristreceiver (Debian: rist-tools), uses 127.0.0.1 alone and writes only
# below a new folder in /tmp. It ends with 1 where a row of `rist` has a stream that didn't come whole; where a tool isn't there with 3.
set -eu
times=${1:-5} seconds=${2:-4}
here=$(cd "$(dirname "$0")" && pwd)
top=$(dirname "$here")
. "$here/recv_common.sh"
need cc python3 ristsender ristreceiver
work=$(mktemp -d /tmp/live_ends.XXXXXX)
trap 'rm -rf "$work"' EXIT
if [ -z "${RIST-}" ]; then
    need_recv
    RIST=$top/crates/rist/out/rist
fi
cc -O2 -o "$work/udp" "$here/udp_baseline.c"
python3 - "$RIST" "$work/udp" "$times" "$seconds" <<'PYTHON'
import os, signal, statistics, subprocess, sys, time

rist, udp, times, seconds = sys.argv[1], sys.argv[2], int(sys.argv[3]), float(sys.argv[4])
SOURCE, LINK, OUT = 6000, 5000, 6900
NOTHING = {"stdin": subprocess.DEVNULL, "stdout": subprocess.DEVNULL, "stderr": subprocess.DEVNULL}


def plain():
    return ([udp, "carry", str(SOURCE), str(LINK), "12"], [udp, "carry", str(LINK), str(OUT), "-12"])


def librist(*words):
    return (["ristsender", *words, "-S", "0", "-i", f"udp://@127.0.0.1:{SOURCE}", "-o", f"rist://127.0.0.1:{LINK}?buffer=400"],
            ["ristreceiver", *words, "-S", "0", "-i", f"rist://@127.0.0.1:{LINK}?buffer=400", "-o", f"udp://127.0.0.1:{OUT}"])


def ours(*words, links=1):
    ports = [f"127.0.0.1:{LINK + 2 * it}" for it in range(links)]
    return ([rist, "send", f"udp://127.0.0.1:{SOURCE}", *ports, "--gap", "1", "--store", "16384", *words],
            [rist, "recv", f"udp://127.0.0.1:{OUT}", *ports, "--delay", "400", "--span", "16384", *words])


def sealed(bits):
    return ("--profile", "main", "--pass", "secret", "--bits", bits)


def begin(words):
    # SIGTERM waits for `rist` to look, and ends the others.
    block = (lambda: signal.pthread_sigmask(signal.SIG_BLOCK, {signal.SIGTERM})) if words[0] == rist else None
    return subprocess.Popen(words, preexec_fn=block, **NOTHING)


def end(process):
    """Ends a process, and gives its processor time in seconds."""
    os.kill(process.pid, signal.SIGTERM)
    for _ in range(100):
        pid, _, used = os.wait4(process.pid, os.WNOHANG)
        if pid:
            return used.ru_utime + used.ru_stime
        time.sleep(0.05)
    process.kill()
    _, _, used = os.wait4(process.pid, 0)
    return used.ru_utime + used.ru_stime


def run(ends, gap, count):
    """Of a sender and a receiver of so many datagrams: processor time of each in seconds, and how many came."""
    taker = subprocess.Popen([udp, "take", str(OUT)], stdout=subprocess.PIPE)
    receiver = begin(ends[1])
    time.sleep(0.5)
    sender = begin(ends[0])
    time.sleep(1)
    subprocess.run([udp, "feed", str(SOURCE), str(gap), str(count)], check=True)
    came = int(taker.communicate(timeout=60)[0])
    return end(sender), end(receiver), came


def table(title, kinds, gap, scale):
    """Runs each kind, in turns, and prints the medians; whether each stream of `rist` came whole."""
    count = int(seconds * 1e6 / gap)
    seen = {name: [] for name in kinds}
    for _ in range(times):
        for name, ends in kinds.items():
            seen[name].append(run(ends, gap, count))
    whole = True
    print(title, flush=True)
    first = None
    for name, of in seen.items():
        sent, received = (statistics.median(it[end] for it in of) * scale(name) / count for end in (0, 1))
        first = first or (sent, received)
        least = min(it[2] for it in of)
        whole = whole and (least == count or not name.startswith("rist"))
        print(f"  {name}: {sent:.2f} and {received:.2f}, {sent / first[0]:.2f} and {received / first[1]:.2f} of the first row; "
              f"{'all whole' if least == count else f'in one run {least} of {count} came'}", flush=True)
    return whole


gigabyte = 1e9 / 1316
well = table("sender and receiver at 200 Mbit/s, processor seconds a GB:", {
    "a program that sends on what comes": plain(),
    "librist, Simple Profile": librist("-p", "0"),
    "rist, Simple Profile": ours(),
    "rist, tunnel in clear": ours("--profile", "main"),
    "librist, 128 bits": librist("-p", "1", "-s", "secret", "-e", "128"),
    "rist, 128 bits": ours(*sealed("128")),
    "librist, 256 bits": librist("-p", "1", "-s", "secret", "-e", "256"),
    "rist, 256 bits": ours(*sealed("256")),
}, 52, lambda _: gigabyte)
links = {f"rist, {it} link{'s' * (it > 1)}": it for it in (1, 4, 16)}
well &= table("at 50 Mbit/s, processor microseconds a datagram of a link:", {name: ours(links=it) for name, it in links.items()}, 210,
              lambda name: 1e6 / links[name])
sys.exit(not well)
PYTHON
