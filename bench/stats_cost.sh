#!/bin/sh
# What `--stats` costs: the processor time of `rist recv` at 400 Mbit/s (a datagram each 26 us) on one link of loopback, without it, with a line each second and
# with one each 100 ms in a file, in turn and again and again; of each the least. A C program sends the datagrams of a capture, each at its time.
# The script ends with 1 where a line each second costs 3 per cent or more, or where some stream didn't come whole.
# Words: how many times each (7), how many seconds of the stream (3), and a built program that stands for bin/rist (none). It takes two minutes and
# 1 GB, needs cc and python3, uses 127.0.0.1 alone and writes only below a new folder in /tmp. Where a tool isn't there it ends with status 3, without
# `recv` with status 4.
set -eu
times=${1:-7} seconds=${2:-3} program=${3:-}
here=$(cd "$(dirname "$0")" && pwd)
top=$(dirname "$here")
. "$here/recv_common.sh"
need cc python3 cmp
work=$(mktemp -d /tmp/stats_cost.XXXXXX)
trap 'rm -rf "$work"' EXIT
if [ -z "$program" ]; then
    need_recv
    program=$top/crates/rist/out/rist
fi
cc -O2 -o "$work/feed" "$here/recv_feed.c"
python3 - "$program" "$work" "$times" "$seconds" <<'PYTHON'
import os
import subprocess
import sys
import time

rist, work, times, seconds = sys.argv[1], sys.argv[2], int(sys.argv[3]), float(sys.argv[4])
GAP = 26
source, capture, came, lines = (os.path.join(work, name) for name in ("source", "capture", "came", "lines"))
KINDS = {
    "without": [],
    "a line each second": ["--stats", "1000", "--stats-file", lines],
    "a line each 100 ms": ["--stats", "100", "--stats-file", lines],
}

with open(source, "wb") as out:
    for _ in range(int(seconds * 1e6 / GAP)):
        out.write(os.urandom(1316))
subprocess.run([rist, "pack", source, capture, "--gap", str(GAP)], check=True)


def used(words):
    """The processor time of a receiver with these words, in seconds."""
    with open(came, "wb") as octets:
        receiver = subprocess.Popen(
            [rist, "recv", "-", "127.0.0.1:5000", "--delay", "400", "--span", "16384", "--idle", "1500", *words],
            stdout=octets, stderr=subprocess.PIPE)
    time.sleep(0.5)
    subprocess.run([os.path.join(work, "feed"), capture, "5000"], stdout=subprocess.DEVNULL, check=True, timeout=60)
    said = receiver.stderr.read().decode().strip()
    _, status, usage = os.wait4(receiver.pid, 0)
    if status or subprocess.run(["cmp", "-s", source, came]).returncode:
        print("not whole:", said)
        return None
    return usage.ru_utime + usage.ru_stime


seen = {kind: [] for kind in KINDS}
for _ in range(times):
    for kind, words in KINDS.items():
        seen[kind].append(used(words))
least = {kind: min((s for s in all_of if s is not None), default=None) for kind, all_of in seen.items()}
if None in least.values():
    sys.exit(1)
for kind, took in least.items():
    whole = sum(s is not None for s in seen[kind])
    print(f"{kind}: {took:.3f} s, {took / least['without']:.3f} of without; {whole} of {times} came whole")
sys.exit(least["a line each second"] >= 1.03 * least["without"])
PYTHON
