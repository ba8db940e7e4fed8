#!/bin/sh
# The processor time a GB of `rist send` at 400 Mbit/s (--gap 26) over loopback, beside that of a C program (`send_baseline.c`)
# that reads 1,316 octets and sends them, each in its time, and does no more. A third program takes what comes and drops it.
# Words: how many MB are sent (default 500). Needs cc and python3; bin/rist builds the program. It writes only below a new
# folder in /tmp.
set -eu
for tool in cc python3; do command -v "$tool" > /dev/null || { echo "no $tool here"; exit 3; }; done
size=${1:-500}
here=$(cd "$(dirname "$0")" && pwd)
work=$(mktemp -d /tmp/send_run_speed.XXXXXX)
sink=
trap 'kill $sink 2> /dev/null || true; rm -rf "$work"' EXIT
head -c "${size}000000" /dev/urandom > "$work/source"
cat > "$work/sink.c" <<'C'
#include <arpa/inet.h>

int main(void) {
    unsigned char block[2048];
    struct sockaddr_in at = {.sin_family = AF_INET, .sin_port = htons(5000)};
    int in = socket(AF_INET, SOCK_DGRAM, 0);
    if (bind(in, (struct sockaddr *)&at, sizeof at)) return 1;
    for (;;) recv(in, block, sizeof block, 0);
}
C
cc -O2 -o "$work/plain" "$here/send_baseline.c"
cc -O2 -o "$work/sink" "$work/sink.c"
"$here/../bin/rist" replay /dev/null /dev/null > "$work/log" 2>&1 || true
"$work/sink" &
sink=$!
# Of three runs the least: seconds by the clock, and seconds of the processor a GB.
measure() {
    python3 - "$work/source" "$size" "$@" <<'PYTHON'
import os, subprocess, sys, time
source, size, words = sys.argv[1], int(sys.argv[2]), sys.argv[3:]
best = (1e9, 0.0)
for _ in range(3):
    with open(source, 'rb') as octets:
        before, start = os.times(), time.monotonic()
        subprocess.run(words, stdin=octets, check=True)
        wall, after = time.monotonic() - start, os.times()
    busy = after.children_user + after.children_system - before.children_user - before.children_system
    best = min(best, (busy * 1000 / size, wall))
print('%.2f %.1f' % best)
PYTHON
}
sent=$(measure "$here/../bin/rist" send - 127.0.0.1:5000 --gap 26 --linger 0)
plain=$(measure "$work/plain" 5000 26)
echo "$sent $plain" | awk '{
    printf "rist send: %s s of the processor a GB, %s s by the clock; read and sendto: %s and %s; ratio %.2f\n", $1, $2, $3, $4, $1 / $3 }'
