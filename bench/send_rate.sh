#!/bin/sh
# The highest rate that `rist send` holds without falling behind, over loopback. At each gap it sends for 2 s, at most 500,000
# pieces, to a C program that drops what comes. A gap is held where in one of three runs the last piece left at most 10 ms
# after its time; times are the kernel's, of each datagram as it came. The gap is halved, from 100 us down to 1 us at the
# least, until one isn't held, and then sought between that one and the last that was. It prints a line for each gap, and
# then the rate. Ends with status 1 where no gap is held, and with 3 where a tool isn't there. Needs cc and python3; bin/rist
# builds the program. It takes a minute at most once that is built, and writes only below a new folder in /tmp.
set -eu
here=$(cd "$(dirname "$0")" && pwd)
for tool in cc python3; do command -v "$tool" > /dev/null || { echo "no $tool here"; exit 3; }; done
work=$(mktemp -d /tmp/send_rate.XXXXXX)
trap 'rm -rf "$work"' EXIT
cat > "$work/sink.c" <<'C'
#define _GNU_SOURCE
#include <arpa/inet.h>
#include <stdio.h>
#include <stdlib.h>
#include <string.h>
#include <sys/socket.h>
#include <time.h>

enum { MANY = 64 };

// sink COUNT GAP: takes datagrams with the numbers 0 to COUNT - 1, and prints how many came, and how many microseconds the
// last was behind its time.
int main(int argc, char **argv) {
    long count = argc > 2 ? atol(argv[1]) : 0, gap = argc > 2 ? atol(argv[2]) : 0;
    static unsigned char heads[MANY][12], extra[MANY][64];
    struct mmsghdr all[MANY];
    struct iovec parts[MANY];
    struct sockaddr_in at = {.sin_family = AF_INET, .sin_port = htons(5000)};
    int in = socket(AF_INET, SOCK_DGRAM, 0), on = 1, room = 64 << 20;
    inet_pton(AF_INET, "127.0.0.1", &at.sin_addr);
    if (setsockopt(in, SOL_SOCKET, SO_RCVBUFFORCE, &room, sizeof room))
        setsockopt(in, SOL_SOCKET, SO_RCVBUF, &room, sizeof room);
    setsockopt(in, SOL_SOCKET, SO_TIMESTAMPNS, &on, sizeof on);
    setsockopt(in, SOL_SOCKET, SO_RCVTIMEO, &(struct timeval){.tv_sec = 2}, sizeof(struct timeval));
    if (in < 0 || bind(in, (struct sockaddr *)&at, sizeof at)) return 1;
    puts("ready");
    fflush(stdout);
    long came = 0, number = 0, high = -1;
    double first = 0, last = 0;
    while (high < count - 1) {
        for (int k = 0; k < MANY; k++) {
            parts[k] = (struct iovec){heads[k], sizeof heads[k]};
            all[k].msg_hdr = (struct msghdr){
                .msg_iov = parts + k, .msg_iovlen = 1, .msg_control = extra[k], .msg_controllen = sizeof extra[k]};
        }
        int got = recvmmsg(in, all, MANY, MSG_WAITFORONE, NULL);
        if (got <= 0) break;
        for (int k = 0; k < got; k++) {
            struct timespec t;
            struct cmsghdr *stamp = CMSG_FIRSTHDR(&all[k].msg_hdr);
            if (!stamp) return 1;
            memcpy(&t, CMSG_DATA(stamp), sizeof t);
            double us = t.tv_sec * 1e6 + t.tv_nsec / 1e3;
            number += (short)((heads[k][2] << 8 | heads[k][3]) - number);
            if (came++ == 0) first = us - (double)number * gap;
            if (number > high) high = number, last = us - first - (double)number * gap;
        }
    }
    printf("%ld %.0f\n", came, last);
    return 0;
}
C
cc -O2 -o "$work/sink" "$work/sink.c"
"$here/../bin/rist" replay /dev/null /dev/null > "$work/log" 2>&1 || true
python3 - "$here/../bin/rist" "$work" <<'PYTHON'
import os, subprocess, sys
PROGRAM, WORK = sys.argv[1:]
SECONDS, MOST, BOUND, TRIES, PIECE = 2, 500_000, 10_000, 3, 1316


def one_run(gap):
    """How many pieces were sent, how many came, how many microseconds the last was late, and the processor time of a
    piece in microseconds; None where the run failed."""
    pieces = min(MOST, SECONDS * 1_000_000 // gap)
    source = os.path.join(WORK, 'source')
    with open(source, 'wb') as octets:         # zeros, none of which take room on the disk
        octets.truncate(pieces * PIECE)
    with open(source, 'rb') as octets:         # so that the octets stand in memory
        while octets.read(1 << 20):
            pass
    sink = subprocess.Popen([os.path.join(WORK, 'sink'), str(pieces), str(gap)], stdout=subprocess.PIPE, text=True)
    if sink.stdout.readline() != 'ready\n':
        sys.exit('port 5000 is taken')
    sender = subprocess.Popen([PROGRAM, 'send', source, '127.0.0.1:5000', '--gap', str(gap), '--linger', '0'])
    _, status, used = os.wait4(sender.pid, 0)
    sender.returncode = os.waitstatus_to_exitcode(status)
    told = sink.communicate()[0].split()
    if status != 0 or len(told) != 2 or told[0] == '0':
        return None
    return pieces, int(told[0]), int(told[1]), (used.ru_utime + used.ru_stime) * 1_000_000 / pieces


def is_held(gap):
    for _ in range(TRIES):
        told = one_run(gap)
        if told is None:
            sys.exit(f'gap {gap} us: the run failed')
        pieces, came, late, busy = told
        held = late <= BOUND
        print(f'gap {gap:3} us, {PIECE * 8 / gap:6.0f} Mbit/s: {came} of {pieces} pieces came, {busy:.1f} us of processor time each; '
              f'the last {late} us late' + ('' if held else ': not held'), flush=True)
        if held:
            return True
    return False


held, gap = None, 100
while gap >= 1 and is_held(gap):
    held, gap = gap, gap // 2
if held is None:
    sys.exit('no gap was held')
missed = gap
while held - missed > 1:
    gap = (held + missed) // 2
    if is_held(gap):
        held = gap
    else:
        missed = gap
print(f'the highest rate held: {PIECE * 8 / held:.0f} Mbit/s, at a gap of {held} us; '
      f'load {os.getloadavg()[0]:.1f} on {os.cpu_count()} processors')
PYTHON
