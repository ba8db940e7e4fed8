#!/bin/bash
# Measures links over UDP: a process that writes and one that reads datagrams of 1,328 octets over loopback, through
# `outside_net::UdpLink` and through a pair of C programs that call `sendto` and `recvfrom`, in turn; and how long a read of
# a quiet link takes, and a rest of a millisecond. The writer doesn't wait, so the system drops what the reader can't take: the figures are datagrams a
# second that were written and read, and processor time for each million of them. It takes some minutes, most of them for
# the proofs, needs rt, bash and cc, and writes only below a new folder in /tmp.
set -e
for tool in rt bash cc; do command -v "$tool" > /dev/null || { echo "no $tool here"; exit 3; }; done
top=$(cd "$(dirname "$0")/.." && pwd)
work=$(mktemp -d /tmp/link_speed.XXXXXX)
trap 'rm -rf "$work"' EXIT
count=${1:-1000000}
mkdir -p "$work/crates/speed/src"
cp "$top/HANDLES" "$work/"
for crate in link_channels outside_io outside_net; do
    mkdir "$work/crates/$crate"
    for part in src specs proofs; do
        cp -r "$top/crates/$crate/$part" "$work/crates/$crate/"
    done
done
sed -n -e '/^link_channels:/p' -e '/^outside_io:/p' -e '/^outside_net:/p' "$top/crates.txt" > "$work/crates.txt"
echo 'speed: link_channels outside_io outside_net' >> "$work/crates.txt"
cat > "$work/crates/speed/src/main.rt" <<'RATTLE'
#![tactic(auto)]

use link_channels::{Channel, Profile};
use outside_net::{Clock, Got, Link, LinkSpec, ProcessClock, Role, UdpLink};
use std::io::Print;
use std::net::{IpAddr, Ipv4Addr};
use std::{env, io};

// Reads until nothing has come for 300 reads.
fn read_all(rt: &impl Print, link: &mut UdpLink, clock: &mut impl Clock) -> io::Result<()> {
    let mut block = [0; 2048];
    let mut taken = 0u64;
    let mut quiet = 0u64;
    let mut first = 0u64;
    let mut last = 0u64;
    for _ in 0..u64::MAX {
        match link.read(&mut block) {
            Got::Datagram(_, _) => {
                last = clock.now();
                if taken == 0 {
                    first = last;
                }
                taken = taken.saturating_add(1);
                quiet = 0;
            }
            _ => {
                quiet = quiet.saturating_add(1);
                link.rest(1);
            }
        }
        if taken > 0 && quiet > 300 || quiet > 10_000 {
            break;
        }
    }
    println!(rt; "{taken} {}", last.saturating_sub(first))
}

fn write_all(rt: &impl Print, link: &mut UdpLink, clock: &mut impl Clock, count: u64) -> io::Result<()> {
    let block = [7; 1328];
    let first = clock.now();
    let mut sent = 0u64;
    for _ in 0..count {
        if let Ok(true) = link.write(Channel::Media, &block) {
            sent = sent.saturating_add(1);
        }
    }
    println!(rt; "{sent} {}", clock.now().saturating_sub(first))
}

fn wait_quietly(rt: &impl Print, link: &mut UdpLink, clock: &mut impl Clock) -> io::Result<()> {
    let mut block = [0; 2048];
    let first = clock.now();
    for _ in 0..1000 {
        let _ = link.read(&mut block);
    }
    let between = clock.now();
    for _ in 0..1000 {
        link.rest(1);
    }
    let read = between.saturating_sub(first) / 1000;
    println!(rt; "{read} {}", clock.now().saturating_sub(between) / 1000)
}

fn main(rt: HostRuntime) -> io::Result<()> {
    let mut words = env::args(&rt)?;
    let _program = words.next();
    let Some(word) = words.next() else {
        return Ok(());
    };
    let Ok(mut clock) = ProcessClock::start(&rt) else {
        return Ok(());
    };
    let role = if word.as_str() == "write" { Role::Sends } else { Role::Receives };
    let spec = LinkSpec::at(IpAddr::V4(Ipv4Addr::new(127, 0, 0, 1)), 25_000);
    let Ok(mut link) = UdpLink::open(&rt, &spec, role, Profile::Simple) else {
        return println!(rt; "cannot open");
    };
    match word.as_str() {
        "read" => read_all(&rt, &mut link, &mut clock),
        "write" => {
            let count = match words.next() {
                Some(text) => text.parse().unwrap_or(0),
                None => 0,
            };
            write_all(&rt, &mut link, &mut clock, count)
        }
        _ => wait_quietly(&rt, &mut link, &mut clock),
    }
}
RATTLE
cat > "$work/pair.c" <<'C'
#include <arpa/inet.h>
#include <poll.h>
#include <stdio.h>
#include <stdlib.h>
#include <string.h>
#include <sys/socket.h>
#include <time.h>
static long now(void) {
    struct timespec t;
    clock_gettime(CLOCK_MONOTONIC, &t);
    return t.tv_sec * 1000000 + t.tv_nsec / 1000;
}
int main(int argc, char **argv) {
    int socket_ = socket(AF_INET, SOCK_DGRAM | SOCK_NONBLOCK, 0);
    struct sockaddr_in to = {.sin_family = AF_INET, .sin_port = htons(25000)}, from;
    socklen_t size = sizeof from;
    char block[2048] = {7};
    long count = argc > 2 ? atol(argv[2]) : 0, done = 0, first, last = 0;
    inet_pton(AF_INET, "127.0.0.1", &to.sin_addr);
    first = now();
    if (argc > 1 && !strcmp(argv[1], "write")) {
        for (long k = 0; k < count; k++)
            done += sendto(socket_, block, 1328, 0, (struct sockaddr *)&to, sizeof to) == 1328;
        printf("%ld %ld\n", done, now() - first);
        return 0;
    }
    int room = 4194304;
    setsockopt(socket_, SOL_SOCKET, SO_RCVBUF, &room, sizeof room);
    if (bind(socket_, (struct sockaddr *)&to, sizeof to)) return 1;
    for (int quiet = 0; quiet < (done ? 300 : 10000);) {
        if (recvfrom(socket_, block, sizeof block, 0, (struct sockaddr *)&from, &size) >= 0) {
            last = now();
            if (!done++) first = last;
            quiet = 0;
        } else {
            struct pollfd wait = {socket_, POLLIN, 0};
            poll(&wait, 1, 1);
            quiet++;
        }
    }
    printf("%ld %ld\n", done, last - first);
}
C
cc -O2 -o "$work/pair" "$work/pair.c"
(cd "$work/crates/speed" && rt run -- none > "$work/log" 2>&1) || { cat "$work/log" >&2; exit 1; }
link="$work/crates/speed/out/speed"
TIMEFORMAT='%U %S'

# turn NAME PROGRAM
turn() {
    { time "$2" read > "$work/read"; } 2> "$work/read_time" &
    sleep 0.5
    { time "$2" write "$count" > "$work/write"; } 2> "$work/write_time"
    wait
    for side in write read; do
        echo "$1 $side $(cat "$work/$side") $(cat "$work/${side}_time")"
    done | awk '{ printf "%-5s %-5s %9d datagrams, %7.0f a second, %.2f s of processor time a million\n", $1, $2, $3, $3 * 1e6 / ($4 + 1), ($5 + $6) * 1e6 / $3 }'
}

for round in 1 2 3; do
    turn C "$work/pair"
    turn link "$link"
done
echo "a quiet read and a rest of a millisecond take, in microseconds: $("$link" quiet)"
