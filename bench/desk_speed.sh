#!/bin/bash
# Measures the steps of a receiver that 1, 4 and 16 workers share, with no socket: a stream of 400 Mbit/s in packets of 1,316 octets,
# in clear, of which each worker takes the next when it comes to read, and a tick of each worker's clock each 5 ms. Nothing is kept.
# The receiver stands behind a turn lock, as in `recv`, and then behind the lock of the standard library, as an earlier commit had it, in
# turns. It prints the processor time and the wall time for each packet, its opening and its step, the least of the rounds, and the ratio
# of both locks. It takes half an hour or more, most of it for the proofs of both, needs rt, git, bash and awk, a clone with the earlier
# commit, and writes only below a new folder in /tmp.
# Usage: bench/desk_speed.sh [COUNT [ROUNDS [COMMIT]]]
set -e
for tool in rt git bash awk; do command -v "$tool" > /dev/null || { echo "no $tool here"; exit 3; }; done
top=$(cd "$(dirname "$0")/.." && pwd)
work=${WORK:-$(mktemp -d /tmp/desk_speed.XXXXXX)}
[ -n "$WORK" ] || trap 'rm -rf "$work"' EXIT
count=${1:-200000}
rounds=${2:-5}
earlier=${3:-ffb3fe0}

# Puts `rist_recv` and the crates below it, as a commit has them, below a folder.
lay() {
    mkdir -p "$work/$1/tree" "$work/$1/crates/speed/src"
    git -C "$top" archive "$2" crates crates.txt HANDLES | tar -x -C "$work/$1/tree"
    cp "$work/$1/tree/HANDLES" "$work/$1/"
    needed=" rist_recv "
    add "$work/$1/tree" rist_recv
    for crate in $needed; do
        grep "^$crate:" "$work/$1/tree/crates.txt" >> "$work/$1/crates.txt"
        mkdir -p "$work/$1/crates/$crate"
        for part in src specs proofs; do
            if [ -d "$work/$1/tree/crates/$crate/$part" ]; then
                mv "$work/$1/tree/crates/$crate/$part" "$work/$1/crates/$crate/"
            fi
        done
    done
    rm -r "$work/$1/tree"
    echo "speed: gre_tunnel outside_io outside_net seq_unwrap request_rules rist_wire rist_ends rist_desk rist_recv $3" >> "$work/$1/crates.txt"
}
add() {
    local name
    for name in $(sed -n "s/^$2://p" "$1/crates.txt"); do
        case "$needed" in
            *" $name "*) ;;
            *) if [ -d "$1/crates/$name" ]; then needed="$needed$name "; add "$1" "$name"; fi ;;
        esac
    done
}
lay turns HEAD "link_channels desk_run"
lay lock "$earlier" ""
cat > "$work/turns/crates/speed/src/main.rt" <<'RATTLE'
#![tactic(auto)]
ghost use Rattle.std.specs.Prelude.{◌≡◌, ◌<◌, ◌≤◌, None, Some, length};
ghost use Rattle.rist_wire.specs.Session.{IsSession};
ghost use Rattle.rist_ends.specs.Settings.{IsInRange};

use gre_tunnel::Tunnel;
use link_channels::{Channel, Profile};
use outside_io::{Failed, Store8};
use outside_net::{Clock, Got, Link};
use request_rules::NackKind;
use rist_desk::ServingLimits;
use rist_ends::Settings;
use rist_wire::Session;
use seq_unwrap::Width;
use std::alloc::Global;
use std::sync::atomic::{AtomicU64, Ordering};
use std::sync::{Arc, Wait};
use std::thread::Threads;
use std::{env, io};

// Each packet comes so many microseconds after the one before it.
const GAP: u64 = 26;

// The packet that is next.
type Next = Arc<AtomicU64, Global>;

// Gives the next packet, up to the last.
#[derive(Drop)]
struct Flood {
    next: Next,
    count: u64,
    ends: u64,
}

impl Link for Flood {
    ghost use Rattle.std.specs.Prelude.{true};

    ghost reads = { λ _. None };

    ghost taken = { λ _. None };

    ghost knows = { λ _ _. true };

    ghost knew = { λ _ _. true };

    ghost faults = { λ _. 0 };

    ghost ends = { λ link. link.ends };

    fn read(&mut self, buf: &mut [u8; 2048]) -> Got {
        let n = self.next.fetch_add(1, Ordering::SeqCst);
        if n >= self.count {
            self.ends = self.ends.saturating_add(1);
            return Got::End;
        }
        let ticks = (n.wrapping_mul(9 * GAP) / 100 % (1 << 32)) as u32;
        let stamp = ticks.to_be_bytes();
        let word = ((n % 65_536) as u16).to_be_bytes();
        let head = [
            0x80, 33, word[0], word[1], stamp[0], stamp[1], stamp[2], stamp[3], 0x10, 0x20, 0x30, 0x40,
        ];
        buf[..12].copy_from_slice(&head);
        Got::Datagram(Channel::Media, 1_328)
    }

    fn refuse(&mut self) {}

    fn write(&mut self, _channel: Channel, _octets: &[u8]) -> Result<bool, Failed> {
        Ok(true)
    }
}

// The moment of the next packet.
#[derive(Drop)]
struct Pace {
    next: Next,
}

impl Clock for Pace {
    ghost moments = { λ _. None };

    fn now(&mut self) -> u64 {
        self.next.load(Ordering::SeqCst).wrapping_mul(GAP)
    }
}

fn settings() -> Settings
    ensures range { IsInRange result }
{
    Settings {
        delay: 200,
        span: 16_384,
        restart: 0,
        drift: false,
        reorder: 5,
        least: 20,
        tries: 8,
        nack: NackKind::Range,
        own: 7,
        muted: false,
    }
}

fn session() -> Session
    ensures session { IsSession result }
    ensures clear { result.pass ≡ None }
{
    Session {
        profile: Profile::Simple,
        port: 1968,
        pass: None,
        bits: 128,
        nulls: false,
        width: Width::W16,
        full: false,
        tunnel: Tunnel::Own,
        echo: false,
    }
}

fn room(count: u64) -> usize {
    (count.min(1 << 20) as usize) * 1_316
}
RATTLE
# The earlier tree has these names elsewhere.
sed -e 's/^use link_channels::/use outside_io::/' -e 's/ServingLimits/Limits/' \
    "$work/turns/crates/speed/src/main.rt" > "$work/lock/crates/speed/src/main.rt"
cat >> "$work/turns/crates/speed/src/main.rt" <<'RATTLE'

use desk_run::make_in_turns;
use rist_recv::receive_in_turns;

// How many packets were kept behind a turn lock.
fn kept_of<R: Threads + Wait + Sync>(
    rt: &R,
    alloc: Global,
    count: u64,
    links: &mut Vec<Flood>,
    clocks: &mut Vec<Pace>,
) -> Option<u64>
    requires some { 0 < length links.old.items }
    requires few { length links.old.items ≤ 16 }
    requires clocks { length clocks.old.items ≡ length links.old.items }
{
    let limits = ServingLimits { turns: 1 << 40, idle: 0 };
    let Ok(sink) = Store8::with(alloc, room(count), &[]) else {
        return None;
    };
    let Ok(made) = make_in_turns(alloc, &settings(), &session(), None, links.len()) else {
        return None;
    };
    match receive_in_turns(rt, alloc, made, links, clocks, sink, &limits) {
        Ok(run) => Some(run.counts.kept),
        Err(_) => None,
    }
}
RATTLE
cat >> "$work/lock/crates/speed/src/main.rt" <<'RATTLE'

use outside_net::Quiet;
use rist_recv::{make, receive_on};

// How many packets were kept behind a lock of the standard library.
fn kept_of<R: Threads + Wait + Sync>(
    rt: &R,
    alloc: Global,
    count: u64,
    links: &mut Vec<Flood>,
    clocks: &mut Vec<Pace>,
) -> Option<u64>
    requires some { 0 < length links.old.items }
    requires few { length links.old.items ≤ 16 }
    requires clocks { length clocks.old.items ≡ length links.old.items }
{
    let limits = Limits { turns: 1 << 40, idle: 0 };
    let Ok(sink) = Store8::with(alloc, room(count), &[]) else {
        return None;
    };
    let Ok(made) = make::<Quiet, Flood, Pace>(alloc, &settings(), &session(), None, links.len(), 0) else {
        return None;
    };
    let run = receive_on(rt, made, links, clocks, sink, &limits);
    Some(run.counts.kept)
}
RATTLE
cat > "$work/rest" <<'RATTLE'

fn number(word: Option<String>) -> u64 {
    match word {
        Some(text) => text.parse().unwrap_or(0),
        None => 0,
    }
}

fn main(rt: HostRuntime) -> io::Result<()> {
    let mut words = env::args(&rt)?;
    let _program = words.next();
    let count = number(words.next());
    let many = number(words.next());
    let next = Arc::new(rt.alloc(), AtomicU64::new(0))?;
    let mut links = Vec::new(rt.alloc());
    let mut clocks = Vec::new(rt.alloc());
    for _ in 0..many {
        let Ok(first) = Arc::try_clone(&next) else {
            return println!(rt; "out of memory");
        };
        let Ok(second) = Arc::try_clone(&next) else {
            return println!(rt; "out of memory");
        };
        links.push(Flood { next: first, count, ends: 0 })?;
        clocks.push(Pace { next: second })?;
    }
    if links.len() == 0 || links.len() > 16 || clocks.len() != links.len() {
        return Ok(());
    }
    match kept_of(&rt, rt.alloc(), count, &mut links, &mut clocks) {
        Some(kept) => println!(rt; "{kept}"),
        None => println!(rt; "out of memory"),
    }
}
RATTLE
for kind in turns lock; do
    cat "$work/rest" >> "$work/$kind/crates/speed/src/main.rt"
    (cd "$work/$kind/crates/speed" && rt run -- 0 > "$work/log" 2>&1) || { tail -30 "$work/log"; exit 1; }
done
TIMEFORMAT='%R %U %S'
for workers in 1 4 16; do
    for round in $(seq "$rounds"); do
        for kind in turns lock; do
            { time kept=$("$work/$kind/crates/speed/out/speed" "$count" "$workers"); } 2> "$work/time"
            # A worker that had to wait while others went on may come too late with its packet.
            [ "$kept" = "$count" ] || echo "note $workers workers, $kind: $kept of $count kept"
            echo "$workers $kind $(cat "$work/time")"
        done
    done
done | awk -v count="$count" '
    $1 ~ /^[0-9]+$/ && NF == 5 {
        key = $1 " " $2; cpu = ($4 + $5) * 1000000 / count; wall = $3 * 1000000 / count
        if (!(key in least) || cpu < least[key]) least[key] = cpu
        if (!(key in clock) || wall < clock[key]) clock[key] = wall
        if (!($1 in seen)) { seen[$1] = 1; order[++n] = $1 }
        next
    }
    $1 == "note" { print substr($0, 6); next }
    { print; bad = 1 }
    END {
        for (i = 1; i <= n; i++) { w = order[i]
            printf "%d workers: turn lock %.2f us of processor time a packet, %.2f us by the clock; lock %.2f and %.2f; ratio %.2f and %.2f\n",
                w, least[w " turns"], clock[w " turns"], least[w " lock"], clock[w " lock"], least[w " turns"] / least[w " lock"], clock[w " turns"] / clock[w " lock"] }
        exit bad }'
