#!/bin/bash
# Measures the steps of a receiver without a socket, as a link's worker makes them: what a step makes is put into the caller's
# memory (`Receiver::step_into`). A stream of 400 Mbit/s in packets of 1,316 octets, of which each twentieth comes 30 ms late,
# as if it was sent again, and a tick of the clock each 5 ms, in clear, with the widest span at a delay of 200 ms. It prints the
# processor time a step, of a receiver that sends reports and requests back and of a muted one, and how many datagrams and words
# of requests were made. It takes some minutes, most of them for the proofs, needs rt and bash, and writes only below a new
# folder in /tmp.
set -e
for tool in rt bash; do command -v "$tool" > /dev/null || { echo "no $tool here"; exit 3; }; done
top=$(cd "$(dirname "$0")/.." && pwd)
work=$(mktemp -d /tmp/step_speed.XXXXXX)
trap 'rm -rf "$work"' EXIT
count=${1:-40000}
mkdir -p "$work/crates/speed/src"
cp "$top/HANDLES" "$work/"
# The crate that is measured, and those of the repository that it stands on, as crates.txt has them.
needed=
add() {
    case " $needed " in *" $1 "*) return ;; esac
    line=$(grep "^$1:" "$top/crates.txt") || return 0
    needed="$needed $1"
    for below in ${line#*:}; do add "$below"; done
}
add rist_ends
for crate in $needed; do
    cp -r "$top/crates/$crate" "$work/crates/"
    grep "^$crate:" "$top/crates.txt" >> "$work/crates.txt"
done
echo 'speed: outside_io seq_unwrap receiver_rules request_rules rist_wire rist_ends' >> "$work/crates.txt"
cat > "$work/crates/speed/src/main.rt" <<'RATTLE'
#![tactic(auto)]
ghost use Rattle.std.specs.Prelude.{◌≡◌, ◌≤◌, ◌<◌, ◌^◌, None, length};
ghost use Rattle.rist_wire.specs.Session.{IsSession};
ghost use Rattle.rist_ends.specs.Settings.{IsInRange};
ghost use Rattle.rist_ends.specs.Told.{IsFit};

use outside_io::{Profile, Store8};
use receiver_rules::Arrival;
use request_rules::NackKind;
use rist_ends::{Answer, Outs, Receiver, Settings, Told, What};
use rist_wire::Session;
use seq_unwrap::Width;
use std::{env, io};

// Each packet comes so many microseconds after the one before it.
const GAP: u64 = 26;

// What was lost comes so many packets later.
const LATE: u64 = 1_140;

fn settings(muted: bool) -> Settings
    ensures range { IsInRange result }
{
    Settings {
        delay: 200,
        span: 16_384,
        restart: 0,
        drift: false,
        reorder: 5,
        least: 20,
        tries: 8,
        nack: NackKind::Range,
        own: 7,
        muted,
    }
}

fn session() -> Session
    ensures session { IsSession result }
    ensures clear { result.pass ≡ None }
{
    Session {
        profile: Profile::Simple,
        port: 1968,
        pass: None,
        bits: 128,
        nulls: false,
        width: Width::W16,
        full: false,
    }
}

fn packet(now: u64, n: u64, payload: &[u8]) -> Told<'_>
    requires { length payload.now ≤ 1500 }
    ensures { IsFit result }
{
    let ticks = n.wrapping_mul(9 * GAP) / 100;
    Told {
        link: 0,
        us: now.wrapping_mul(GAP),
        what: What::Media(Arrival {
            flow: 0x1020_3040,
            again: false,
            width: Width::W16,
            word: (n % 65_536) as u32,
            stamp: (ticks % (1 << 32)) as u32,
            payload,
        }),
    }
}

fn tick(now: u64) -> Told<'static>
    ensures { IsFit result }
{
    Told {
        link: 0,
        us: now.wrapping_mul(GAP),
        what: What::Tick,
    }
}

fn main(rt: HostRuntime) -> io::Result<()> {
    let mut words = env::args(&rt)?;
    let _program = words.next();
    let count: u64 = match words.next() {
        Some(text) => text.parse().unwrap_or(0),
        None => 0,
    };
    let muted = words.next().is_some();
    let room = (count.min(1 << 30) as usize).saturating_mul(1_316);
    let Ok(mut sink) = Store8::with(rt.alloc(), room, &[]) else {
        return println!(rt; "out of memory");
    };
    let Ok(mut receiver) = Receiver::with(rt.alloc(), &settings(muted), &session(), None) else {
        return println!(rt; "out of memory");
    };
    let payload = [0x47; 1_316];
    let mut outs = Outs::none();
    let mut steps = 0u64;
    let mut made = 0u64;
    let mut asked = 0usize;
    for now in 0..count {
        if now % 20 != 7 {
            let _ = receiver.step_into(&packet(now, now, &payload), &mut outs, &mut sink);
            steps = steps.saturating_add(1);
        }
        if now >= LATE && (now - LATE) % 20 == 7 {
            let _ = receiver.step_into(&packet(now, now - LATE, &payload), &mut outs, &mut sink);
            steps = steps.saturating_add(1);
        }
        if now % 190 == 0 {
            if let Answer::Made = receiver.step_into(&tick(now), &mut outs, &mut sink) {
                made = made.saturating_add(1);
                asked = asked.saturating_add(outs.asked.words().len());
            }
            steps = steps.saturating_add(1);
        }
    }
    let counts = receiver.counts();
    println!(rt; "{steps} {made} {asked} {}", counts.kept)
}
RATTLE
(cd "$work/crates/speed" && rt run -- 0 > "$work/log" 2>&1) || { tail -30 "$work/log"; exit 1; }
program=$work/crates/speed/out/speed
TIMEFORMAT=%U
for kind in speaks muted; do
    words=()
    if [ "$kind" = muted ]; then
        words=(muted)
    fi
    { time told=$("$program" "$count" "${words[@]}"); } 2> "$work/time"
    awk -v kind="$kind" -v told="$told" '{ split(told, t, " "); printf "%s: %d steps, %.2f us each; %d datagrams, %d words, %d packets kept\n", kind, t[1], $1 * 1000000 / t[1], t[2], t[3], t[4] }' "$work/time"
done
