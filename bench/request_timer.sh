#!/bin/bash
# Measures `nack_timer::Timer` with 16,384 places of which every second number is missing, asked each 5 ms: processor time
# for one tick of the clock (`due` and, apart, `would`), beside the same ticks without a timer; and for a tick with nothing
# missing. It takes some minutes, most of them for the proofs, needs rt and bash, and writes only below a new folder in /tmp.
set -e
for tool in rt bash; do command -v "$tool" > /dev/null || { echo "no $tool here"; exit 3; }; done
top=$(cd "$(dirname "$0")/.." && pwd)
work=$(mktemp -d /tmp/request_timer.XXXXXX)
trap 'rm -rf "$work"' EXIT
mkdir -p "$work/crates/speed/src"
# The crates that are measured, and those of the repository that they stand on, as crates.txt has them.
needed=
add() {
    case " $needed " in *" $1 "*) return ;; esac
    line=$(grep "^$1:" "$top/crates.txt") || return 0
    needed="$needed $1"
    for below in ${line#*:}; do add "$below"; done
}
add nack_timer
for crate in $needed; do
    cp -r "$top/crates/$crate" "$work/crates/"
    grep "^$crate:" "$top/crates.txt" >> "$work/crates.txt"
done
echo 'speed: outside_io seq_unwrap receiver_rules reorder_buffer request_rules nack_timer' >> "$work/crates.txt"
cat > "$work/crates/speed/src/main.rt" <<'RATTLE'
#![tactic(auto)]
ghost use Rattle.std.specs.Prelude.{◌≡◌, ◌≤◌, ◌<◌, ◌^◌, None, IfOk, OnOk};
ghost use Rattle.reorder_buffer.specs.declared.phase.Phase.TheVariants.{Open};

use nack_timer::{Settings, Timer};
use outside_io::Store8;
use receiver_rules::Arrival;
use reorder_buffer::{Buffer, WriteFault};
use request_rules::NackKind;
use seq_unwrap::Width;
use std::io::Print;
use std::{env, io};

// Tells a timer of a highest number that has risen, and gives the one that it knows.
fn tell(timer: &mut Timer, buffer: &Buffer, known: Option<u64>) -> Option<u64>
    requires known { timer.old.high ≡ known }
    ensures known { timer.new.high ≡ result }
    ensures span { timer.new.span ≡ timer.old.span }
{
    let Some(high) = buffer.high() else {
        return known;
    };
    let has_risen = match known {
        Some(known) => known < high,
        None => true,
    };
    if has_risen {
        timer.raised(100, high);
        Some(high)
    } else {
        known
    }
}

// Keeps so many packets, of every second number.
fn fill(buffer: &mut Buffer, timer: &mut Timer, sink: &mut Store8, count: u32) -> Result<Option<u64>, WriteFault>
    requires running { (buffer.old.phase ≡ Open) × (buffer.old.time ≤ 100) }
    requires fresh { timer.old.high ≡ None }
    requires span { (buffer.old.limits.capacity ≡ 16384) × (timer.old.span ≡ 16384) }
    ensures running { OnOk result ((buffer.new.phase ≡ Open) × (buffer.new.time ≤ 100)) }
    ensures known { IfOk result (λ known. timer.new.high ≡ known) }
    ensures span { (buffer.new.limits.capacity ≡ 16384) × (timer.new.span ≡ 16384) }
{
    let mut known = None;
    for place in 0..count {
        let word = place % 32_768 * 2;
        let arrival = Arrival { flow: 2, again: false, width: Width::W16, word, stamp: place % 65_536, payload: &[] };
        buffer.receive(100, &arrival, sink)?;
        known = tell(timer, buffer, known);
    }
    Ok(known)
}

// So many ticks of the clock, 5 ms apart. Each lets out what is due, then (modes 0 and 1) asks, and then (mode 1) looks
// whether it would ask for more.
fn tick(buffer: &mut Buffer, timer: &mut Timer, sink: &mut Store8, known: Option<u64>, count: u32, mode: u32) -> Result<usize, WriteFault>
    requires running { (buffer.old.phase ≡ Open) × (buffer.old.time ≤ 100) }
    requires known { timer.old.high ≡ known }
    requires span { (buffer.old.limits.capacity ≡ 16384) × (timer.old.span ≡ 16384) }
{
    let mut words = 0usize;
    let mut at = 100u64;
    for _turn in 0..count {
        at = (at + 450).min(1 << 60);
        buffer.release(at, sink)?;
        if buffer.high() == known {
            if mode < 2 {
                words = words.wrapping_add(timer.due(at, buffer, 0).words().len());
            }
            if mode == 1 {
                words = words.wrapping_add(usize::from(timer.would(at, buffer, 0)));
            }
        }
    }
    Ok(words)
}

// Asks so often at one tick.
fn ask_again(buffer: &Buffer, timer: &mut Timer, known: Option<u64>, count: u32) -> usize
    requires running { (buffer.now.phase ≡ Open) × (buffer.now.time ≡ 1000) }
    requires known { timer.old.high ≡ known }
    requires span { (buffer.now.limits.capacity ≡ 16384) × (timer.old.span ≡ 16384) }
{
    let mut words = 0usize;
    for _turn in 0..count {
        if buffer.high() == known {
            words = words.wrapping_add(timer.due(1000, buffer, 0).words().len());
        }
    }
    words
}

fn main(rt: HostRuntime) -> io::Result<()> {
    let mut words = env::args(&rt)?;
    let _program = words.next();
    let Some(word) = words.next() else {
        return Ok(());
    };
    let alloc = rt.alloc();
    let settings = Settings { reorder: 0, least: 1000, tries: 32, nack: NackKind::Range };
    let (Ok(mut sink), Ok(mut buffer), Ok(mut timer)) = (Store8::with(alloc, 64, &[]), Buffer::with_limits(alloc, 16_384, 30_000, 0, false), Timer::with_span(alloc, 16_384, settings)) else {
        return println!(rt; "out of memory");
    };
    let count = if word.as_str() == "idle" { 1 } else { 8192 };
    let Ok(known) = fill(&mut buffer, &mut timer, &mut sink, count) else {
        return Ok(());
    };
    let mode = match word.as_str() {
        "due" => 0,
        "would" => 1,
        "release" => 2,
        "idle" => {
            if buffer.release(1000, &mut sink).is_err() {
                return Ok(());
            }
            let asked = ask_again(&buffer, &mut timer, known, 20_000_000);
            return println!(rt; "{asked}");
        }
        _ => return Ok(()),
    };
    match tick(&mut buffer, &mut timer, &mut sink, known, 4000, mode) {
        Ok(asked) => println!(rt; "{asked}"),
        Err(_) => Ok(()),
    }
}
RATTLE
mkdir -p "$work/crates/speed/proofs/fill" "$work/crates/speed/proofs/tick" "$work/crates/speed/proofs/ask_again"
cat > "$work/crates/speed/proofs/fill/Invariants.antt" <<'ANTT'
use Rattle.std.proofs.Common.{◌≡◌, ◌≤◌}
use Rattle.reorder_buffer.specs.declared.phase.Phase.TheVariants.{Open}
use Rattle.speed.proofs.fill.Given as goal

abbrev pub invariant-loop-place : goal.invariant-loop-place
invariant-loop-place l = (l.buffer.phase ≡ Open) × (l.buffer.time ≤ 100) × (l.timer.high ≡ l.known) × (l.buffer.limits.capacity ≡ 16384) × (l.timer.span ≡ 16384)
ANTT
cat > "$work/crates/speed/proofs/tick/Invariants.antt" <<'ANTT'
use Rattle.std.proofs.Common.{◌≡◌, ◌≤◌, ◌^◌}
use Rattle.reorder_buffer.specs.declared.phase.Phase.TheVariants.{Open}
use Rattle.speed.proofs.tick.Given as goal

abbrev pub invariant-loop-turn : goal.invariant-loop-turn
invariant-loop-turn l = (l.buffer.phase ≡ Open) × (l.buffer.time ≤ l.at) × (l.at ≤ 2 ^ 60) × (l.timer.high ≡ l.known) × (l.buffer.limits.capacity ≡ 16384) × (l.timer.span ≡ 16384)
ANTT
cat > "$work/crates/speed/proofs/ask_again/Invariants.antt" <<'ANTT'
use Rattle.std.proofs.Common.{◌≡◌}
use Rattle.speed.proofs.ask_again.Given as goal

abbrev pub invariant-loop-turn : goal.invariant-loop-turn
invariant-loop-turn l = (l.timer.high ≡ l.known) × (l.timer.span ≡ 16384)
ANTT

(cd "$work/crates/speed" && rt run -- none > "$work/log" 2>&1) || { cat "$work/log" >&2; exit 1; }
program="$work/crates/speed/out/speed"
TIMEFORMAT='%U'

# best WORD: the least processor time of five runs, in seconds
best() {
    for round in 1 2 3 4 5; do
        { time "$program" "$1" > /dev/null; } 2>&1
    done | sort -n | head -n 1
}

release=$(best release)
due=$(best due)
would=$(best would)
printf 'due %s %s\nwould %s %s\n' "$release" "$due" "$due" "$would" | awk '{ printf "%-6s %7.2f microseconds a tick with 8,191 numbers missing\n", $1, ($3 - $2) * 1e6 / 4000 }'
echo "$(best none) $(best idle)" | awk '{ printf "due    %7.3f microseconds with nothing missing\n", ($2 - $1) * 1e6 / 20000000 }'
