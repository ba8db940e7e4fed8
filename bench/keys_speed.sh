#!/bin/bash
# Measures what a sealed datagram of 1,400 octets costs with the key of its nonce, `psk_keys::Keys` and `aes_ctr::apply`, beside the
# keys of an earlier commit, in turns in one run: with one nonce, and with four in turn. It prints the least processor time of a
# datagram of both, and the median of the rounds' ratios. It takes some minutes, most of them for the proofs, needs rt, git, bash and
# awk, a clone with the earlier commit, and writes only below a new folder in /tmp.
# Usage: bench/keys_speed.sh [COMMIT [ROUNDS]]; COMMIT is the last one before the keys lay in the `lru` crate's cache.
set -e
for tool in rt git bash awk; do command -v "$tool" > /dev/null || { echo "no $tool here"; exit 3; }; done
top=$(cd "$(dirname "$0")/.." && pwd)
earlier=${1:-9b8bda3}
rounds=${2:-15}
work=$(mktemp -d /tmp/keys_speed.XXXXXX)
trap 'rm -rf "$work"' EXIT

# Puts the crates that are measured, as a commit has them, below a folder, and a program over them.
lay() {
    mkdir -p "$work/$1/crates/speed/src"
    git -C "$top" archive "$2" crates.txt HANDLES crates/outside_io crates/aes_block crates/aes_ctr crates/psk_keys | tar -x -C "$work/$1"
    grep -E '^(outside_io|aes_block|aes_ctr|psk_keys):' "$work/$1/crates.txt" > "$work/$1/lines"
    echo 'speed: aes_block aes_ctr psk_keys' >> "$work/$1/lines"
    mv "$work/$1/lines" "$work/$1/crates.txt"
    find "$work/$1" -name '*.edit' -delete
    cat > "$work/$1/crates/speed/src/main.rt" <<'RATTLE'
#![tactic(auto)]
ghost use Rattle.std.specs.Prelude.{◌<◌};

use aes_ctr::apply;
use psk_keys::{Keys, Phrase};
use std::io::Print;
use std::{env, io};

// Enciphers one datagram again and again, under so many nonces in turn.
fn run_datagrams(rt: &impl Print, keys: &mut Keys, nonces: u32) -> io::Result<()>
    requires some { 0 < nonces }
{
    let mut text = [0u8; 1400];
    for turn in 0..200_000u32 {
        keys.turn_to((turn % nonces).to_be_bytes());
        apply(keys.latest(), u128::from(turn).to_be_bytes(), &mut text);
    }
    println!(rt; "{}", text[0])
}

fn main(rt: HostRuntime) -> io::Result<()> {
    let mut words = env::args(&rt)?;
    let _program = words.next();
    let Ok(mut keys) = Keys::with(rt.alloc(), Phrase::of(b"a passphrase of a session"), 128) else {
        return Ok(());
    };
    match words.next() {
        Some(word) if word.as_str() == "four" => run_datagrams(&rt, &mut keys, 4),
        _ => run_datagrams(&rt, &mut keys, 1),
    }
}
RATTLE
    (cd "$work/$1/crates/speed" && rt run -- one > "$work/$1/log" 2>&1) || { cat "$work/$1/log" >&2; exit 1; }
}
lay now HEAD
lay before "$earlier"

# The processor time of a datagram in microseconds.
of_a_datagram() {
    bash -c 'TIMEFORMAT=%U; time "$0" "$1" > /dev/null' "$work/$1/crates/speed/out/speed" "$2" 2>&1 | awk '{ printf "%.4f\n", $1 / 200000 * 1000000 }'
}
for nonces in one four; do
    for round in $(seq "$rounds"); do
        if [ $((round % 2)) = 1 ]; then
            now=$(of_a_datagram now "$nonces"); before=$(of_a_datagram before "$nonces")
        else
            before=$(of_a_datagram before "$nonces"); now=$(of_a_datagram now "$nonces")
        fi
        echo "$now $before"
    done | awk -v nonces="$nonces" '
        NR == 1 || $1 < now { now = $1 }
        NR == 1 || $2 < before { before = $2 }
        { ratio[NR] = $1 / $2 }
        END {
            n = NR
            for (i = 1; i <= n; i++) for (j = i + 1; j <= n; j++) if (ratio[j] < ratio[i]) { t = ratio[i]; ratio[i] = ratio[j]; ratio[j] = t }
            printf "%s: %.3f us a datagram, before %.3f; by the least %.3f, by the median of %d rounds %.3f\n", nonces " nonce" (nonces == "one" ? "" : "s"), now, before, now / before, n, ratio[int((n + 1) / 2)]
        }'
done
