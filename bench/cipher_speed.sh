#!/bin/sh
# Measures `aes_ctr::apply` on datagrams of 1,400 octets, `psk_keys::pbkdf2` of 1,024 rounds, and
# OpenSSL's AES-128-CTR beside them, with the processor's AES instructions and without them.
# Figures are of processor time. It takes a minute where the crates were proved in place, and some ten from a
# fresh clone. It needs rt, bash and openssl, and writes only below a new folder in /tmp.
set -e
for tool in rt bash openssl; do command -v "$tool" > /dev/null || { echo "no $tool here"; exit 3; }; done
top=$(cd "$(dirname "$0")/.." && pwd)
work=$(mktemp -d /tmp/cipher_speed.XXXXXX)
trap 'rm -rf "$work"' EXIT
mkdir -p "$work/crates/speed/src"
# The crates that are measured, and those of the repository that they stand on, as crates.txt has them.
needed=
add() {
    case " $needed " in *" $1 "*) return ;; esac
    line=$(grep "^$1:" "$top/crates.txt") || return 0
    needed="$needed $1"
    for below in ${line#*:}; do add "$below"; done
}
for crate in aes_ctr psk_keys; do add "$crate"; done
for crate in $needed; do
    cp -r "$top/crates/$crate" "$work/crates/"
    grep "^$crate:" "$top/crates.txt" >> "$work/crates.txt"
done
echo 'speed: aes_block aes_ctr psk_keys anyhow' >> "$work/crates.txt"
cat > "$work/crates/speed/src/main.rt" <<'RATTLE'
#![tactic(auto)]

use aes_block::{Aes, Key};
use aes_ctr::apply;
use psk_keys::pbkdf2;
use std::io::Print;
use std::{env, io};

// Enciphers one datagram again and again.
fn run_datagrams(rt: &impl Print, aes: &Aes) -> io::Result<()> {
    let mut text = [0u8; 1400];
    for turn in 0..400_000u32 {
        apply(aes, u128::from(turn).to_be_bytes(), &mut text);
    }
    println!(rt; "{}", text[0])
}

// Derives one key from another.
fn run_keys(rt: &impl Print) -> io::Result<()> {
    let mut salt = [0u8; 32];
    for _turn in 0..1000 {
        salt = pbkdf2(b"a passphrase of a session", &salt, 1024);
    }
    println!(rt; "{}", salt[0])
}

fn main(rt: HostRuntime) -> io::Result<()> {
    let mut words = env::args(&rt)?;
    let _program = words.next();
    let Some(word) = words.next() else {
        return Ok(());
    };
    match word.as_str() {
        "short" => run_datagrams(&rt, &Aes::new(&Key::Short([7; 16]))),
        "long" => run_datagrams(&rt, &Aes::new(&Key::Long([7; 32]))),
        _ => run_keys(&rt),
    }
}
RATTLE
(cd "$work/crates/speed" && rt run -- none > "$work/log" 2>&1) || { cat "$work/log" >&2; exit 1; }

# The processor time of a run in seconds, so that other work on the machine matters little.
processor_seconds() {
    bash -c 'TIMEFORMAT=%U; time "$0" "$1" > /dev/null' "$work/crates/speed/out/speed" "$1" 2>&1
}
for key in short long; do
    processor_seconds "$key" | awk -v key="$key" '{ printf "apply, %s key: %.1f MB/s\n", key, 400000 * 1400 / $1 / 1000000 }'
done
processor_seconds keys | awk '{ printf "pbkdf2 of 1,024 rounds: %.0f us\n", $1 / 1000 * 1000000 }'

# Bit 57 of the processor's feature word is AES, 33 carry-less products, 41 SSSE3.
openssl_speed() {
    openssl speed -seconds 3 -bytes 1400 -evp aes-128-ctr 2> /dev/null | awk '/^[Aa][Ee][Ss]/ { printf "%.1f MB/s\n", $NF / 1000 }'
}
echo "openssl, AES-128-CTR, AES instructions: $(openssl_speed)"
echo "openssl, AES-128-CTR, none, by SSSE3: $(OPENSSL_ia32cap='~0x200000200000000' openssl_speed)"
echo "openssl, AES-128-CTR, none, by tables: $(OPENSSL_ia32cap='~0x200020200000000' openssl_speed)"
