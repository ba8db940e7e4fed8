#!/bin/sh
# Measures `Sender::send` of 1,316 octets in clear (Simple Profile): on one link in memory, and on two by duplication; and
# beside it a plain copy of the datagram into a block for each link. Figures are of processor time. It takes a minute where
# the crates were proved in place, and half an hour from a fresh clone. It needs rt and bash, and writes only below a new
# folder in /tmp.
set -e
for tool in rt bash; do command -v "$tool" > /dev/null || { echo "no $tool here"; exit 3; }; done
top=$(cd "$(dirname "$0")/.." && pwd)
work=$(mktemp -d /tmp/send_speed.XXXXXX)
trap 'rm -rf "$work"' EXIT
mkdir -p "$work/crates/speed/src"
# The crate that is measured, and those of the repository that it stands on, as crates.txt has them.
needed=
add() {
    case " $needed " in *" $1 "*) return ;; esac
    line=$(grep "^$1:" "$top/crates.txt") || return 0
    needed="$needed $1"
    for below in ${line#*:}; do add "$below"; done
}
add rist_sender
for crate in $needed; do
    cp -r "$top/crates/$crate" "$work/crates/"
    grep "^$crate:" "$top/crates.txt" >> "$work/crates.txt"
done
echo 'speed: rist_sender rist_wire bond_links outside_net outside_io seq_unwrap sender_rules anyhow' >> "$work/crates.txt"
cat > "$work/crates/speed/src/main.rt" <<'RATTLE'
#![tactic(auto)]
ghost use Rattle.std.specs.Prelude.{◌≡◌, ◌≤◌, None, length, vec_len};
ghost use Rattle.sender_rules.specs.Bonding.{link_count};
ghost use Rattle.rist_wire.specs.Session.{IsSession};

use bond_links::Bond;
use outside_net::ScriptLink;
use rist_sender::{Sender, Settings};
use rist_wire::{Profile, Session};
use seq_unwrap::Width;
use std::alloc::{AllocError, Global};
use std::io::Print;
use std::env;

// A sender and its links.
#[derive(Drop)]
struct Flow {
    sender: Sender,
    links: Vec<ScriptLink>,
    ghost fits: { vec_len links ≡ link_count sender.bonding },
    ghost few: { vec_len links ≤ 16 },
}

impl Flow {
    fn send(&mut self, us: u64, payload: &[u8])
        requires { length payload.now ≤ 1500 }
    {
        let _ = self.sender.send(us, payload, &mut self.links);
    }
}

fn session() -> Session
    ensures session { IsSession result }
    ensures clear { result.pass ≡ None }
{
    Session {
        profile: Profile::Simple,
        port: 1968,
        pass: None,
        bits: 128,
        nulls: false,
        width: Width::W16,
        full: false,
    }
}

fn flow_over(alloc: Global, bond: Bond, links: Vec<ScriptLink>) -> anyhow::Result<Flow>
    requires fits { vec_len links ≡ link_count bond }
    requires few { vec_len links ≤ 16 }
{
    let settings = Settings {
        flow: 0x1020_3040,
        first: 0,
        store: 64,
        hold: 20,
        bond,
    };
    let sender = Sender::with(alloc, settings, &session(), None)?;
    Ok(Flow { sender, links })
}

// A link with room for what is sent in one turn.
fn link(alloc: Global) -> Result<ScriptLink, AllocError> {
    match ScriptLink::with(alloc, Vec::new(alloc), true, 1_000, &[], &[]) {
        Ok(link) => Ok(link),
        Err(_) => Err(AllocError),
    }
}

fn one_turn(alloc: Global, payload: &[u8]) -> anyhow::Result<()>
    requires { length payload.now ≤ 1500 }
{
    let mut links = Vec::new(alloc);
    links.push(link(alloc)?)?;
    let mut flow = flow_over(alloc, Bond::duplicate(1), links)?;
    for us in 0..1_000u64 {
        flow.send(us, payload);
    }
    Ok(())
}

fn two_turn(alloc: Global, payload: &[u8]) -> anyhow::Result<()>
    requires { length payload.now ≤ 1500 }
{
    let mut links = Vec::new(alloc);
    links.push(link(alloc)?)?;
    links.push(link(alloc)?)?;
    let mut flow = flow_over(alloc, Bond::duplicate(2), links)?;
    for us in 0..1_000u64 {
        flow.send(us, payload);
    }
    Ok(())
}

// Copies a datagram into one block after another.
fn copy_turn(block: &mut [[u8; 2048]; 16], payload: &[u8]) -> u8
    requires { length payload.now ≤ 1500 }
{
    let mut last = 0;
    for us in 0..1_000usize {
        let place = &mut block[us % 16];
        place[12..12 + payload.len()].copy_from_slice(payload);
        last = place[12];
    }
    last
}

fn main(rt: HostRuntime) -> anyhow::Result<()> {
    let mut words = env::args(&rt)?;
    let _program = words.next();
    let Some(word) = words.next() else {
        return Ok(());
    };
    let payload = [7u8; 1316];
    match word.as_str() {
        "one" => {
            for _turn in 0..500u32 {
                one_turn(rt.alloc(), &payload)?;
            }
        }
        "two" => {
            for _turn in 0..500u32 {
                two_turn(rt.alloc(), &payload)?;
            }
        }
        "copy" => {
            let mut block = [[0; 2048]; 16];
            let mut sum = 0u64;
            for _turn in 0..500u32 {
                sum = sum.wrapping_add(u64::from(copy_turn(&mut block, &payload)));
            }
            println!(rt; "{}", sum)?;
        }
        _ => {}
    }
    Ok(())
}
RATTLE
(cd "$work/crates/speed" && rt run -- none > "$work/log" 2>&1) || { cat "$work/log" >&2; exit 1; }

# The processor time of a run in seconds, so that other work on the machine matters little.
processor_seconds() {
    bash -c 'TIMEFORMAT=%U; time "$0" "$1" > /dev/null' "$work/crates/speed/out/speed" "$1" 2>&1
}
copy=$(processor_seconds copy)
for links in one two; do
    processor_seconds "$links" | awk -v links="$links" -v copy="$copy" \
        '{ printf "send, links %s: %.2f us, %.1f times a plain copy\n", links, $1 * 2, (copy > 0) ? $1 / copy : 0 }'
done
awk -v copy="$copy" 'BEGIN { printf "plain copy of 1,316 octets: %.3f us\n", copy * 2 }'
