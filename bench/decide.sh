#!/usr/bin/env bash
# Times `decide`: nanoseconds of processor time for a call, by what the granule's four words are.
# It makes a program over the repository's crates in a folder of its own, and runs it.
set -eu
cd "$(dirname "$0")/.."
work=$(mktemp -d)
trap 'rm -rf "$work"' EXIT
below="run_record run_laws vector_clock shadow_word"
for name in $below; do
    mkdir -p "$work/crates/$name"
    for part in src specs proofs; do
        [ ! -d "crates/$name/$part" ] || cp -r "crates/$name/$part" "$work/crates/$name/"
    done
done
mkdir -p "$work/crates/decide_times/src"
cp HANDLES "$work/"
{ cat crates.txt; echo "decide_times: $below"; } |
    grep -E "^($(echo $below | tr ' ' '|')|decide_times):" > "$work/crates.txt"

cat > "$work/crates/decide_times/src/main.rt" <<'END'
// Times `decide` over granules in several states.
#![tactic(auto)]

mod work;

use std::alloc::Global;
use std::io;
use std::time::CpuClock;

use work::{times, word};

fn main(rt: HostRuntime) -> io::Result<()> {
    let alloc: Global = rt.alloc();
    let empty = [0; 4];
    let own = [word(0xff, 1, 5, 0), 0, 0, 0];
    let older = [word(0xff, 1, 3, 0), word(0xff, 2, 3, 1), 0, 0];
    let readers = [word(0xff, 2, 1, 1), word(0xff, 3, 2, 1), word(0xff, 4, 3, 1), word(0xff, 5, 4, 1)];
    let writers = [word(0x0f, 2, 1, 0), word(0xf0, 3, 2, 0), word(0x0f, 4, 3, 0), word(0xf0, 5, 4, 0)];
    for (name, kinds) in [
        ("empty cells", [empty; 5]),
        ("a word that is repeated", [own; 5]),
        ("an older word of the slot", [older; 5]),
        ("four readers of other slots", [readers; 5]),
        ("four writers of other slots", [writers; 5]),
        ("each of these at random", [empty, own, older, readers, writers]),
    ] {
        let start = rt.thread_cpu_time()?;
        let sum = times(alloc, &kinds)?;
        let spent = rt.thread_cpu_time()?.saturating_sub(start).as_nanos() / 5_000_000;
        println!(rt; "{:>4}.{} ns  {name} ({sum})", spent / 10, spent % 10)?;
    }
    Ok(())
}
END

cat > "$work/crates/decide_times/src/work.rt" <<'END'
// The calls that are timed.
ghost use Rattle.std.specs.Prelude.{◌≡◌, ◌<◌, ◌↔◌, IsTrue, All, length};
ghost use Rattle.run_laws.specs.Words.{sid};

use std::alloc::{AllocError, Global};

use run_record::NoMemory;
use shadow_word::{Cell, decide};
use vector_clock::Clock;

#[derive(Drop)]
struct Granule {
    words: [u64; 4],
    ghost in_clock: { All (λ w. sid w < 255) words },
}

fn have_slots(words: &[u64; 4]) -> bool
    ensures { IsTrue result ↔ All (λ w. sid w < 255) words.now }
{
    words.iter().all(|word| (*word >> 8) % 0x100 < 255)
}

fn granule_of(words: [u64; 4]) -> Option<Granule> {
    if have_slots(&words) { Some(Granule { words }) } else { None }
}

// Granules of these kinds, drawn at random.
fn granules(alloc: Global, count: usize, kinds: &[[u64; 4]]) -> Result<Vec<Granule>, NoMemory> {
    let mut all = Vec::new(alloc);
    let mut drawn = 1u32;
    for _ in 0..count {
        drawn = drawn.wrapping_mul(1_103_515_245).wrapping_add(12_345);
        let at = (drawn >> 16) as usize;
        if let Some(words) = kinds.get(at % kinds.len().max(1)) {
            if let Some(granule) = granule_of(*words) {
                all.push(granule)?;
            }
        }
    }
    Ok(all)
}

fn checks(granules: &[Granule], current: Cell, clock: &Clock, rounds: u32) -> u64
    requires { length clock.now ≡ 255 }
{
    let mut sum = 0u64;
    for _ in 0..rounds {
        for granule in granules {
            let decision = decide(current, granule.words, clock, (sum % 4) as u8);
            sum = sum
                .wrapping_add(u64::from(decision.race.unwrap_or(7)))
                .wrapping_add(u64::from(decision.store.unwrap_or(9)));
        }
    }
    sum
}

// A word of era 2.
pub fn word(mask: u64, sid: u64, epoch: u64, read: u64) -> u64 {
    (mask % 0x100) | ((sid % 0x100) << 8) | ((epoch % 0x4000) << 16) | ((read % 2) << 30) | (2 << 32)
}

// 50 million checks of a write by slot 1 at epoch 5, whose thread knows epoch 4 of the others.
// The cell is made of what the compiler doesn't know.
pub fn times(alloc: Global, kinds: &[[u64; 4]; 5]) -> Result<u64, AllocError> {
    let granules = granules(alloc, 1000, kinds).map_err(|_| AllocError)?;
    let mut clock = Clock::new(alloc, 255).map_err(|_| AllocError)?;
    clock.set(2, 4);
    clock.set(3, 4);
    clock.set(4, 4);
    clock.set(5, 4);
    let one = (granules.len() / 1000) % 2;
    let current = Cell {
        mask: 254 + one as u8,
        sid: one as u8,
        epoch: 4 + one as u16,
        read: one == 0,
        atomic: one == 0,
        era: 1 + one as u32,
    };
    Ok(checks(&granules, current, &clock, 50_000))
}
END

cd "$work"
git init -q .
cd crates/decide_times
if ! rt run > "$work/log" 2>&1; then
    tail -40 "$work/log"
    exit 1
fi
grep ' ns ' "$work/log"
