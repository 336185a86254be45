#!/usr/bin/env bash
# Times `edges` and `cycles` over histories of many mutexes: processor time, by how they are taken.
# It makes a program over the repository's crates in a folder of its own, and runs it.
set -eu
cd "$(dirname "$0")/.."
work=$(mktemp -d)
trap 'rm -rf "$work"' EXIT
below="run_record vector_clock run_laws elf_image symbol_lines trace_parts report_text graph_search lock_order"
for name in $below; do
    mkdir -p "$work/crates/$name"
    for part in src specs proofs; do
        [ ! -d "crates/$name/$part" ] || cp -r "crates/$name/$part" "$work/crates/$name/"
    done
done
mkdir -p "$work/crates/cycle_times/src"
cp HANDLES "$work/"
{ cat crates.txt; echo "cycle_times: run_record lock_order"; } |
    grep -E "^($(echo $below | tr ' ' '|')|cycle_times):" > "$work/crates.txt"

cat > "$work/crates/cycle_times/src/main.rt" <<'EOF'
// Times `edges` and `cycles`.
#![tactic(auto)]

mod work;

use std::io;
use std::time::CpuClock;

use work::counted;

fn main(rt: HostRuntime) -> io::Result<()> {
    for (name, size) in [
        ("10,000 mutexes in one ring", 10_000),
        ("10,000 mutexes in rings of two", 2),
        ("10,000 mutexes in rings of a hundred", 100),
        ("10,000 mutexes one after another", 0),
    ] {
        let start = rt.thread_cpu_time()?;
        let count = counted(rt.alloc(), size)?;
        let spent = rt.thread_cpu_time()?.saturating_sub(start).as_millis();
        println!(rt; "{spent:>6} ms  {name}: {count} cycles")?;
    }
    Ok(())
}
EOF

cat > "$work/crates/cycle_times/src/work.rt" <<'EOF'
// The calls that are timed.
use lock_order::{cycles, edges};
use run_record::{DeskNote, Entries, Event, Head, NoMemory, Record};
use std::alloc::Global;
use std::io;

const MUTEXES: u64 = 10_000;

/// The mutex that is taken while this one is kept, in rings of so many.
fn next(mutex: u64, ring: u64) -> u64 {
    if ring == 0 {
        return mutex.saturating_add(1);
    }
    let first = mutex - mutex % ring;
    if mutex % ring == ring - 1 { first } else { mutex.saturating_add(1) }
}

fn lock(addr: u64) -> Event {
    Event::Lock { addr, read: false }
}

fn unlock(addr: u64) -> Event {
    Event::Unlock { addr, read: false }
}

fn history(alloc: Global, ring: u64) -> Result<Record, NoMemory> {
    let mut entries = Entries::new(alloc);
    for from in 0..MUTEXES {
        let to = next(from, ring);
        let head = Head { round: 0, era: 0, stamp: 0, tid: 0, steps: 1 };
        let events = [lock(from), lock(to), unlock(to), unlock(from)];
        entries.push(head, DeskNote::Nothing, &events, &[])?;
    }
    Ok(Record { entries })
}

fn count(alloc: Global, ring: u64) -> Result<usize, NoMemory> {
    let history = history(alloc, ring)?;
    let edges = edges(alloc, &history)?;
    Ok(cycles(alloc, &edges)?.as_slice().len())
}

pub fn counted(alloc: Global, ring: u64) -> io::Result<usize> {
    match count(alloc, ring) {
        Ok(count) => Ok(count),
        Err(_) => Err(io::Error::from(io::ErrorKind::OutOfMemory)),
    }
}
EOF

cd "$work"
git init -q .
cd crates/cycle_times
if ! rt run > "$work/log" 2>&1; then
    tail -40 "$work/log"
    exit 1
fi
grep ' ms ' "$work/log"
