#!/usr/bin/env bash
# Times instructions that are made one by one: by the machine (`Machine::step`), which has all threads and the memory, and by a
# thread's own state with the words of one stripe (`Hart::ask` and a call that serves what it asked for). For a loop of
# registers and one that loads and stores in turn it prints nanoseconds of processor time an instruction, by the least of five
# runs, and the ratio of the second way to the first.
# It makes a program over the repository's crates in a folder of its own, and runs it.
set -eu
cd "$(dirname "$0")/.."
work=$(mktemp -d)
trap 'rm -rf "$work"' EXIT
below="run_record run_laws vector_clock elf_image guest_memory slot_desk sync_slab shadow_word shared_table rv_decode rv_exec
    entry_calls guest_code bare_machine turn_orders place_turns hart_steps"
for name in $below; do
    mkdir -p "$work/crates/$name"
    for part in src specs proofs; do
        [ ! -d "crates/$name/$part" ] || cp -r "crates/$name/$part" "$work/crates/$name/"
    done
done
made="$work/crates/machine_times"
mkdir -p "$made/src" "$made"/proofs/work/{by_machine,by_thread}
cp HANDLES "$work/"
{ cat crates.txt; echo "machine_times: "$below; } |
    grep -E "^($(echo $below | tr ' ' '|')|machine_times):" > "$work/crates.txt"

cat > "$made/src/main.rt" <<'END'
// Times instructions by two ways to make them.
#![tactic(auto)]

mod executable;
mod work;

use std::alloc::Global;
use std::io;
use std::time::{CpuClock, Duration};

use elf_image::{Image, load};
use guest_code::Code;

use executable::{MEMORY, REGISTERS, file};
use work::{TIMES, by_machine, by_thread};

fn hundredths(spent: Duration) -> u128 {
    spent.as_nanos() * 100 / u128::from(TIMES)
}

fn main(rt: HostRuntime) -> io::Result<()> {
    let alloc: Global = rt.alloc();
    for (name, words) in [("registers", REGISTERS), ("memory", MEMORY)] {
        let bytes = file(alloc, words)?;
        let Ok(image) = load(alloc, bytes.as_slice()) else {
            return Ok(());
        };
        let Ok(code) = Code::new(alloc, &image) else {
            return Ok(());
        };
        let mut best = (u128::MAX, u128::MAX);
        let mut same = true;
        for _ in 0..5 {
            let start = rt.thread_cpu_time()?;
            let one = by_machine(alloc, &code).unwrap_or(0);
            let middle = rt.thread_cpu_time()?;
            let other = by_thread(alloc, &code).unwrap_or(0);
            let end = rt.thread_cpu_time()?;
            same = same && one == TIMES && other == TIMES;
            best.0 = best.0.min(hundredths(middle.saturating_sub(start)));
            best.1 = best.1.min(hundredths(end.saturating_sub(middle)));
        }
        let ratio = best.1.saturating_mul(100) / best.0.max(1);
        println!(rt; "{name}: machine {}.{:02} ns, thread {}.{:02} ns, ratio {}.{:02}, all made: {same}", best.0 / 100, best.0 % 100, best.1 / 100, best.1 % 100, ratio / 100, ratio % 100)?;
    }
    Ok(())
}
END

cat > "$made/src/executable.rt" <<'END'
// Two small executables.
use std::alloc::{AllocError, Global};

// addi x6, x6, 1 seven times; jal x0, -28
pub const REGISTERS: [u32; 8] = [
    0x0013_0313, 0x0013_0313, 0x0013_0313, 0x0013_0313, 0x0013_0313, 0x0013_0313, 0x0013_0313, 0xfe5f_f06f,
];

// lui x20, 0x1000; ld x6, 0(x20); addi x6, x6, 1; sd x6, 8(x20); ld x7, 0(x20); sd x7, 0(x20); addi x6, x6, 1; jal x0, -24
pub const MEMORY: [u32; 8] = [
    0x0100_0a37, 0x000a_3303, 0x0013_0313, 0x006a_3423, 0x000a_3383, 0x007a_3023, 0x0013_0313, 0xfe9f_f06f,
];

// The words at 0x10000 and 1,024 bytes of data at 0x1000000.
pub fn file(alloc: Global, words: [u32; 8]) -> Result<Vec<u8>, AllocError> {
    let mut bytes = Vec::new(alloc);
    bytes.extend_from_slice(&[0x7f, 0x45, 0x4c, 0x46, 2, 1, 1, 0, 0, 0, 0, 0, 0, 0, 0, 0])?;
    bytes.extend_from_slice(&[2, 0, 243, 0, 1, 0, 0, 0])?;
    for field in [0x1_0000u64, 64, 0] {
        bytes.extend_from_slice(&field.to_le_bytes())?;
    }
    bytes.extend_from_slice(&[0, 0, 0, 0, 64, 0, 56, 0, 2, 0, 64, 0, 0, 0, 0, 0])?;
    bytes.extend_from_slice(&[1, 0, 0, 0, 5, 0, 0, 0])?;
    for field in [176u64, 0x1_0000, 0x1_0000, 32, 32, 8] {
        bytes.extend_from_slice(&field.to_le_bytes())?;
    }
    bytes.extend_from_slice(&[1, 0, 0, 0, 6, 0, 0, 0])?;
    for field in [208u64, 0x100_0000, 0x100_0000, 0, 1024, 8] {
        bytes.extend_from_slice(&field.to_le_bytes())?;
    }
    for word in words {
        bytes.extend_from_slice(&word.to_le_bytes())?;
    }
    Ok(bytes)
}
END

cat > "$made/src/work.rt" <<'END'
// The instructions that are timed.
ghost use Rattle.std.specs.Prelude.{◌≡◌, ◌<◌, true, length};
ghost use Rattle.bare_machine.specs.World.{HasMemory, lives};

use std::alloc::Global;

use bare_machine::{Machine, Request, new_thread};
use entry_calls::CallEvents;
use guest_code::Code;
use guest_memory::Reservations;
use hart_steps::Hart;
use run_record::NoMemory;
use shared_table::GuestWords;

pub const TIMES: u64 = 20_000_000;

fn step(code: &Code<'_>, machine: &mut Machine) -> Result<(), NoMemory>
    requires lives { lives machine.old 0 ≡ true }
    requires memory { HasMemory code.now machine.old }
    ensures { HasMemory code.now machine.new }
{
    let mut events = CallEvents::new();
    match machine.step(code, 0, true, &mut events) {
        Ok(_) => Ok(()),
        Err(error) => Err(error),
    }
}

// How many instructions the machine made.
pub fn by_machine(alloc: Global, code: &Code<'_>) -> Result<u64, NoMemory> {
    let mut machine = Machine::new(alloc, code.image(), 1)?;
    for made in 0..TIMES {
        if !machine.lives(0) {
            return Ok(made);
        }
        step(code, &mut machine)?;
    }
    Ok(TIMES)
}

fn serve(code: &Code<'_>, hart: &mut Hart, words: &mut GuestWords, reserved: &mut Reservations) -> Result<bool, NoMemory>
    requires { 0 < length words.old }
    ensures { length words.new ≡ length words.old }
{
    let request = hart.ask(code, 0);
    let mut events = CallEvents::new();
    match request {
        Request::Done | Request::Return(_) => {
            hart.serve_alone(&request, &mut events);
            Ok(true)
        }
        Request::Touch(_) | Request::Operate(_) => {
            match hart.serve_at_stripe(0, &request, words, reserved, 0, &mut events) {
                Ok(()) => Ok(true),
                Err(error) => Err(error),
            }
        }
        _ => Ok(false),
    }
}

// How many instructions the thread made.
pub fn by_thread(alloc: Global, code: &Code<'_>) -> Result<u64, NoMemory> {
    let mut hart = Hart {
        thread: new_thread(code.image().entry(), 0, 0x8000_0000),
        reserved: None,
    };
    let mut items = Vec::new(alloc);
    items.push(0)?;
    let mut words = GuestWords::from_vec(items);
    let mut reserved = Reservations::new(alloc);
    for made in 0..TIMES {
        if !serve(code, &mut hart, &mut words, &mut reserved)? {
            return Ok(made);
        }
    }
    Ok(TIMES)
}
END

cat > "$made/proofs/work/by_machine/Invariants.antt" <<'END'
use Rattle.bare_machine.specs.World.{HasMemory}
use Rattle.machine_times.proofs.work.by_machine.Given as goal

abbrev pub invariant-loop-made : goal.invariant-loop-made
invariant-loop-made l = HasMemory l.code l.machine
END

cat > "$made/proofs/work/by_thread/Invariants.antt" <<'END'
use Rattle.std.proofs.Common.{◌<◌, length}
use Rattle.machine_times.proofs.work.by_thread.Given as goal

abbrev pub invariant-loop-made : goal.invariant-loop-made
invariant-loop-made l = 0 < length l.words
END

cd "$work"
git init -q .
cd crates/machine_times
if ! rt run > "$work/log" 2>&1; then
    grep -vE 'proved$|modules loaded|^checked' "$work/log" | tail -60
    exit 1
fi
grep -E ' ns, ' "$work/log"
