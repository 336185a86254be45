#!/usr/bin/env bash
# Times the calls of the shared table: nanoseconds of processor time for a turn of an object, which is a
# take and a give, for a load and for a store of a shadow cell; and for a turn where one worker makes
# turns of a stripe, and where two workers make turns of neighbouring stripes at once. The last line
# tells how much of two processors these two had.
# It makes a program over the repository's crates in a folder of its own, and runs it.
set -eu
cd "$(dirname "$0")/.."
work=$(mktemp -d)
trap 'rm -rf "$work"' EXIT
below="run_record run_laws vector_clock elf_image guest_memory rv_decode rv_exec entry_calls guest_code \
bare_machine machine_desk slot_desk sync_slab shadow_word shared_table"
for name in $below; do
    mkdir -p "$work/crates/$name"
    for part in src specs proofs; do
        [ ! -d "crates/$name/$part" ] || cp -r "crates/$name/$part" "$work/crates/$name/"
    done
done
made="$work/crates/table_times"
mkdir -p "$made/src" "$made"/proofs/work/{open,turn,turns,loads,stores,turners}
cp HANDLES "$work/"
{ cat crates.txt; echo "table_times: $below"; } |
    grep -E "^($(echo $below | tr ' ' '|')|table_times):" > "$work/crates.txt"

cat > "$made/src/main.rt" <<'END'
// Times the calls of the table.
#![tactic(auto)]

mod executable;
mod work;

use std::alloc::Global;
use std::io;
use std::time::{Clock, CpuClock, Duration};

use elf_image::load;

use executable::file;
use work::{TIMES, Table, loads, open, stores, turns, work_at};

fn tenths(spent: Duration, calls: u64) -> u128 {
    spent.as_nanos() * 10 / u128::from(calls.max(1))
}

fn main(rt: HostRuntime) -> io::Result<()> {
    let alloc: Global = rt.alloc();
    let bytes = file(alloc)?;
    let Ok(image) = load(alloc, bytes.as_slice()) else {
        return Ok(());
    };
    let Table { shared, mut seat } = open(alloc, &image)?;
    let start = rt.thread_cpu_time()?;
    turns(&rt, &shared, &mut seat, 0);
    let turned = rt.thread_cpu_time()?;
    let sum = loads(&shared, &mut seat);
    let loaded = rt.thread_cpu_time()?;
    stores(&shared, &mut seat);
    let stored = rt.thread_cpu_time()?;
    work_at(&rt, alloc, &shared, &mut seat, 1)?;
    let alone = rt.process_cpu_time()?;
    let begun = rt.monotonic()?;
    work_at(&rt, alloc, &shared, &mut seat, 2)?;
    let ended = rt.monotonic()?;
    let both = rt.process_cpu_time()?;
    for (name, spent, calls) in [
        ("take and give", turned.saturating_sub(start), TIMES),
        ("load of a cell", loaded.saturating_sub(turned), TIMES),
        ("store of a cell", stored.saturating_sub(loaded), TIMES),
        ("take and give by a worker alone", alone.saturating_sub(stored), TIMES),
        ("the same by two workers on neighbouring stripes", both.saturating_sub(alone), 2 * TIMES),
    ] {
        let time = tenths(spent, calls);
        println!(rt; "{:>4}.{} ns  {name}", time / 10, time % 10)?;
    }
    let used = both.saturating_sub(alone).as_nanos() * 10;
    let tenths = used / ended.saturating_sub(begun).as_nanos().max(1);
    println!(rt; "The two workers had {}.{} processors ({sum})", tenths / 10, tenths % 10)
}
END

cat > "$made/src/executable.rt" <<'END'
// A small executable, and limits.
ghost use Rattle.std.specs.Prelude.{◌≡◌};

use run_record::Limits;
use std::alloc::{AllocError, Global};

// One instruction at 0x10000 and 1,024 bytes of data at 0x1000000.
pub fn file(alloc: Global) -> Result<Vec<u8>, AllocError> {
    let mut bytes = Vec::new(alloc);
    bytes.extend_from_slice(&[0x7f, 0x45, 0x4c, 0x46, 2, 1, 1, 0, 0, 0, 0, 0, 0, 0, 0, 0])?;
    bytes.extend_from_slice(&[2, 0, 243, 0, 1, 0, 0, 0])?;
    for field in [0x1_0000u64, 64, 0] {
        bytes.extend_from_slice(&field.to_le_bytes())?;
    }
    bytes.extend_from_slice(&[0, 0, 0, 0, 64, 0, 56, 0, 2, 0, 64, 0, 0, 0, 0, 0])?;
    bytes.extend_from_slice(&[1, 0, 0, 0, 5, 0, 0, 0])?;
    for field in [176u64, 0x1_0000, 0x1_0000, 4, 4, 8] {
        bytes.extend_from_slice(&field.to_le_bytes())?;
    }
    bytes.extend_from_slice(&[1, 0, 0, 0, 6, 0, 0, 0])?;
    for field in [180u64, 0x100_0000, 0x100_0000, 8, 1024, 8] {
        bytes.extend_from_slice(&field.to_le_bytes())?;
    }
    bytes.extend_from_slice(&[0x73, 0, 0, 0, 1, 2, 3, 4, 5, 6, 7, 8])?;
    Ok(bytes)
}

pub fn limits() -> Limits
    ensures { (result.harts ≡ 4) × (result.slots ≡ 255) × (result.epochs ≡ 16383) }
{
    Limits {
        harts: 4,
        slots: 255,
        epochs: 16_383,
        steps: 1_000_000,
        quantum: 1_000,
        parts: 8,
        part_words: 512,
    }
}
END

cat > "$made/src/work.rt" <<'END'
// The calls that are timed.
ghost use Rattle.std.specs.Prelude.{◌≡◌, ◌<◌, ◌≤◌, ◌*◌, ◌↔◌, All, IfOk};
ghost use Rattle.shared_table.specs.Layouts.{SharedTable, cells_of};
ghost use Rattle.shared_table.specs.Seats.{IsOpener, IsSeatOf, IsFree};
ghost use Rattle.table_times.specs.declared.work.Turner.{Turner};

use std::alloc::{AllocError, Global};
use std::sync::Wait;
use std::thread::Threads;

use elf_image::Image;
use shared_table::{Shared, SharedSeat, Worker, round};

use crate::executable::limits;

pub const TIMES: u64 = 20_000_000;

// A word of slot 0, epoch 1 and all bytes.
const WORD: u64 = 0x1_00ff;

#[derive(Drop)]
pub struct Table {
    pub shared: Shared,
    pub seat: SharedSeat,
}

pub fn open(alloc: Global, image: &Image) -> Result<Table, AllocError>
    ensures seat { IfOk result (λ t. IsOpener t.shared t.seat) }
    ensures layout { IfOk result (λ t. (4 ≤ cells_of t.shared.layout) × (0 < t.shared.layout.limits.slots)) }
{
    if image.granules() == 0 {
        return Err(AllocError);
    }
    match Shared::new(alloc, image, &limits()) {
        Ok((shared, seat)) => Ok(Table { shared, seat }),
        Err(_) => Err(AllocError),
    }
}

fn turn<R: Wait>(rt: &R, shared: &Shared, seat: &mut SharedSeat, object: u32)
    requires own { IsSeatOf shared.now seat.old }
    requires free { IsFree seat.old.me }
    requires object { object ≤ 64 }
    ensures own { IsSeatOf shared.now seat.new }
    ensures free { IsFree seat.new.me × (seat.new.me.0.number ≡ seat.old.me.0.number) }
{
    let value = shared.take(rt, seat, object);
    shared.give(seat, object, value);
}

pub fn turns<R: Wait>(rt: &R, shared: &Shared, seat: &mut SharedSeat, object: u32)
    requires own { IsSeatOf shared.now seat.old }
    requires free { IsFree seat.old.me }
    requires object { object ≤ 64 }
    ensures own { IsSeatOf shared.now seat.new }
    ensures free { IsFree seat.new.me × (seat.new.me.0.number ≡ seat.old.me.0.number) }
{
    for _ in 0..TIMES {
        turn(rt, shared, seat, object);
    }
}

fn load(shared: &Shared, seat: &mut SharedSeat) -> u64
    requires opener { IsOpener shared.now seat.old }
    requires cells { 4 ≤ cells_of shared.now.layout }
    ensures opener { IsOpener shared.now seat.new }
{
    shared.load_cell(seat, 0)
}

pub fn loads(shared: &Shared, seat: &mut SharedSeat) -> u64
    requires opener { IsOpener shared.now seat.old }
    requires cells { 4 ≤ cells_of shared.now.layout }
    ensures opener { IsOpener shared.now seat.new }
{
    let mut sum = 0u64;
    for _ in 0..TIMES {
        sum = sum.wrapping_add(load(shared, seat));
    }
    sum
}

fn store(shared: &Shared, seat: &mut SharedSeat)
    requires opener { IsOpener shared.now seat.old }
    requires cells { 4 ≤ cells_of shared.now.layout }
    requires slots { 0 < shared.now.layout.limits.slots }
    ensures opener { IsOpener shared.now seat.new }
{
    shared.store_cell(seat, 0, WORD);
}

pub fn stores(shared: &Shared, seat: &mut SharedSeat)
    requires opener { IsOpener shared.now seat.old }
    requires cells { 4 ≤ cells_of shared.now.layout }
    requires slots { 0 < shared.now.layout.limits.slots }
    ensures opener { IsOpener shared.now seat.new }
{
    for _ in 0..TIMES {
        store(shared, seat);
    }
}

// It makes turns of one stripe.
#[derive(Drop)]
struct Turner {
    stripe: u32,
}

impl Worker for Turner {
    ghost use Rattle.std.specs.Prelude.{◌<◌};

    ghost can_work = { λ t w. w.stripe < 64 };

    ghost works = { λ t w log after. Unit {0} };

    fn work<R: Wait>(&mut self, rt: &R, shared: &Shared, seat: &mut SharedSeat) {
        turns(rt, shared, seat, self.stripe);
    }
}

fn turners(alloc: Global, count: u32) -> Result<Vec<Turner>, AllocError>
    requires { count ≤ 64 }
    ensures { IfOk result (λ v. All (λ (w : Turner). w.stripe < 64) v.items) }
{
    let mut workers = Vec::new(alloc);
    for stripe in 0..count {
        workers.push(Turner { stripe })?;
    }
    Ok(workers)
}

// A round of so many workers, each on a stripe of its own.
pub fn work_at<R: Threads + Wait + Sync>(
    rt: &R,
    alloc: Global,
    shared: &Shared,
    seat: &mut SharedSeat,
    count: u32,
) -> Result<(), AllocError>
    requires opener { IsOpener shared.now seat.old }
    requires count { count ≤ 64 }
    ensures opener { IsOpener shared.now seat.new }
{
    let workers = turners(alloc, count)?;
    match round(rt, alloc, shared, seat, workers, 2) {
        Ok(_) => Ok(()),
        Err(_) => Err(AllocError),
    }
}
END

cat > "$made/proofs/work/open/Answers.antt" <<'END'
use Rattle.std.proofs.Common.{rules, arith, ap, ◌∙◌, ◌≡◌, ◌≤◌}
use Rattle.run_record.specs.declared.limits.Limits.{Limits}
use Rattle.table_times.proofs.work.open.Goals as goal

pub returns-in-Ok-clause-layout : goal.returns-in-Ok-clause-layout
returns-in-Ok-clause-layout c =
    let t = c.in-Ok.ensures.table in
    let granules = t.laid_out.granules in
    let some : 1 ≤ c.in-Ok.shared.layout.granules = search rules in
    let slots : c.in-Ok.shared.layout.limits.slots ≡ 255 = ap (λ (z : Limits). z.slots) t.laid_out.same_limits ∙ search rules in
    (omega arith, omega arith)
END

cat > "$made/proofs/work/turn/Answers.antt" <<'END'
use Rattle.shared_table.proofs.Turns.{took_holds, gave_free}
use Rattle.table_times.proofs.work.turn.Goals as goal

pub give-requires-clause-holds : goal.give-requires-clause-holds
give-requires-clause-holds g c = took_holds c.args.object c.args.seat.now.me c.take-value.result c.take-value.new.seat.me c.take-value.ensures.took

pub returns-clause-free : goal.returns-clause-free
returns-clause-free g c = gave_free c.args.object c.args.seat.now.me c.take-value.result c.take-value.result c.take-value.new.seat.me c.give.new.seat.me c.take-value.ensures.took c.give.ensures.gave
END

cat > "$made/proofs/work/turns/Invariants.antt" <<'END'
use Rattle.std.proofs.Common.{◌≡◌}
use Rattle.shared_table.specs.Seats.{IsSeatOf, IsFree}
use Rattle.table_times.proofs.work.turns.Given as goal

abbrev pub invariant-loop : goal.invariant-loop
invariant-loop g l = IsSeatOf l.shared l.seat × IsFree l.seat.me × (l.seat.me.0.number ≡ l.initial.seat.me.0.number)
END

cat > "$made/proofs/work/loads/Invariants.antt" <<'END'
use Rattle.shared_table.specs.Seats.{IsOpener}
use Rattle.table_times.proofs.work.loads.Given as goal

abbrev pub invariant-loop : goal.invariant-loop
invariant-loop l = IsOpener l.shared l.seat
END

cat > "$made/proofs/work/stores/Invariants.antt" <<'END'
use Rattle.shared_table.specs.Seats.{IsOpener}
use Rattle.table_times.proofs.work.stores.Given as goal

abbrev pub invariant-loop : goal.invariant-loop
invariant-loop l = IsOpener l.shared l.seat
END

cat > "$made/proofs/work/turners/Invariants.antt" <<'END'
use Rattle.std.proofs.Common.{◌<◌, All}
use Rattle.table_times.specs.declared.work.Turner.{Turner}
use Rattle.table_times.proofs.work.turners.Given as goal

abbrev pub invariant-loop-stripe : goal.invariant-loop-stripe
invariant-loop-stripe l = All (λ (w : Turner). w.stripe < 64) l.workers.items
END

cd "$work"
git init -q .
cd crates/table_times
if ! rt run > "$work/log" 2>&1; then
    tail -40 "$work/log"
    exit 1
fi
grep -E ' ns |processors' "$work/log"
