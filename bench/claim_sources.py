"""The measurement `claims` of bench/calls: claims of one worker."""

from __future__ import annotations

from measurement import DEVICE, SETUPS, Measurement, Module

BASES = Module(
    "tables",
    """//! Claim tables that begin with the base rows of a setup.

ghost use Rattle.std.specs.Prelude.{◌≡◌, ◌<◌, ◌≤◌, IfOk, OnOk, length};
ghost use Rattle.io_caps.specs.declared.limits.TheConstants.{LAP_TICKS, MOST_OUTPUTS};
ghost use Rattle.map_entry.specs.Entry.{IsEntryOk};
ghost use Rattle.claim_word.specs.Faces.{IsPublisherOf};
ghost use Rattle.claim_word.specs.Starts.{IsBase};

use claim_word::{ClaimTable, Publisher};
use io_caps::{NoMemory, TryCopy};
use map_entry::{Entries, Entry, Setup};
use std::alloc::Global;

/// The base row of an output, as an entry from the first tick on.
fn base_entry(setup: &Setup, output: u8) -> Result<Entry, NoMemory>
    requires { output < length setup.now.device.outputs }
    ensures output { IfOk result (λ e. e.output ≡ output) }
    ensures tick { IfOk result (λ e. e.tick ≡ setup.now.device.base) }
    ensures offset { IfOk result (λ e. e.offset ≡ 0) }
    ensures at { IfOk result (λ e. e.at ≡ 0) }
    ensures ok { IfOk result (IsEntryOk setup.now.device) }
{
    let rows = setup.rows.as_slice();
    let row = rows[output as usize].copy()?;
    Ok(Entry::new(output, setup.device.base(), 0, row, 0))
}

/// The base rows of all outputs.
pub fn base_entries(alloc: Global, setup: &Setup) -> Result<Entries, NoMemory>
    ensures base { IfOk result (IsBase setup.now 0) }
    ensures few { OnOk result (length setup.now.device.outputs ≤ MOST_OUTPUTS) }
{
    let mut made = Entries::new(alloc);
    for output in 0..setup.device.outputs() {
        let entry = base_entry(setup, output)?;
        made.push(entry)?;
    }
    Ok(made)
}

/// A table of a given number of ticks for one worker.
pub fn start(
    alloc: Global,
    setup: &Setup,
    ticks: u64,
) -> Result<(ClaimTable, Publisher), NoMemory>
    requires { ticks ≤ LAP_TICKS }
    ensures setup { IfOk result (λ t. t.0.plan.setup ≡ setup.now) }
    ensures of { IfOk result (λ t. IsPublisherOf t.0 t.1) }
{
    ClaimTable::start(alloc, setup, &base_entries(alloc, setup)?, 0, ticks, 1)
}
""",
    {
        "base_entry/Answers.antt": """use Rattle.std.proofs.Common.{◌≡◌, ℕ, ◌<◌, List, length, Some, refl, sym, ap, ◌∙◌, subst, arith}
use Rattle.std.specs.Prelude.{slice_get}
use Rattle.std.proofs.lemmas.Option.{slice_get_read}
use Rattle.map_entry.specs.declared.cell.Cell.{Cell}
use Rattle.map_entry.specs.Entry.{entry_of, IsEntryOk}
use Rattle.map_entry.specs.Setup.{SetupParts, IsSetup}
use Rattle.map_entry.proofs.Rows.{base_row, rows_long}
use Rattle.measure.proofs.tables.base_entry.Goals as goal

pub bounds-rows-output : goal.bounds-rows-output
bounds-rows-output c =
    let rows = c.as_slice-rows.ensures ∙ ap (λ (s : SetupParts). s.rows) c.setup.view_is in
    let valid = subst IsSetup c.setup.view_is c.setup.invariant in
    omega (arith, c.requires, rows_long c.args.setup.now valid, ap length rows)

pub returns-clause-ok : goal.returns-clause-ok
returns-clause-ok c =
    let s : SetupParts = c.args.setup.now in let o : ℕ = c.args.output in
    let rows = c.as_slice-rows.ensures ∙ ap (λ (x : SetupParts). x.rows) c.setup.view_is in
    let valid = subst IsSetup c.setup.view_is c.setup.invariant in
    let read = slice_get_read s.rows _ o _ refl (omega (arith, c.requires, rows_long s valid)) (rw rows at c.index-rows-output.is) in
    subst (IsEntryOk s.device) (sym (c.new.ensures ∙ ap (λ (r : List Cell). entry_of o c.base.result 0 r 0) c.in_ok-row.ensures))
    (record { row = base_row s o c.index-rows-output.result valid read; offset = valid.device.bounds.rate.1 })
""",
        "base_entries/Invariants.antt": """use Rattle.claim_word.proofs.BaseRows.{AreFirst}
use Rattle.measure.proofs.tables.base_entries.Given as goal

abbrev pub invariant-loop-output : goal.invariant-loop-output
invariant-loop-output l = AreFirst l.fn.setup l.made l.output
""",
        "base_entries/Answers.antt": """use Rattle.std.proofs.Common.{◌≡◌, ℕ, ◌+◌, ◌≤◌, List, [], ◌∷◌, ◌++◌, length, sym, ap, ◌∙◌, subst, arith}
use Rattle.map_entry.specs.declared.entry.Entry.{Entry}
use Rattle.map_entry.specs.Setup.{SetupParts, IsSetup}
use Rattle.claim_word.specs.Starts.{IsBase}
use Rattle.claim_word.proofs.BaseRows.{AreFirst, first_base, first_more, first_none}
use Rattle.measure.proofs.tables.base_entries.Goals as goal

pub loop-output-init : goal.loop-output-init
loop-output-init c = subst (λ (es : List Entry). AreFirst c.args.setup.now es 0) (sym c.new-made.ensures) (first_none c.args.setup.now)

pub loop-output-preserved : goal.loop-output-preserved
loop-output-preserved c =
    let s : SetupParts = c.args.setup.now in let o : ℕ = c.loop-output.output in let e = c.in_ok-entry.ensures in
    subst (λ (es : List Entry). AreFirst s es (o + 1)) (sym c.in_ok-push.ensures.ok)
    (first_more s c.loop-output.made o c.in_ok-entry.entry c.loop-output.invariant e.output e.tick e.offset e.at e.ok)

pub returns-clause-base : goal.returns-clause-base
returns-clause-base c =
    let s : SetupParts = c.args.setup.now in
    let n : c.outputs-output-end.result ≡ length s.device.outputs = c.outputs-output-end.ensures.value ∙ ap (λ (x : SetupParts). length x.device.outputs) c.setup.view_is in
    let all : c.loop-output.output ≡ length s.device.outputs = omega (arith, c.loop-output-test.false, c.loop-output.auto.output-end, n) in
    first_base s c.loop-output.made (subst IsSetup c.setup.view_is c.setup.invariant) (subst (AreFirst s c.loop-output.made) all c.loop-output.invariant)

pub returns-clause-few : goal.returns-clause-few
returns-clause-few c =
    let valid = subst IsSetup c.setup.view_is c.setup.invariant in valid.device.bounds.few_outputs
""",
        "start/Answers.antt": """use Rattle.std.proofs.Common.{ℕ, ◌*◌, ◌≤◌, length, arith}
use Rattle.std.proofs.Math.Nat.{mul-le-mul_right}
use Rattle.io_caps.specs.declared.limits.TheConstants.{LAP_TICKS}
use Rattle.measure.proofs.tables.start.Goals as goal

pub start-requires-clause-claims : goal.start-requires-clause-claims
start-requires-clause-claims c =
    let n : ℕ = length c.args.setup.now.device.outputs in
    let few = c.in_ok-base_entries.ensures.few in
    let m : c.args.ticks * n ≤ LAP_TICKS * n = mul-le-mul_right n c.requires in omega arith
""",
    },
)

ENTRIES = Module(
    "entries",
    """//! Claim tables that are filled up to a given number of entries.

ghost use Rattle.std.specs.Prelude.{◌≡◌, ◌<◌, ◌≤◌, ◌∷◌, [], IfOk, IsTrue, length};
ghost use Rattle.map_entry.specs.Row.{IsRowOf};
ghost use Rattle.map_entry.specs.Tick.{first_tick};
ghost use Rattle.claim_rule.specs.declared.words.TheConstants.{TICKS_LIMIT};
ghost use Rattle.claim_word.specs.Faces.{IsPublisherOf};
ghost use Rattle.claim_word.specs.States.{HasSeen};

use crate::setups::row;
use anyhow::{Result, anyhow};
use claim_rule::TICKS_LIMIT;
use claim_word::{ClaimTable, Publisher, State};
use io_caps::limits::PLACES;
use io_caps::{Device, ListOf, NoMemory};
use map_entry::{CLAIMS_LIMIT, Cell, Entry, Row, Setup, check_row, first_tick};
use std::alloc::Global;

fn is_row(device: &Device, output: u8, row: &Row) -> bool
    ensures { IsTrue result → IsRowOf device.now output row.now }
{
    if output >= device.outputs() || row.len() != device.output(output).channels() {
        return false;
    }
    match check_row(device, output, row) {
        Ok(()) => true,
        Err(_) => false,
    }
}

fn is_timely(device: &Device, claims: u64, tick: u64) -> bool
    ensures timely {
        IsTrue result → first_tick device.now.base (length device.now.outputs) claims ≤ tick
    }
    ensures few { IsTrue result → tick < TICKS_LIMIT }
{
    if claims >= CLAIMS_LIMIT || tick >= TICKS_LIMIT {
        return false;
    }
    first_tick(device.base(), device.outputs(), claims) <= tick
}

fn only<T: Drop>(alloc: Global, item: T) -> Result<ListOf<T>, NoMemory>
    ensures { IfOk result (λ list. list ≡ item ∷ []) }
{
    let mut list = ListOf::new(alloc);
    list.push(item)?;
    Ok(list)
}

fn publish(
    alloc: Global,
    setup: &Setup,
    table: &ClaimTable,
    publisher: &mut Publisher,
    seen: State,
    output: u8,
    tick: u64,
) -> Result<()>
    requires setup { table.now.plan.setup ≡ setup.now }
    requires of { IsPublisherOf table.now publisher.old }
    requires seen { HasSeen publisher.old.view seen }
    ensures { IsPublisherOf table.now publisher.new }
{
    let cell = Cell::From {
        input: 0,
        channel: (tick % 8) as u8,
    };
    let entry = Entry::new(output, tick, 0, row(alloc, cell)?, seen.claims);
    if publisher.entries().len() >= PLACES as usize {
        return Err(anyhow!("a place"));
    }
    if !is_row(&setup.device, output, &entry.row)
        || !is_timely(&setup.device, seen.claims, tick)
        || setup.device.rate().frames == 0
    {
        return Err(anyhow!("an entry that may come"));
    }
    let entries = only(alloc, entry)?;
    match publisher.try_publish(table, &entries, seen) {
        Ok(()) => Ok(()),
        Err(_) => Err(anyhow!("no draw")),
    }
}

/// Publishes entries until there are `entries`: an output's count from one tick after the other.
pub fn fill(
    alloc: Global,
    setup: &Setup,
    table: &ClaimTable,
    publisher: &mut Publisher,
    entries: u64,
) -> Result<()>
    requires setup { table.now.plan.setup ≡ setup.now }
    requires of { IsPublisherOf table.now publisher.old }
    ensures { IsPublisherOf table.now publisher.new }
{
    for at in 2..entries {
        let seen = publisher.state(table);
        publish(alloc, setup, table, publisher, seen, (at % 2) as u8, at / 2)?;
    }
    Ok(())
}
""",
    {
        "is_timely/Answers.antt": """use Rattle.std.proofs.Common.{◌≡◌, ℕ, ◌^◌, ◌<◌, length, sym, subst, arith}
use Rattle.map_entry.specs.Tick.{first_tick}
use Rattle.claim_word.proofs.Bounds.{first_tick-few}
use Rattle.measure.proofs.entries.is_timely.Goals as goal

pub first_tick-requires-clause-sum : goal.first_tick-requires-clause-sum
first_tick-requires-clause-sum c =
    let d = c.args.device.now in
    subst (λ (z : ℕ × ℕ). first_tick z.0 z.1 c.args.claims < 2 ^ 64) (λ k. (sym c.base.ensures.value k, sym c.outputs.ensures.value k))
    (first_tick-few d (length d.outputs) c.args.claims c.base.ensures.valid (omega arith))
""",
        "fill/Invariants.antt": """use Rattle.claim_word.specs.Faces.{IsPublisherOf}
use Rattle.measure.proofs.entries.fill.Given as goal

abbrev pub invariant-loop-at : goal.invariant-loop-at
invariant-loop-at l = IsPublisherOf l.fn.table l.publisher
""",
    },
)

CLAIMS = Module(
    "claims",
    """//! Claims of one worker, with and without their rows.

ghost use Rattle.claim_word.specs.Faces.{IsPassOf};

use crate::entries::fill;
use crate::setups::setup;
use crate::spent::Spent;
use crate::tables::start;
use anyhow::{Result, anyhow};
use claim_word::{ClaimTable, Claimed, WorkerPass};
use map_entry::Setup;
use std::alloc::Global;
use std::time::{Clock, Instant};

const TABLES: u64 = 64;

const TICKS: u64 = 256;

/// The packets of a table, of two outputs.
const PACKETS: u64 = 2 * TICKS;

/// Claims all packets: the number of the last.
fn claim_all(table: &ClaimTable, pass: &mut WorkerPass) -> u64
    requires { IsPassOf table.now pass.old }
    ensures { IsPassOf table.now pass.new }
{
    let mut last = 0;
    for _ in 0..PACKETS {
        if let Claimed::Packet(claim) = pass.claim(table) {
            last = claim.k();
        }
    }
    last
}

/// Claims all packets, and takes the row of each: the length of the last.
fn claim_rows(table: &ClaimTable, pass: &mut WorkerPass) -> u64
    requires { IsPassOf table.now pass.old }
    ensures { IsPassOf table.now pass.new }
{
    let mut last = 0;
    for _ in 0..PACKETS {
        if let Claimed::Packet(claim) = pass.claim(table) {
            last = pass.row(table, &claim).len() as u64;
        }
    }
    last
}

/// A table with the pass of its worker.
#[derive(Drop)]
struct Running {
    table: ClaimTable,
    pass: WorkerPass,
    ghost claims: { IsPassOf table pass },
}

fn start_with(alloc: Global, setup: &Setup, entries: u64) -> Result<Running> {
    let (table, mut publisher) = start(alloc, setup, TICKS)?;
    fill(alloc, setup, &table, &mut publisher, entries)?;
    let pass = publisher.worker(&table)?;
    Ok(Running { table, pass })
}

impl Running {
    /// How many nanoseconds the claims of all packets take.
    fn time(&mut self, clock: &impl Clock, rows: bool) -> Result<u128> {
        let begun = Instant::now(clock)?;
        let last = if rows {
            claim_rows(&self.table, &mut self.pass)
        } else {
            claim_all(&self.table, &mut self.pass)
        };
        let nanos = begun.elapsed(clock)?.as_nanos();
        if last == 0 {
            return Err(anyhow!("claims"));
        }
        Ok(nanos)
    }
}

pub fn measure(clock: &impl Clock, alloc: Global, entries: u64, rows: bool) -> Result<Spent> {
    let setup = setup(alloc)?;
    let mut nanos = 0u128;
    for _ in 0..TABLES {
        let mut running = start_with(alloc, &setup, entries)?;
        nanos = nanos.saturating_add(running.time(clock, rows)?);
    }
    Ok(Spent {
        calls: TABLES * PACKETS,
        nanos,
    })
}
""",
    {
        f"{function}/Invariants.antt": f"""use Rattle.claim_word.specs.Faces.{{IsPassOf}}
use Rattle.measure.proofs.claims.{function}.Given as goal

abbrev pub invariant-loop : goal.invariant-loop
invariant-loop l = IsPassOf l.fn.table l.pass
"""
        for function in ("claim_all", "claim_rows")
    },
)


def claims() -> Measurement:
    """A claim alone, and a claim with its row, on tables of several sizes, on one thread."""
    sizes = (2, 100, 500)
    return Measurement(
        crates="io_caps map_entry claim_rule claim_word",
        modules=[DEVICE, SETUPS, BASES, ENTRIES, CLAIMS],
        cases=[
            (f"claim, {size} entries", f"claims::measure(&rt, alloc, {size}, false)")
            for size in sizes
        ]
        + [
            (f"claim and row, {size} entries", f"claims::measure(&rt, alloc, {size}, true)")
            for size in sizes
        ],
    )
