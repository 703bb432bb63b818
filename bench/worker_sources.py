"""The measurement `packets` of bench/calls: packets of a worker beside those of one thread."""

from __future__ import annotations

from claim_sources import BASES
from measurement import Measurement, Module

PORTS = Module(
    "ports",
    """//! A device of 16 inputs of 8 channels and of 32 outputs of 4, with 120 frames a tick, of which
//! each output hears four inputs.

use anyhow::{Result, anyhow};
use io_caps::{
    Device, DeviceParts, Input, Inputs, Labels, NoMemory, Output, Outputs, Parent, Rate, Routable,
    Text, Width,
};
use map_entry::{Cell, Row, Rows, Setup};
use std::alloc::Global;

pub const INPUTS: u8 = 16;

pub const FRAMES: u16 = 120;

/// The samples of a block: eight channels in each frame.
pub const BLOCK: usize = 960;

const INPUT_CHANNELS: u8 = 8;

const OUTPUTS: u8 = 32;

const OUTPUT_CHANNELS: u8 = 4;

/// Two letters for a number.
fn id(alloc: Global, number: u8) -> Result<Text, NoMemory> {
    let mut made = Text::new(alloc);
    made.push(b'a' + number / 16)?;
    made.push(b'a' + number % 16)?;
    Ok(made)
}

fn labels(alloc: Global, channels: u8) -> Result<Labels, NoMemory> {
    let mut made = Labels::new(alloc);
    for _ in 0..channels {
        made.push(Text::new(alloc))?;
    }
    Ok(made)
}

fn inputs(alloc: Global) -> Result<Inputs, NoMemory> {
    let mut made = Inputs::new(alloc);
    for number in 0..INPUTS {
        made.push(Input {
            id: id(alloc, number)?,
            name: Text::new(alloc),
            description: Text::new(alloc),
            labels: labels(alloc, INPUT_CHANNELS)?,
            width: Width::L24,
            payload_type: 96,
            block_size: 1,
            reordering: true,
            parent: Parent::Nobody,
        })?;
    }
    Ok(made)
}

fn outputs(alloc: Global) -> Result<Outputs, NoMemory> {
    let mut made = Outputs::new(alloc);
    for number in 0..OUTPUTS {
        made.push(Output {
            id: id(alloc, number)?,
            name: Text::new(alloc),
            description: Text::new(alloc),
            labels: labels(alloc, OUTPUT_CHANNELS)?,
            width: Width::L24,
            payload_type: 97,
            ssrc: u32::from(number),
            source_id: None,
            routable: Routable::All,
        })?;
    }
    Ok(made)
}

/// The row of an output: a channel of each of four inputs.
fn row(alloc: Global, output: u8) -> Result<Row, NoMemory> {
    let mut made = Row::new(alloc);
    for channel in 0..OUTPUT_CHANNELS {
        made.push(Cell::From {
            input: ((u32::from(output) * 4 + u32::from(channel)) % 16) as u8,
            channel: ((u32::from(output) + 3 * u32::from(channel)) % 8) as u8,
        })?;
    }
    Ok(made)
}

fn rows(alloc: Global) -> Result<Rows, NoMemory> {
    let mut made = Rows::new(alloc);
    for output in 0..OUTPUTS {
        made.push(row(alloc, output)?)?;
    }
    Ok(made)
}

/// The device with its base rows.
pub fn setup(alloc: Global) -> Result<Setup> {
    let parts = DeviceParts {
        rate: Rate {
            hz: 48000,
            frames: FRAMES,
        },
        base: 0,
        hold: 1,
        inputs: inputs(alloc)?,
        outputs: outputs(alloc)?,
    };
    let rows = rows(alloc)?;
    let Ok(device) = Device::build(alloc, parts) else {
        return Err(anyhow!("a device"));
    };
    match Setup::build(alloc, device, rows) {
        Ok(setup) => Ok(setup),
        Err(_) => Err(anyhow!("a setup")),
    }
}
""",
)

WORKERS = Module(
    "workers",
    """//! Packets of a worker, in closed and in free form, over tables in which all blocks are set.

ghost use Rattle.std.specs.Prelude.{◌≡◌, ◌≤◌, ◌<◌, IfOk};
ghost use Rattle.io_caps.specs.declared.limits.TheConstants.{LAP_TICKS};
ghost use Rattle.claim_word.specs.Claims.{IsLast};
ghost use Rattle.claim_word.specs.Faces.{IsPublisherOf};
ghost use Rattle.input_cells.specs.Faces.{IsFeedOf};
ghost use Rattle.input_cells.specs.Looking.{HasTickEach};
ghost use Rattle.input_cells.specs.Shapes.{IsTableOf};
ghost use Rattle.packet_worker.specs.Faces.{IsWorkerOf};
ghost use Rattle.packet_worker.specs.Gathering.{KeepsClaim};

use crate::ports::{BLOCK, INPUTS, setup};
use crate::spent::Spent;
use crate::tables::start;
use anyhow::{Result, anyhow};
use claim_word::{Claim, ClaimTable, Claimed, Publisher};
use input_cells::laws::tables_have_ticks;
use input_cells::{Block, FeedPass, Feeds, InputTable};
use io_caps::limits::LAP_TICKS;
use map_entry::Setup;
use packet_worker::Worker;
use packet_worker::laws::workers_are_of_tables;
use std::alloc::Global;
use std::time::{Clock, Instant};

/// How many ticks all tables of a measurement have together.
pub const ALL_TICKS: u64 = 256;

/// The packets of a tick: one for each output.
pub const PACKETS: u64 = 32;

/// A block of samples that are all different.
pub fn block(alloc: Global) -> Result<Block> {
    let mut made = Block::new(alloc);
    for sample in 0..BLOCK {
        made.push(sample as i32 * 5003)?;
    }
    Ok(made)
}

/// A claim table and an input table of a given number of ticks, from the first one on.
#[derive(Drop)]
struct Tables {
    setup: Setup,
    table: ClaimTable,
    publisher: Publisher,
    inputs: InputTable,
    feeds: Feeds,
    ticks: u64,
    ghost plan: { table.plan.setup ≡ setup },
    ghost publishes: { IsPublisherOf table publisher },
    ghost device: { IsTableOf setup.device 0 ticks inputs },
    ghost feeds_it: { feeds.table ≡ inputs },
}

fn start_tables(alloc: Global, ticks: u64) -> Result<Tables>
    requires { ticks ≤ LAP_TICKS }
{
    let setup = setup(alloc)?;
    let (table, publisher) = start(alloc, &setup, ticks)?;
    let (inputs, feeds) = InputTable::start(alloc, &setup.device, 0, ticks, 1)?;
    Ok(Tables {
        setup,
        table,
        publisher,
        inputs,
        feeds,
        ticks,
    })
}

/// Sets the blocks of all ticks: whether all were set.
fn set_all(inputs: &InputTable, feeder: &mut FeedPass, block: &Block, ticks: u64) -> bool
    requires { IsFeedOf inputs.now feeder.old }
    ensures { IsFeedOf inputs.now feeder.new }
{
    let mut done = true;
    for tick in 0..ticks {
        if feeder.may_set(tick, block) {
            done &= feeder.set(inputs, tick, block).is_ok();
        } else {
            done = false;
        }
    }
    done
}

/// Sets an input's blocks of all ticks, and closes them: whether all were set. The pace has none.
fn feed_one(
    inputs: &InputTable,
    feeds: &mut Feeds,
    input: u8,
    block: &Block,
    ticks: u64,
) -> Result<bool>
    requires { feeds.old.table ≡ inputs.now }
    ensures { feeds.new.table ≡ inputs.now }
{
    if usize::from(input) >= inputs.feeders() {
        return Err(anyhow!("an input"));
    }
    let Ok(mut feeder) = feeds.feed(inputs, input) else {
        return Err(anyhow!("a feeder"));
    };
    let done = set_all(inputs, &mut feeder, block, ticks);
    feeder.close(inputs, ticks);
    Ok(done)
}

/// Sets and closes all blocks, and lets the pace pass them.
fn feed_all(inputs: &InputTable, feeds: &mut Feeds, block: &Block, ticks: u64) -> Result<()>
    requires { feeds.old.table ≡ inputs.now }
    ensures { feeds.new.table ≡ inputs.now }
{
    for input in 0..INPUTS {
        if !feed_one(inputs, feeds, input, block, ticks)? {
            return Err(anyhow!("all blocks"));
        }
    }
    feed_one(inputs, feeds, INPUTS, block, ticks)?;
    Ok(())
}

impl Tables {
    /// Sets and closes all blocks.
    fn feed(&mut self, block: &Block) -> Result<()> {
        feed_all(&self.inputs, &mut self.feeds, block, self.ticks)
    }

    /// The worker.
    fn worker(&mut self, alloc: Global) -> Result<Worker>
        ensures of { IfOk result (IsWorkerOf self.new.table self.new.inputs) }
    {
        workers_are_of_tables();
        let pass = self.publisher.worker(&self.table)?;
        let reads = self.feeds.reader(&self.inputs)?;
        Ok(Worker::new(alloc, &self.setup, pass, reads)?)
    }
}

/// In which form packets are gathered.
#[derive(Clone, Copy)]
pub enum Form {
    Closed,
    Free,
}

/// Gathers the packet of the worker's last claim in closed form: how many bytes it has.
fn gather_closed(
    table: &ClaimTable,
    inputs: &InputTable,
    worker: &mut Worker,
    claim: &Claim,
) -> usize
    requires work { IsWorkerOf table.now inputs.now worker.old }
    requires last { IsLast worker.old.pass.view claim.now }
    requires tick { HasTickEach inputs.now claim.now.tick }
    ensures { KeepsClaim table.now inputs.now claim.now worker.old worker.new }
{
    match worker.gather_closed(table, inputs, claim) {
        Ok(gathered) => gathered.packet.len(),
        Err(_) => 0,
    }
}

/// Gathers the packet of the worker's last claim in free form: how many bytes it has.
fn gather_free(
    table: &ClaimTable,
    inputs: &InputTable,
    worker: &mut Worker,
    claim: &Claim,
) -> usize
    requires work { IsWorkerOf table.now inputs.now worker.old }
    requires last { IsLast worker.old.pass.view claim.now }
    requires tick { HasTickEach inputs.now claim.now.tick }
    ensures { KeepsClaim table.now inputs.now claim.now worker.old worker.new }
{
    worker.gather_free(table, inputs, claim).packet.len()
}

/// Gathers the packet of the worker's last claim: how many bytes it has.
fn gather(
    table: &ClaimTable,
    inputs: &InputTable,
    worker: &mut Worker,
    claim: &Claim,
    form: Form,
) -> usize
    requires work { IsWorkerOf table.now inputs.now worker.old }
    requires last { IsLast worker.old.pass.view claim.now }
    requires tick { HasTickEach inputs.now claim.now.tick }
    ensures { IsWorkerOf table.now inputs.now worker.new }
{
    match form {
        Form::Closed => gather_closed(table, inputs, worker, claim),
        Form::Free => gather_free(table, inputs, worker, claim),
    }
}

/// Claims and gathers the next packet: how many bytes it has, and none after the last.
fn step(
    setup: &Setup,
    table: &ClaimTable,
    inputs: &InputTable,
    worker: &mut Worker,
    ticks: u64,
    form: Form,
) -> usize
    requires work { IsWorkerOf table.now inputs.now worker.old }
    requires device { IsTableOf setup.now.device 0 ticks inputs.now }
    ensures { IsWorkerOf table.now inputs.now worker.new }
{
    tables_have_ticks();
    match worker.claim(table) {
        Claimed::Packet(claim) => {
            if claim.tick() >= ticks {
                return 0;
            }
            gather(table, inputs, worker, &claim, form)
        }
        Claimed::Over => 0,
    }
}

/// Claims and gathers all packets: how many bytes the last has.
fn gather_all(
    setup: &Setup,
    table: &ClaimTable,
    inputs: &InputTable,
    worker: &mut Worker,
    ticks: u64,
    form: Form,
) -> usize
    requires work { IsWorkerOf table.now inputs.now worker.old }
    requires device { IsTableOf setup.now.device 0 ticks inputs.now }
    requires few { ticks ≤ LAP_TICKS }
{
    let mut len = 0;
    for _ in 0..ticks * PACKETS {
        len = step(setup, table, inputs, worker, ticks, form);
    }
    len
}

/// How many nanoseconds the packets of new tables take.
fn time(
    clock: &impl Clock,
    alloc: Global,
    block: &Block,
    form: Form,
    ticks: u64,
) -> Result<u128>
    requires { ticks ≤ LAP_TICKS }
{
    let mut tables = start_tables(alloc, ticks)?;
    tables.feed(block)?;
    let mut worker = tables.worker(alloc)?;
    time_worker(clock, &tables, &mut worker, form)
}

fn time_worker(
    clock: &impl Clock,
    tables: &Tables,
    worker: &mut Worker,
    form: Form,
) -> Result<u128>
    requires { IsWorkerOf tables.now.table tables.now.inputs worker.old }
{
    let ticks = tables.ticks;
    if ticks > LAP_TICKS {
        return Err(anyhow!("ticks"));
    }
    let begun = Instant::now(clock)?;
    let len = gather_all(&tables.setup, &tables.table, &tables.inputs, worker, ticks, form);
    let nanos = begun.elapsed(clock)?.as_nanos();
    if len == 0 {
        return Err(anyhow!("packets"));
    }
    Ok(nanos)
}

/// What a worker's packet takes, with its claim, in tables of so many ticks.
pub fn measure(clock: &impl Clock, alloc: Global, form: Form, ticks: u64) -> Result<Spent> {
    if ticks == 0 || ticks > LAP_TICKS {
        return Err(anyhow!("ticks"));
    }
    let block = block(alloc)?;
    let mut nanos = 0u128;
    for _ in 0..ALL_TICKS / ticks {
        nanos = nanos.saturating_add(time(clock, alloc, &block, form, ticks)?);
    }
    Ok(Spent {
        calls: ALL_TICKS / ticks * ticks * PACKETS,
        nanos,
    })
}
""",
    {
        "set_all/Invariants.antt": """use Rattle.input_cells.specs.Faces.{IsFeedOf}
use Rattle.measure.proofs.workers.set_all.Given as goal

abbrev pub invariant-loop-tick : goal.invariant-loop-tick
invariant-loop-tick l = IsFeedOf l.inputs l.feeder
""",
        "Tables/worker/Answers.antt": """use Rattle.std.proofs.Common.{◌≡◌, sym, subst}
use Rattle.packet_worker.specs.Faces.{IsWorkerOf, worker_of}
use Rattle.measure.proofs.workers.Tables.worker.Goals as goal

pub returns : goal.returns
returns c =
    let t = c.args.self.now in
    record {
      of = subst (IsWorkerOf t.table t.inputs) (sym c.in_ok-new.ensures)
          (c.workers_are_of_tables.ensures t.table t.inputs
          (worker_of t.setup c.in_ok-pass.pass c.in_ok-reads.reads) 0 t.ticks
          c.in_ok-pass.ensures.made.of t.plan t.device c.in_ok-reads.ensures.pass
          c.in_ok-reads.ensures.unread);
    }
""",
        "gather_all/Invariants.antt": """use Rattle.packet_worker.specs.Faces.{IsWorkerOf}
use Rattle.measure.proofs.workers.gather_all.Given as goal

abbrev pub invariant-loop : goal.invariant-loop
invariant-loop l = IsWorkerOf l.table l.inputs l.worker
""",
        "feed_all/Invariants.antt": """use Rattle.std.specs.Prelude.{◌≡◌}
use Rattle.measure.proofs.workers.feed_all.Given as goal

abbrev pub invariant-loop-input : goal.invariant-loop-input
invariant-loop-input l = l.feeds.table ≡ l.inputs
""",
    },
)

ONE_THREAD = Module(
    "one_thread",
    """//! Packets of one thread, over blocks in memory.

ghost use Rattle.std.specs.Prelude.{◌≡◌, ◌≤◌, ◌<◌, ◌+◌, ℕ, length};
ghost use Rattle.claim_word.specs.Starts.{IsBase};
ghost use Rattle.io_caps.specs.declared.limits.TheConstants.{MOST_INPUTS, MOST_PAYLOAD};
ghost use Rattle.map_entry.specs.declared.claims.TheConstants.{CLAIMS_LIMIT};
ghost use Rattle.packet_writer.specs.Heard.{HaveFrames, OfAgreed};
ghost use Rattle.packet_writer.specs.Packet.{claim_rows};
ghost use Rattle.measure.specs.declared.workers.TheConstants.{ALL_TICKS};

use crate::ports::{INPUTS, setup};
use crate::spent::Spent;
use crate::tables::base_entries;
use crate::workers::{ALL_TICKS, PACKETS, block};
use anyhow::{Result, anyhow};
use io_caps::TryCopy;
use io_caps::limits::MOST_PAYLOAD;
use map_entry::{Entries, Setup, claim_output, claim_tick};
use packet_writer::{
    Block, EntryRows, FrameRows, HeldBlocks, Samples, look_at_marked, mark_named, packet_len,
    write_claim,
};
use rtp_pcm::HEAD_LEN;
use std::alloc::Global;
use std::time::{Clock, Instant};

/// The blocks of a tick, by inputs.
type TickBlocks = Vec<Option<Block>>;

fn tick_blocks(alloc: Global, block: &Block) -> Result<TickBlocks> {
    let mut made = Vec::new(alloc);
    for _ in 0..INPUTS {
        made.push(Some(block.copy()?))?;
    }
    Ok(made)
}

fn all_blocks(alloc: Global, block: &Block, ticks: u64) -> Result<Vec<TickBlocks>> {
    let mut made = Vec::new(alloc);
    for _ in 0..ticks {
        made.push(tick_blocks(alloc, block)?)?;
    }
    Ok(made)
}

/// The rows of a claim's packet.
fn rows<'a>(setup: &Setup, entries: &'a Entries, k: u64) -> EntryRows<'a>
    requires { k < CLAIMS_LIMIT }
    ensures { (frame : ℕ) → ⟦<EntryRows<'static> as FrameRows>⟧.row_of result frame
        ≡ claim_rows setup.now entries.now k frame }
{
    let device = &setup.device;
    let output = claim_output(device.outputs(), k);
    let tick = claim_tick(device.base(), device.outputs(), k);
    EntryRows::new(entries.as_slice(), output, tick)
}

/// Writes the packet of a claim in front of the bytes, and sets its flags.
fn write<S: Samples>(
    setup: &Setup,
    entries: &Entries,
    k: u64,
    blocks: &[Option<Block>],
    source: &mut S,
    found: &mut [bool],
    packet: &mut [u8],
)
    requires claim { k < CLAIMS_LIMIT }
    requires base { IsBase setup.now 0 entries.now }
    requires blocks { OfAgreed (S.agrees source.old)
        (λ b. HaveFrames setup.now.device.inputs b setup.now.device.rate.frames) }
    requires flags { length found.old ≤ MOST_INPUTS }
    requires room { length packet.old ≡ 12 + MOST_PAYLOAD }
    ensures blocks { OfAgreed (S.agrees source.new)
        (λ b. HaveFrames setup.now.device.inputs b setup.now.device.rate.frames) }
    ensures flags { length found.new ≡ length found.old }
    ensures room { length packet.new ≡ length packet.old }
{
    let device = &setup.device;
    let rows = rows(setup, entries, k);
    mark_named(&rows, device.rate().frames, found);
    look_at_marked(&mut HeldBlocks::new(blocks), found);
    let len = packet_len(device, claim_output(device.outputs(), k));
    write_claim(source, setup, &rows, k, &mut packet[..len]);
}

/// Writes the packets of a tick.
fn write_tick<S: Samples>(
    setup: &Setup,
    entries: &Entries,
    tick: u64,
    blocks: &[Option<Block>],
    source: &mut S,
    found: &mut [bool],
    packet: &mut [u8],
)
    requires base { IsBase setup.now 0 entries.now }
    requires tick { tick < ALL_TICKS }
    requires blocks { OfAgreed (S.agrees source.old)
        (λ b. HaveFrames setup.now.device.inputs b setup.now.device.rate.frames) }
    requires flags { length found.old ≤ MOST_INPUTS }
    requires room { length packet.old ≡ 12 + MOST_PAYLOAD }
    ensures flags { length found.new ≡ length found.old }
    ensures room { length packet.new ≡ length packet.old }
{
    for output in 0..PACKETS {
        let k = tick * PACKETS + output;
        write(setup, entries, k, blocks, source, found, packet);
    }
}

/// Writes the packets of all ticks.
fn write_all(
    setup: &Setup,
    entries: &Entries,
    blocks: &[TickBlocks],
    found: &mut [bool],
    packet: &mut [u8],
) -> bool
    requires base { IsBase setup.now 0 entries.now }
    requires flags { length found.old ≤ MOST_INPUTS }
    requires room { length packet.old ≡ 12 + MOST_PAYLOAD }
    ensures flags { length found.new ≡ length found.old }
    ensures room { length packet.new ≡ length packet.old }
{
    for tick in 0..blocks.len() {
        let of_tick = blocks[tick].as_slice();
        let mut source = HeldBlocks::new(of_tick);
        if tick as u64 >= ALL_TICKS || !source.fit(&setup.device) {
            return false;
        }
        write_tick(setup, entries, tick as u64, of_tick, &mut source, found, packet);
    }
    true
}

/// How many nanoseconds the packets of new blocks take.
fn time(
    clock: &impl Clock,
    setup: &Setup,
    entries: &Entries,
    blocks: &[TickBlocks],
) -> Result<u128>
    requires base { IsBase setup.now 0 entries.now }
{
    let mut found = [false; INPUTS as usize];
    let mut packet = [0u8; HEAD_LEN + MOST_PAYLOAD];
    let begun = Instant::now(clock)?;
    let done = write_all(setup, entries, blocks, &mut found, &mut packet);
    let nanos = begun.elapsed(clock)?.as_nanos();
    if !done {
        return Err(anyhow!("blocks of the device"));
    }
    Ok(nanos)
}

/// What a packet takes that one thread writes over blocks of so many ticks.
pub fn measure(clock: &impl Clock, alloc: Global, ticks: u64) -> Result<Spent> {
    if ticks == 0 || ticks > ALL_TICKS {
        return Err(anyhow!("ticks"));
    }
    let setup = setup(alloc)?;
    let entries = base_entries(alloc, &setup)?;
    let block = block(alloc)?;
    let mut nanos = 0u128;
    for _ in 0..ALL_TICKS / ticks {
        let blocks = all_blocks(alloc, &block, ticks)?;
        let of_blocks = time(clock, &setup, &entries, blocks.as_slice())?;
        nanos = nanos.saturating_add(of_blocks);
    }
    Ok(Spent {
        calls: ALL_TICKS / ticks * ticks * PACKETS,
        nanos,
    })
}
""",
    {
        "write/Answers.antt": """use Rattle.std.proofs.Common.{◌≡◌, ℕ, ◌<◌, ◌≤◌, List, [], length, refl, sym, subst, arith}
use Rattle.std.specs.Prelude.{Option, Some, None, IsSomeAnd}
use Rattle.std.specs.Option.{unwrap_or}
use Rattle.std.specs.List.{All}
use Rattle.std.proofs.Math.Nat.{mod-lt, zero-div}
use Rattle.map_entry.specs.declared.cell.Cell.{Cell}
use Rattle.map_entry.specs.declared.entry.Entry.{Entry}
use Rattle.map_entry.specs.Entry.{IsEntryOk, selected}
use Rattle.map_entry.specs.Row.{IsRowOf, channels_of_output}
use Rattle.map_entry.specs.Setup.{IsSetup, SetupParts}
use Rattle.map_entry.specs.Tick.{claim_tick, frame_key}
use Rattle.map_entry.proofs.Channels.{passed_there}
use Rattle.map_entry.proofs.Entries.{selected_row}
use Rattle.claim_word.specs.Starts.{IsBase}
use Rattle.packet_writer.specs.Packet.{RowFits, output_of_claim, tick_of_claim}
use Rattle.measure.proofs.one_thread.write.Goals as goal

row_fits : (s : SetupParts) (o : ℕ) (r : Option (List Cell))
    → IsSomeAnd r (λ row. length row ≡ channels_of_output s.device o)
    → ((row : List Cell) → r ≡ Some row → IsRowOf s.device o row)
    → RowFits s.device.inputs (channels_of_output s.device o) (unwrap_or r [])
row_fits s o None there each = absurd there
row_fits s o (Some row) there each = (there, passed_there s.device o row (each row refl).passes)

pub write_claim-requires-clause-rows : goal.write_claim-requires-clause-rows
write_claim-requires-clause-rows g c frame lt =
    let s : SetupParts = c.args.setup.now in let es : List Entry = c.args.entries.now in
    let valid = subst IsSetup c.setup.view_is c.setup.invariant in
    let o : ℕ = output_of_claim s c.args.k in let t : ℕ = tick_of_claim s c.args.k in
    let key : ℕ = frame_key t frame in
    let some = valid.device.bounds.some_output in
    let z = zero-div (length s.device.outputs) in
    subst (RowFits s.device.inputs (channels_of_output s.device o)) (sym (c.rows-rows.ensures frame))
    (row_fits s o (selected es o key)
    (c.requires.base.covers o key (mod-lt c.args.k (omega arith)) (omega (arith, z)))
    (λ row is. selected_row s.device es o key row c.requires.base.rows is))
""",
        "write_tick/Invariants.antt": """use Rattle.std.specs.Prelude.{◌≡◌, length}
use Rattle.packet_writer.specs.Heard.{HaveFrames, OfAgreed}
use Rattle.measure.proofs.one_thread.write_tick.Given as goal

abbrev pub invariant-loop-output : goal.invariant-loop-output
invariant-loop-output g l = record {
  blocks : OfAgreed (g.S.Samples.agrees l.source)
      (λ b. HaveFrames l.fn.setup.device.inputs b l.fn.setup.device.rate.frames);
  flags : length l.found ≡ length l.fn.found;
  room : length l.packet ≡ length l.fn.packet;
}
""",
        "write_all/Invariants.antt": """use Rattle.std.specs.Prelude.{◌≡◌, length}
use Rattle.measure.proofs.one_thread.write_all.Given as goal

abbrev pub invariant-loop-tick : goal.invariant-loop-tick
invariant-loop-tick l = record {
  flags : length l.found ≡ length l.fn.found;
  room : length l.packet ≡ length l.fn.packet;
}
""",
    },
)


def packets() -> Measurement:
    """A worker's packet in both forms beside that of one thread, over tables of two sizes."""
    sizes = (16, 256)
    return Measurement(
        crates="io_caps map_entry claim_rule claim_word input_rule input_cells packet_writer"
        " packet_worker rtp_pcm",
        modules=[BASES, PORTS, WORKERS, ONE_THREAD],
        cases=[
            (
                f"a worker's packet, {form.lower()} form, {size} ticks",
                f"workers::measure(&rt, alloc, workers::Form::{form}, {size})",
            )
            for size in sizes
            for form in ("Closed", "Free")
        ]
        + [
            (f"one thread's packet, {size} ticks", f"one_thread::measure(&rt, alloc, {size})")
            for size in sizes
        ],
    )
