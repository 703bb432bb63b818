"""The measurement `inputs` of bench/calls: an input table of the largest size."""

from __future__ import annotations

from measurement import DEVICE, Measurement, Module

TABLES = Module(
    "input_tables",
    """//! Input tables of 256 ticks, with all that is done at them.

ghost use Rattle.std.specs.Prelude.{◌≡◌, ◌<◌, ◌≤◌, length};
ghost use Rattle.input_rule.specs.Views.{HasSeen};
ghost use Rattle.input_rule.specs.Words.{HasTick};
ghost use Rattle.input_cells.specs.Faces.{HasInput, HasShape, HasView, IsFeedOf, IsReadOf};

use crate::device::device;
use crate::spent::Spent;
use anyhow::{Result, anyhow};
use input_cells::{Block, FeedPass, Feeds, InputTable, ReadPass};
use std::alloc::Global;
use std::time::{Clock, Instant};

const TICKS: u64 = 256;

const FRAMES: u16 = 240;

const CHANNELS: u8 = 64;

/// The samples of an input's block, and of all its blocks.
const BLOCK: usize = 15360;

const SAMPLES: u64 = 3932160;

const TABLES: u64 = 8;

/// A table with the passes of an input's feeder and of a reader.
#[derive(Drop)]
struct Running {
    table: InputTable,
    feeder: FeedPass,
    reader: ReadPass,
    ghost feeds: { IsFeedOf table feeder },
    ghost reads: { IsReadOf table reader },
}

fn passes(table: InputTable, mut feeds: Feeds) -> Result<Running>
    requires of { feeds.table ≡ table }
    requires input { 0 < length table }
{
    let Ok(feeder) = feeds.feed(&table, 0) else {
        return Err(anyhow!("a feeder"));
    };
    let Ok(reader) = feeds.reader(&table) else {
        return Err(anyhow!("a reader"));
    };
    Ok(Running {
        table,
        feeder,
        reader,
    })
}

fn start(alloc: Global) -> Result<Running> {
    let device = device(alloc, FRAMES, 2)?;
    let (table, feeds) = InputTable::start(alloc, &device, 0, TICKS, 1)?;
    if table.feeders() == 0 {
        return Err(anyhow!("an input"));
    }
    passes(table, feeds)
}

fn block(alloc: Global) -> Result<Block> {
    let mut made = Block::new(alloc);
    for sample in 0..BLOCK {
        made.push(sample as i32)?;
    }
    Ok(made)
}

impl Running {
    /// Sets the blocks of all ticks.
    fn set_all(&mut self, block: &Block) -> bool {
        let mut done = true;
        for tick in 0..TICKS {
            if self.feeder.may_set(tick, block) {
                done &= self.feeder.set(&self.table, tick, block).is_ok();
            } else {
                done = false;
            }
        }
        done
    }

    /// Reads the samples of all ticks that are there.
    fn read_all(&mut self) -> i32 {
        let mut last = 0;
        for tick in 0..TICKS {
            last = read_tick(&self.table, &mut self.reader, tick);
        }
        last
    }
}

/// Reads the samples of a tick, where its block is there.
fn read_tick(table: &InputTable, reader: &mut ReadPass, tick: u64) -> i32
    requires reads { IsReadOf table.now reader.old }
    ensures reads { IsReadOf table.now reader.new }
{
    if table.inputs() == 0 || !table.has_tick(0, tick) || !reader.look(table, 0, tick) {
        return 0;
    }
    let mut last = 0;
    for frame in 0..FRAMES {
        if table.has_frame(0, frame) && table.has_channel(0, CHANNELS - 1) {
            last = read_frame(table, reader, tick, frame);
        }
    }
    last
}

/// Reads the samples of a frame.
fn read_frame(table: &InputTable, reader: &mut ReadPass, tick: u64, frame: u16) -> i32
    requires reads { IsReadOf table.now reader.old }
    requires input { HasInput table.now 0 }
    requires tick { HasShape table.now 0 (λ s. HasTick s tick) }
    requires frame { HasShape table.now 0 (λ s. frame < s.frames) }
    requires channels { HasShape table.now 0 (λ s. 63 < s.channels) }
    requires seen { HasView reader.old 0 (λ v. HasSeen v tick) }
    ensures reads { IsReadOf table.now reader.new }
    ensures seen { HasView reader.new 0 (λ v. HasSeen v tick) }
{
    let mut last = 0;
    for channel in 0..CHANNELS {
        last = reader.sample(table, 0, tick, frame, channel);
    }
    last
}

/// What a start takes.
pub fn starts(clock: &impl Clock, alloc: Global) -> Result<Spent> {
    let device = device(alloc, FRAMES, 2)?;
    let mut nanos = 0u128;
    for _ in 0..TABLES {
        let begun = Instant::now(clock)?;
        let made = InputTable::start(alloc, &device, 0, TICKS, 32)?;
        nanos = nanos.saturating_add(begun.elapsed(clock)?.as_nanos());
        if made.0.feeders() == 0 {
            return Err(anyhow!("an input"));
        }
    }
    Ok(Spent {
        calls: TABLES,
        nanos,
    })
}

/// What a sample takes to be set.
pub fn sets(clock: &impl Clock, alloc: Global) -> Result<Spent> {
    let block = block(alloc)?;
    let mut running = start(alloc)?;
    let begun = Instant::now(clock)?;
    let done = running.set_all(&block);
    let nanos = begun.elapsed(clock)?.as_nanos();
    if !done {
        return Err(anyhow!("all blocks"));
    }
    Ok(Spent {
        calls: SAMPLES,
        nanos,
    })
}

/// What a sample takes to be read.
pub fn reads(clock: &impl Clock, alloc: Global) -> Result<Spent> {
    let block = block(alloc)?;
    let mut running = start(alloc)?;
    if !running.set_all(&block) {
        return Err(anyhow!("all blocks"));
    }
    let begun = Instant::now(clock)?;
    let last = running.read_all();
    let nanos = begun.elapsed(clock)?.as_nanos();
    if last != BLOCK as i32 - 1 {
        return Err(anyhow!("the last sample"));
    }
    Ok(Spent {
        calls: SAMPLES,
        nanos,
    })
}
""",
    {
        "read_frame/Invariants.antt": """use Rattle.input_rule.specs.Views.{HasSeen}
use Rattle.input_cells.specs.Faces.{HasView, IsReadOf}
use Rattle.measure.proofs.input_tables.read_frame.Given as goal

abbrev pub invariant-loop-channel : goal.invariant-loop-channel
invariant-loop-channel l = record {
  reads : IsReadOf l.fn.table l.reader;
  seen : HasView l.reader 0 (λ v. HasSeen v l.fn.tick);
}
""",
        "read_frame/Answers.antt": """use Rattle.std.proofs.Common.{ℕ, zero, suc, ◌<◌, ◌≤◌, List, [], ◌∷◌, arith}
use Rattle.input_rule.specs.declared.view.Shape.{Shape}
use Rattle.input_cells.specs.Faces.{HasShape, InputFace}
use Rattle.input_cells.proofs.Growing.{keeps_seen}
use Rattle.measure.proofs.input_tables.read_frame.Goals as goal

fewer_channels : (table : List InputFace) (channel : ℕ) → channel < 64 → HasShape table 0 (λ s. 63 < s.channels) → HasShape table 0 (λ s. channel < s.channels)
fewer_channels [] channel few h = h
fewer_channels (t ∷ ts) channel few h = omega arith

pub sample-last-requires-clause-channel : goal.sample-last-requires-clause-channel
sample-last-requires-clause-channel c = fewer_channels c.args.table.now c.loop-channel.channel c.loop-channel-test.true c.requires.channels

pub loop-channel-preserved : goal.loop-channel-preserved
loop-channel-preserved c = record {
  reads = c.sample-last.ensures.pass;
  seen = keeps_seen _ _ c.sample-last.ensures.grows 0 c.args.tick c.loop-channel.invariant.seen;
}
""",
        "read_tick/Invariants.antt": """use Rattle.input_rule.specs.Views.{HasSeen}
use Rattle.input_cells.specs.Faces.{HasView, IsReadOf}
use Rattle.measure.proofs.input_tables.read_tick.Given as goal

abbrev pub invariant-loop-frame : goal.invariant-loop-frame
invariant-loop-frame l = record {
  reads : IsReadOf l.fn.table l.reader;
  seen : HasView l.reader 0 (λ v. HasSeen v l.fn.tick);
}
""",
    },
)


def inputs() -> Measurement:
    """A start of the largest table; a sample set, a sample read, on one thread."""
    return Measurement(
        crates="io_caps input_rule input_cells",
        modules=[DEVICE, TABLES],
        cases=[
            ("start of the largest input table", "input_tables::starts(&rt, alloc)"),
            ("set, a sample", "input_tables::sets(&rt, alloc)"),
            ("sample", "input_tables::reads(&rt, alloc)"),
        ],
    )
