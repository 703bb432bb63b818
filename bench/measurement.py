"""What a measurement of bench/calls is, and the device that the measurements share, in Rattle with
its proofs.
"""

from __future__ import annotations

from dataclasses import dataclass, field


@dataclass
class Module:
    """A file of the program's src/, and files of its proofs/ by their paths below the module's
    folder.
    """

    name: str
    source: str
    proofs: dict[str, str] = field(default_factory=dict)


@dataclass
class Measurement:
    """The crates that the modules name, the modules, and the cases: a label, and a call that
    answers a `Result<Spent>` where `rt` is the runtime and `alloc` the allocator.
    """

    crates: str
    modules: list[Module]
    cases: list[tuple[str, str]]


DEVICE = Module(
    "device",
    """//! A device of two inputs of 64 channels, and of two outputs.

use anyhow::{Result, anyhow};
use io_caps::{
    Device, DeviceParts, Input, Inputs, Labels, NoMemory, Output, Outputs, Parent, Rate, Routable,
    Text, Width,
};
use std::alloc::Global;

const INPUT_CHANNELS: u8 = 64;

fn text(alloc: Global, byte: u8) -> Result<Text, NoMemory> {
    let mut made = Text::new(alloc);
    made.push(byte)?;
    Ok(made)
}

fn labels(alloc: Global, channels: u8) -> Result<Labels, NoMemory> {
    let mut made = Labels::new(alloc);
    for _ in 0..channels {
        made.push(Text::new(alloc))?;
    }
    Ok(made)
}

fn inputs(alloc: Global) -> Result<Inputs, NoMemory> {
    let mut made = Inputs::new(alloc);
    for id in [b'a', b'b'] {
        made.push(Input {
            id: text(alloc, id)?,
            name: Text::new(alloc),
            description: Text::new(alloc),
            labels: labels(alloc, INPUT_CHANNELS)?,
            width: Width::L24,
            payload_type: 96,
            block_size: 1,
            reordering: true,
            parent: Parent::Nobody,
        })?;
    }
    Ok(made)
}

fn outputs(alloc: Global, channels: u8) -> Result<Outputs, NoMemory> {
    let mut made = Outputs::new(alloc);
    for (id, ssrc) in [(b'x', 1), (b'y', 2)] {
        made.push(Output {
            id: text(alloc, id)?,
            name: Text::new(alloc),
            description: Text::new(alloc),
            labels: labels(alloc, channels)?,
            width: Width::L24,
            payload_type: 97,
            ssrc,
            source_id: None,
            routable: Routable::All,
        })?;
    }
    Ok(made)
}

/// The device with this number of frames a tick, and of channels of each output.
pub fn device(alloc: Global, frames: u16, channels: u8) -> Result<Device> {
    let parts = DeviceParts {
        rate: Rate { hz: 48000, frames },
        base: 0,
        hold: 1,
        inputs: inputs(alloc)?,
        outputs: outputs(alloc, channels)?,
    };
    match Device::build(alloc, parts) {
        Ok(device) => Ok(device),
        Err(_) => Err(anyhow!("a device")),
    }
}
""",
)

SETUPS = Module(
    "setups",
    """//! The device with eight channels of each output, and rows of it.

use crate::device::device;
use anyhow::{Result, anyhow};
use io_caps::NoMemory;
use map_entry::{Cell, Row, Rows, Setup};
use std::alloc::Global;

const CHANNELS: u8 = 8;

/// A row that has this cell in each channel.
pub fn row(alloc: Global, cell: Cell) -> Result<Row, NoMemory> {
    let mut made = Row::new(alloc);
    for _ in 0..CHANNELS {
        made.push(cell)?;
    }
    Ok(made)
}

fn rows(alloc: Global) -> Result<Rows, NoMemory> {
    let mut made = Rows::new(alloc);
    made.push(row(alloc, Cell::Unrouted)?)?;
    made.push(row(alloc, Cell::Unrouted)?)?;
    Ok(made)
}

/// The device with base rows that are not routed.
pub fn setup(alloc: Global) -> Result<Setup> {
    let rows = rows(alloc)?;
    let device = device(alloc, 6, CHANNELS)?;
    match Setup::build(alloc, device, rows) {
        Ok(setup) => Ok(setup),
        Err(_) => Err(anyhow!("a setup")),
    }
}
""",
)
