"""The measurement `asks` of bench/calls: asks of the one-thread book."""

from __future__ import annotations

from measurement import DEVICE, SETUPS, Measurement, Module

REQUESTS = Module(
    "requests",
    """//! What is asked.

use anyhow::{Result, anyhow};
use map_entry::{Action, Cell, Change, Changes, OutputChange};
use plain_book::{Request, When};
use std::alloc::Global;

/// An activation at once of one channel.
pub fn activation(alloc: Global) -> Result<Request> {
    let mut changes = Changes::new(alloc);
    let cell = Cell::From {
        input: 0,
        channel: 0,
    };
    changes.push(Change { channel: 0, cell })?;
    let Some(change) = OutputChange::build(0, changes) else {
        return Err(anyhow!("a change"));
    };
    let mut action = Action::new(alloc);
    if !action.try_push(change)? {
        return Err(anyhow!("an action"));
    }
    Ok(Request::Activate {
        when: When::Now,
        action,
    })
}

/// A reading of the active map.
pub fn reading() -> Result<Request> {
    Ok(Request::Active)
}
""",
)

ASKS = Module(
    "asks",
    """//! Asks of the one-thread book, all at one number of claims.

use crate::setups::setup;
use crate::spent::Spent;
use anyhow::Result;
use io_caps::NoMemory;
use plain_book::{Desk, PlainDesk, Request};
use std::alloc::Global;
use std::time::{Clock, Instant};

fn ask_all(desk: &mut PlainDesk, request: &Request, asks: u64) -> Result<(), NoMemory> {
    for _ in 0..asks {
        desk.ask(0, request)?;
    }
    Ok(())
}

/// Asks a new book `asks` times, and another one for each turn.
pub fn measure(
    clock: &impl Clock,
    alloc: Global,
    request: Request,
    asks: u64,
    turns: u64,
) -> Result<Spent> {
    let setup = setup(alloc)?;
    let mut nanos = 0u128;
    for _ in 0..turns {
        let mut desk = PlainDesk::new(alloc, &setup)?;
        let begun = Instant::now(clock)?;
        ask_all(&mut desk, &request, asks)?;
        nanos = nanos.saturating_add(begun.elapsed(clock)?.as_nanos());
    }
    Ok(Spent {
        calls: asks.saturating_mul(turns),
        nanos,
    })
}
""",
)

# how many asks of a book, and how many books are asked so
RUNS = ((100, 100), (10_000, 10), (100_000, 1))

KINDS = (("activations", "requests::activation(alloc)?"), ("readings", "requests::reading()?"))


def asks() -> Measurement:
    """Asks of the one-thread book, which accepts each of these activations."""
    return Measurement(
        crates="io_caps map_entry plain_book",
        modules=[DEVICE, SETUPS, REQUESTS, ASKS],
        cases=[
            (f"{count} {kind}", f"asks::measure(&rt, alloc, {request}, {count}, {turns})")
            for kind, request in KINDS
            for count, turns in RUNS
        ],
    )
