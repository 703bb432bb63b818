//! The rows of a device by tick, and the activations that were accepted.

use crate::device::{BILLION, Cell, Device, SECONDS, write_cell};
use crate::requests::{Activation, Change, Request, When};
use crate::routing::find_fault;

/// When time ends, in nanoseconds.
const END_OF_TIME: u128 = SECONDS as u128 * BILLION as u128;

// With these bytes begin the replies.
const ACTIVATED: u8 = 0x00;
const SCHEDULED: u8 = 0x01;
const DELETED: u8 = 0x02;
const ACTIVE: u8 = 0x03;
const PENDING: u8 = 0x04;
const NO_OUTPUT: u8 = 0x10;
const UNKNOWN_OUTPUT: u8 = 0x11;
const UNKNOWN_CHANNEL: u8 = 0x12;
const LOCKED: u8 = 0x13;
const BAD_ROW: u8 = 0x14;
const PAST_TIME: u8 = 0x15;
const NOT_PENDING: u8 = 0x16;

/// A row, and the tick from which it holds.
struct Entry {
    tick: u64,
    row: Vec<Cell>,
}

/// An activation that was accepted.
struct Accepted<'a> {
    id: u64,
    tick: u64,
    asked: &'a Activation<'a>,
    is_deleted: bool,
}

impl Accepted<'_> {
    fn is_pending(&self, first: u64) -> bool {
        !self.asked.is_at_once() && self.tick > first && !self.is_deleted
    }

    fn names(&self, output: u8) -> bool {
        self.asked.changes.iter().any(|change| change.output == output)
    }

    fn write(&self, text: &mut Vec<u8>) {
        text.extend(self.id.to_be_bytes());
        text.extend(self.asked.when_text);
        text.extend(self.tick.to_be_bytes());
    }
}

/// A reply, with the id and the tick that the record of an accepted call tells.
pub struct Answer {
    pub reply: Vec<u8>,
    pub call: Option<(u64, u64)>,
}

/// The reply that refuses a request.
type Refusal = Vec<u8>;

fn without_call(reply: Vec<u8>) -> Answer {
    Answer { reply, call: None }
}

pub struct Book<'a> {
    device: &'a Device<'a>,
    /// For each output in the order in which they were made.
    entries: Vec<Vec<Entry>>,
    accepted: Vec<Accepted<'a>>,
}

impl<'a> Book<'a> {
    pub fn new(device: &'a Device<'a>) -> Self {
        let base = |row: &Vec<Cell>| vec![Entry { tick: device.base, row: row.clone() }];
        let entries = device.outputs.iter().map(|output| base(&output.base_row)).collect();
        Book { device, entries, accepted: Vec::new() }
    }

    /// The row of an output at a tick of the session.
    pub fn row(&self, output: usize, tick: u64) -> &[Cell] {
        let entries = &self.entries[output];
        let ruling = entries.iter().rev().find(|entry| entry.tick <= tick);
        &ruling.unwrap_or(&entries[0]).row
    }

    /// Answers a request at the first tick not begun.
    pub fn answer(&mut self, first: u64, request: &'a Request<'a>) -> Answer {
        match request {
            Request::Activate(asked) => self.activate(first, asked).unwrap_or_else(without_call),
            Request::Delete { id } => self.delete(first, *id).unwrap_or_else(without_call),
            Request::ReadActive => without_call(self.tell_active(first)),
            Request::ReadPending => without_call(self.tell_pending(first)),
        }
    }

    fn activate(&mut self, first: u64, asked: &'a Activation<'a>) -> Result<Answer, Refusal> {
        self.check_names(asked)?;
        self.check_locks(first, asked)?;
        let rows = self.changed_rows(first, asked)?;
        let tick = self.land(first, &asked.when).ok_or_else(|| vec![PAST_TIME])?;
        let code = if asked.is_at_once() { ACTIVATED } else { SCHEDULED };
        let id = self.accepted.len() as u64 + 1;
        self.accepted.push(Accepted { id, tick, asked, is_deleted: false });
        for (change, row) in asked.changes.iter().zip(rows) {
            self.entries[usize::from(change.output)].push(Entry { tick, row });
        }
        let reply = [&[code][..], &id.to_be_bytes(), &tick.to_be_bytes()].concat();
        Ok(Answer { reply, call: Some((id, tick)) })
    }

    /// Looks whether the outputs that an activation names are there, with their channels.
    fn check_names(&self, asked: &Activation) -> Result<(), Refusal> {
        if asked.changes.is_empty() {
            return Err(vec![NO_OUTPUT]);
        }
        let outputs = &self.device.outputs;
        let is_there = |change: &&Change| usize::from(change.output) < outputs.len();
        if let Some(change) = asked.changes.iter().find(|change| !is_there(change)) {
            return Err(vec![UNKNOWN_OUTPUT, change.output]);
        }
        for change in &asked.changes {
            let channels = outputs[usize::from(change.output)].port.channels;
            let is_past = |(channel, _): &&(u8, Cell)| usize::from(*channel) >= channels;
            if let Some((channel, _)) = change.cells.iter().find(is_past) {
                return Err(vec![UNKNOWN_CHANNEL, change.output, *channel]);
            }
        }
        Ok(())
    }

    fn check_locks(&self, first: u64, asked: &Activation) -> Result<(), Refusal> {
        let pending = self.accepted.iter().filter(|call| call.is_pending(first));
        let is_locked = |change: &&Change| pending.clone().any(|call| call.names(change.output));
        match asked.changes.iter().find(is_locked) {
            Some(change) => Err(vec![LOCKED, change.output]),
            None => Ok(()),
        }
    }

    /// The rows that the outputs of an activation are to have.
    fn changed_rows(&self, first: u64, asked: &Activation) -> Result<Vec<Vec<Cell>>, Refusal> {
        let change_row = |change: &Change| {
            let output = usize::from(change.output);
            let mut row = self.row(output, first).to_vec();
            for (channel, cell) in &change.cells {
                row[usize::from(*channel)] = *cell;
            }
            match find_fault(self.device, output, &row) {
                Some((check, channel)) => {
                    Err(vec![BAD_ROW, change.output, check as u8, channel as u8])
                }
                None => Ok(row),
            }
        };
        asked.changes.iter().map(change_row).collect()
    }

    /// The tick from which an activation counts; `None` past the end of time.
    fn land(&self, first: u64, when: &When) -> Option<u64> {
        let time = match when {
            When::AtOnce => 0,
            When::At(nanos) => *nanos,
            When::After(nanos) => self.device.tick_start(first) + nanos,
        };
        if time >= END_OF_TIME {
            return None;
        }
        let tick = first.max(self.device.first_tick_from(time) as u64);
        (self.device.tick_start(tick) < END_OF_TIME).then_some(tick)
    }

    fn delete(&mut self, first: u64, id: u64) -> Result<Answer, Refusal> {
        let mut pending = self.accepted.iter_mut().filter(|call| call.is_pending(first));
        let meant = pending.find(|call| call.id == id);
        let call = meant.ok_or_else(|| [&[NOT_PENDING][..], &id.to_be_bytes()].concat())?;
        call.is_deleted = true;
        let (tick, asked) = (call.tick, call.asked);
        for change in &asked.changes {
            let output = usize::from(change.output);
            let row = self.row(output, first).to_vec();
            self.entries[output].push(Entry { tick, row });
        }
        let reply = [&[DELETED][..], &id.to_be_bytes()].concat();
        Ok(Answer { reply, call: Some((0, tick)) })
    }

    fn tell_active(&self, first: u64) -> Vec<u8> {
        let counted = self.accepted.iter().filter(|call| call.tick <= first && !call.is_deleted);
        let last = counted.max_by_key(|call| (call.tick, call.id));
        let mut reply = vec![ACTIVE, u8::from(last.is_some())];
        if let Some(last) = last {
            last.write(&mut reply);
        }
        for output in 0..self.entries.len() {
            self.row(output, first).iter().for_each(|cell| write_cell(*cell, &mut reply));
        }
        reply
    }

    fn tell_pending(&self, first: u64) -> Vec<u8> {
        let mut reply = vec![PENDING, 0];
        for call in self.accepted.iter().filter(|call| call.is_pending(first)) {
            reply[1] += 1;
            call.write(&mut reply);
            reply.extend(call.asked.action_text);
        }
        reply
    }
}
