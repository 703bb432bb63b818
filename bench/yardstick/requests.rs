//! What clients ask for.

use crate::bytes::Bytes;
use crate::device::{BILLION, Cell, SECONDS, read_cell};

/// When an activation is to count; times are in nanoseconds.
pub enum When {
    AtOnce,
    At(u128),
    After(u128),
}

/// The channels of an output that an activation changes.
pub struct Change {
    pub output: u8,
    pub cells: Vec<(u8, Cell)>,
}

pub struct Activation<'a> {
    pub when: When,
    pub changes: Vec<Change>,
    /// `when` and `changes` as they were read.
    pub when_text: &'a [u8],
    pub action_text: &'a [u8],
}

impl Activation<'_> {
    pub fn is_at_once(&self) -> bool {
        matches!(self.when, When::AtOnce)
    }
}

pub enum Request<'a> {
    Activate(Activation<'a>),
    Delete { id: u64 },
    ReadActive,
    ReadPending,
}

/// The request that these bytes are; `None` where they have no reading.
pub fn read_request(text: &[u8]) -> Option<Request<'_>> {
    let mut bytes = Bytes(text);
    let request = match bytes.read_u8()? {
        op @ 0..=2 => Request::Activate(read_activation(op, text, &mut bytes)?),
        3 => Request::Delete { id: bytes.read_u64()? },
        4 => Request::ReadActive,
        5 => Request::ReadPending,
        _ => return None,
    };
    bytes.end(request)
}

/// The activation whose op was read as the first byte of `text`.
fn read_activation<'a>(op: u8, text: &'a [u8], bytes: &mut Bytes<'a>) -> Option<Activation<'a>> {
    let when = match op {
        0 => When::AtOnce,
        1 => When::At(read_time(bytes)?),
        _ => When::After(read_time(bytes)?),
    };
    let (when_text, action_text) = text.split_at(text.len() - bytes.0.len());
    let changes: Option<Vec<_>> = (0..bytes.read_u8()?).map(|_| read_change(bytes)).collect();
    let changes = changes.filter(|changes| changes.is_sorted_by(|a, b| a.output < b.output))?;
    Some(Activation { when, changes, when_text, action_text })
}

fn read_time(bytes: &mut Bytes) -> Option<u128> {
    let (seconds, nanos) = (bytes.read_u64()?, u64::from(bytes.read_u32()?));
    let time = u128::from(seconds) * u128::from(BILLION) + u128::from(nanos);
    (seconds < SECONDS && nanos < BILLION).then_some(time)
}

fn read_change(bytes: &mut Bytes) -> Option<Change> {
    let (output, count) = (bytes.read_u8()?, bytes.read_u8()?);
    let mut read_one = || Some((bytes.read_u8()?, read_cell(bytes)?));
    let cells: Vec<(u8, Cell)> = (0..count).map(|_| read_one()).collect::<Option<_>>()?;
    cells.is_sorted_by(|a, b| a.0 < b.0).then_some(Change { output, cells })
}
