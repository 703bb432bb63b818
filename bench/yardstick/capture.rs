//! Captures: their records, and the first fault of bytes that are none.

use std::fmt::{self, Display, Formatter};

use crate::bytes::Bytes;
use crate::device::{Device, read_device};
use crate::requests::{Request, read_request};

const MAGIC: &[u8] = b"CHMCAP1\n";
const CLIENTS: u8 = 16;
const MOST_TICKS: u64 = 4096;

/// What happens in order; for packets only their order at each input counts.
pub enum Event<'a> {
    Claims(u32),
    // Boxed, since a capture may have millions of the other kind.
    Ask(Box<Ask<'a>>),
}

/// A client's request.
pub struct Ask<'a> {
    pub client: u8,
    pub text: &'a [u8],
    pub request: Request<'a>,
}

pub struct Capture<'a> {
    pub device: Device<'a>,
    /// What came to each input.
    pub packets: Vec<Vec<&'a [u8]>>,
    pub events: Vec<Event<'a>>,
    pub ticks: usize,
}

/// Why bytes aren't taken: the place of the first faulty record, and what its fault is.
pub struct Fault {
    at: usize,
    kind: &'static str,
}

impl Display for Fault {
    fn fmt(&self, f: &mut Formatter) -> fmt::Result {
        write!(f, "refused at {}: {}", self.at, self.kind)
    }
}

struct Record<'a> {
    tag: u8,
    body: &'a [u8],
}

impl Record<'_> {
    fn len(&self) -> usize {
        5 + self.body.len()
    }
}

fn read_record<'a>(bytes: &mut Bytes<'a>) -> Option<Record<'a>> {
    let (tag, len) = (bytes.read_u8()?, bytes.read_u32()?);
    Some(Record { tag, body: bytes.take(len as usize)? })
}

/// The capture that all of these bytes are.
pub fn read_capture(data: &[u8]) -> Result<Capture<'_>, Fault> {
    if !data.starts_with(MAGIC) {
        return Err(Fault { at: 0, kind: "magic" });
    }
    let mut at = MAGIC.len();
    let fault = |at| move |kind| Fault { at, kind };
    let mut bytes = Bytes(&data[at..]);
    let first = read_record(&mut bytes).ok_or("cut").map_err(fault(at))?;
    let mut capture = open_capture(&first).map_err(fault(at))?;
    at += first.len();
    loop {
        let record = read_record(&mut bytes).ok_or("cut").map_err(fault(at))?;
        let is_last = record.tag == b'E';
        take_record(&mut capture, &record).map_err(fault(at))?;
        at += record.len();
        if is_last {
            break;
        }
    }
    bytes.end(capture).ok_or("trailing").map_err(fault(at))
}

/// The capture whose first record this is, so far.
fn open_capture<'a>(record: &Record<'a>) -> Result<Capture<'a>, &'static str> {
    let device = match record.tag {
        b'D' => read_device(record.body).ok_or("device")?,
        b'J' => return Err("a device as JSON, which the yardstick leaves out"),
        b'P' | b'Q' | b'A' | b'T' | b'E' => return Err("order"),
        _ => return Err("tag"),
    };
    let packets = vec![Vec::new(); device.inputs.len()];
    Ok(Capture { device, packets, events: Vec::new(), ticks: 0 })
}

fn take_record<'a>(capture: &mut Capture<'a>, record: &Record<'a>) -> Result<(), &'static str> {
    match record.tag {
        b'P' => take_packet(capture, record.body).ok_or("body"),
        b'A' => {
            let ask = read_ask(record.body).ok_or("body")?;
            capture.events.push(Event::Ask(Box::new(ask)));
            Ok(())
        }
        b'T' => {
            let claims = read_claims(record.body).ok_or("body")?;
            capture.events.push(Event::Claims(claims));
            Ok(())
        }
        b'E' if !record.body.is_empty() => Err("body"),
        b'E' => {
            capture.ticks = count_ticks(capture).ok_or("work")?;
            Ok(())
        }
        b'Q' => Err("a piece of HTTP, which the yardstick leaves out"),
        b'D' | b'J' => Err("order"),
        _ => Err("tag"),
    }
}

fn take_packet<'a>(capture: &mut Capture<'a>, body: &'a [u8]) -> Option<()> {
    let (&input, packet) = body.split_first()?;
    capture.packets.get_mut(usize::from(input))?.push(packet);
    Some(())
}

fn read_ask(body: &[u8]) -> Option<Ask<'_>> {
    let (&client, text) = body.split_first()?;
    let request = read_request(text)?;
    (client < CLIENTS).then_some(Ask { client, text, request })
}

fn read_claims(body: &[u8]) -> Option<u32> {
    let mut bytes = Bytes(body);
    let count = bytes.read_u32()?;
    bytes.end(count)
}

/// The ticks that all claims together make; `None` where they aren't whole, or too many.
fn count_ticks(capture: &Capture) -> Option<usize> {
    let count = |event: &Event| match event {
        Event::Claims(count) => u64::from(*count),
        Event::Ask(_) => 0,
    };
    let claims: u64 = capture.events.iter().map(count).sum();
    let outputs = capture.device.outputs.len() as u64;
    let is_within = claims % outputs == 0 && claims / outputs <= MOST_TICKS;
    is_within.then_some((claims / outputs) as usize)
}
