//! A capture gone through in order, and its result.

use std::io::{self, Write};

use crate::blocks::{Block, build_blocks};
use crate::book::Book;
use crate::capture::{Ask, Capture, Event};
use crate::packet::{Claim, write_claim};

const MAGIC: &[u8] = b"CHMRES1\n";
const END: &[u8] = b"E\0\0\0\0";
const PLAIN_REPLY: u8 = 1;

/// Writes the result of a capture.
pub fn play(capture: &Capture, out: &mut impl Write) -> io::Result<()> {
    let inputs = capture.device.inputs.iter().zip(&capture.packets);
    let blocks = inputs
        .map(|(input, packets)| build_blocks(&capture.device, &input.port, packets, capture.ticks));
    let mut player = Player {
        capture,
        blocks: blocks.collect(),
        book: Book::new(&capture.device),
        calls: 0,
        claims: 0,
        call_records: Vec::new(),
        replies: Vec::new(),
        claim_record: Vec::new(),
        out,
    };
    player.play()
}

/// The record of a reply, and by what it stands among those at the same claims.
struct Reply {
    calls: u64,
    client: u8,
    record: Vec<u8>,
}

struct Player<'a, W> {
    capture: &'a Capture<'a>,
    blocks: Vec<Vec<Block>>,
    book: Book<'a>,
    calls: u64,
    claims: u64,
    /// The records of the calls and replies since the last claim.
    call_records: Vec<u8>,
    replies: Vec<Reply>,
    claim_record: Vec<u8>,
    out: &'a mut W,
}

impl<'a, W: Write> Player<'a, W> {
    fn play(&mut self) -> io::Result<()> {
        self.out.write_all(MAGIC)?;
        for event in &self.capture.events {
            match event {
                Event::Claims(count) => (0..*count).try_for_each(|_| self.make_claim())?,
                Event::Ask(ask) => self.take_ask(ask),
            }
        }
        self.write_answers()?;
        self.out.write_all(END)
    }

    fn make_claim(&mut self) -> io::Result<()> {
        self.write_answers()?;
        let device = &self.capture.device;
        let outputs = device.outputs.len() as u64;
        let (tick, output) = (self.claims / outputs, (self.claims % outputs) as usize);
        let claim = Claim {
            number: self.claims,
            output: &device.outputs[output],
            tick: tick as usize,
            row: self.book.row(output, device.base + tick),
        };
        write_claim(device, &self.blocks, &claim, &mut self.claim_record);
        self.claims += 1;
        self.out.write_all(&self.claim_record)
    }

    fn take_ask(&mut self, ask: &'a Ask<'a>) {
        let device = &self.capture.device;
        let first = device.base + self.claims.div_ceil(device.outputs.len() as u64);
        let answer = self.book.answer(first, &ask.request);
        let (client, calls, claims) = ([ask.client], self.calls, self.claims.to_be_bytes());
        let mut record = Vec::new();
        let body = [&client, &calls.to_be_bytes()[..], &claims, &[PLAIN_REPLY], &answer.reply];
        write_record(b'R', &body, &mut record);
        self.replies.push(Reply { calls, client: ask.client, record });
        if let Some((id, tick)) = answer.call {
            let (id, tick) = (id.to_be_bytes(), tick.to_be_bytes());
            let body = [&claims[..], &client, &id, &tick, ask.text];
            write_record(b'H', &body, &mut self.call_records);
            self.calls += 1;
        }
    }

    /// Writes the calls and then the replies that stand before the next claim.
    fn write_answers(&mut self) -> io::Result<()> {
        if self.replies.is_empty() {
            return Ok(());
        }
        self.out.write_all(&self.call_records)?;
        self.call_records.clear();
        self.replies.sort_by_key(|reply| (reply.calls, reply.client));
        self.replies.drain(..).try_for_each(|reply| self.out.write_all(&reply.record))
    }
}

fn write_record(tag: u8, body: &[&[u8]], text: &mut Vec<u8>) {
    let len: usize = body.iter().map(|part| part.len()).sum();
    text.push(tag);
    text.extend((len as u32).to_be_bytes());
    body.iter().for_each(|part| text.extend(*part));
}
