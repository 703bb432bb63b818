//! The record of a claim: the flags of the inputs that it found, and the packet sent.

use crate::blocks::Block;
use crate::device::{Cell, Device, Output, Width};

const HEAD: usize = 12;
const VERSION: u8 = 0x80;

/// A claim: its number, its output, its tick in the session, and the row that rules it.
pub struct Claim<'a> {
    pub number: u64,
    pub output: &'a Output<'a>,
    pub tick: usize,
    pub row: &'a [Cell],
}

/// Writes the record of a claim over what `record` holds.
pub fn write_claim(device: &Device, blocks: &[Vec<Block>], claim: &Claim, record: &mut Vec<u8>) {
    let port = &claim.output.port;
    let payload_len = device.frames * port.frame_bytes();
    let body_len = 8 + device.inputs.len() + HEAD + payload_len;
    record.clear();
    record.push(b'C');
    record.extend((body_len as u32).to_be_bytes());
    record.extend(claim.number.to_be_bytes());
    let flags_at = record.len();
    record.resize(flags_at + device.inputs.len(), 0);
    write_head(device, claim, record);
    record.resize(record.len() + payload_len, 0);
    let (flags, packet) = record[flags_at..].split_at_mut(device.inputs.len());
    for (channel, cell) in claim.row.iter().enumerate() {
        let Some(source) = cell else { continue };
        let input = usize::from(source.input);
        let Some(block) = &blocks[input][claim.tick] else { continue };
        flags[input] = 1;
        let to = packet[HEAD..].chunks_exact_mut(port.frame_bytes());
        let from = block.chunks_exact(device.inputs[input].port.channels);
        copy_channel(port.width, to, channel, from, source.channel.into());
    }
}

fn write_head(device: &Device, claim: &Claim, record: &mut Vec<u8>) {
    let tick = device.base + claim.tick as u64;
    let timestamp = (tick * device.frames as u64) as u32;
    record.extend([VERSION, claim.output.port.payload_type]);
    record.extend((tick as u16).to_be_bytes());
    record.extend(timestamp.to_be_bytes());
    record.extend(claim.output.ssrc.to_be_bytes());
}

/// Writes a channel of the frames of a block as a channel of the frames of a payload.
fn copy_channel<'a>(
    width: Width,
    payload: impl Iterator<Item = &'a mut [u8]>,
    to: usize,
    block: impl Iterator<Item = &'a [i32]>,
    from: usize,
) {
    let at = to * width as usize;
    let frames = payload.zip(block);
    match width {
        Width::L16 => frames.for_each(|(payload, block)| {
            payload[at..at + 2].copy_from_slice(&((block[from] >> 8) as i16).to_be_bytes());
        }),
        Width::L24 => frames.for_each(|(payload, block)| {
            payload[at..at + 3].copy_from_slice(&block[from].to_be_bytes()[1..]);
        }),
    }
}
