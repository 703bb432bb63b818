//! The blocks of an input: its samples, by tick.

use std::ops::Range;

use crate::device::{Device, Port, Width};
use crate::rtp::read_packet;

/// The samples of an input in a tick, frame by frame; `None` where no packet brought a frame.
pub type Block = Option<Vec<i32>>;

/// The blocks that an input's packets bring to a session of so many ticks.
pub fn build_blocks(device: &Device, port: &Port, packets: &[&[u8]], ticks: usize) -> Vec<Block> {
    let is_held = vec![false; ticks * device.frames];
    let mut builder = Builder { device, port, blocks: vec![None; ticks], is_held, closed: 0 };
    packets.iter().for_each(|packet| builder.take(packet));
    builder.blocks
}

struct Builder<'a> {
    device: &'a Device<'a>,
    port: &'a Port<'a>,
    blocks: Vec<Block>,
    /// For each frame of the session, whether a packet brought it.
    is_held: Vec<bool>,
    /// So many ticks take nothing more.
    closed: usize,
}

impl Builder<'_> {
    /// Stores the frames that no packet before brought, and then closes ticks.
    fn take(&mut self, bytes: &[u8]) {
        let Some(packet) = read_packet(bytes) else { return };
        let (payload, frame_bytes) = (packet.payload, self.port.frame_bytes());
        let is_whole = !payload.is_empty() && payload.len() % frame_bytes == 0;
        let start = self.first_frame(packet.timestamp);
        let session_end = self.is_held.len() as i64;
        if packet.payload_type != self.port.payload_type || !is_whole || start >= session_end {
            return;
        }
        let end = start + (payload.len() / frame_bytes) as i64;
        let from = start.max((self.closed * self.device.frames) as i64);
        let to = end.min(session_end);
        if from < to {
            let skipped = (from - start) as usize * frame_bytes;
            self.store(from as usize..to as usize, &payload[skipped..]);
        }
        self.close(end - 1);
    }

    /// The first frame of a packet with this timestamp, counted from the session's first.
    fn first_frame(&self, timestamp: u32) -> i64 {
        let base = self.device.base * self.device.frames as u64;
        i64::from(timestamp.wrapping_sub(base as u32) as i32)
    }

    /// Closes the ticks more than `hold` before that of a packet's last frame.
    fn close(&mut self, last_frame: i64) {
        let last_tick = last_frame.div_euclid(self.device.frames as i64);
        let closed = last_tick - i64::from(self.device.hold);
        self.closed = closed.clamp(self.closed as i64, self.blocks.len() as i64) as usize;
    }

    /// Stores frames, with which the payload begins, tick by tick.
    fn store(&mut self, frames: Range<usize>, mut payload: &[u8]) {
        let mut from = frames.start;
        while from < frames.end {
            let tick = from / self.device.frames;
            let to = frames.end.min((tick + 1) * self.device.frames);
            let (part, left) = payload.split_at((to - from) * self.port.frame_bytes());
            self.store_in_tick(tick, from..to, decode(self.port.width, part));
            (from, payload) = (to, left);
        }
    }

    /// Stores the samples of frames. Samples that fill a tick become its block without a copy.
    fn store_in_tick(&mut self, tick: usize, frames: Range<usize>, samples: Vec<i32>) {
        let (block, channels) = (&mut self.blocks[tick], self.port.channels);
        let start = frames.start - tick * self.device.frames;
        let is_held = &mut self.is_held[frames];
        if block.is_none() && is_held.len() == self.device.frames {
            *block = Some(samples);
        } else {
            let block = block.get_or_insert_with(|| vec![0; self.device.frames * channels]);
            let stored = block.chunks_exact_mut(channels).skip(start);
            let frames = stored.zip(samples.chunks_exact(channels)).zip(&*is_held);
            for ((stored, brought), _) in frames.filter(|(_, is_held)| !**is_held) {
                stored.copy_from_slice(brought);
            }
        }
        is_held.fill(true);
    }
}

/// Samples as signed numbers of 24 bits.
fn decode(width: Width, payload: &[u8]) -> Vec<i32> {
    match width {
        Width::L16 => {
            let (samples, _) = payload.as_chunks();
            samples.iter().map(|bytes| i32::from(i16::from_be_bytes(*bytes)) << 8).collect()
        }
        Width::L24 => {
            let (samples, _) = payload.as_chunks();
            samples.iter().map(|[a, b, c]| i32::from_be_bytes([*a, *b, *c, 0]) >> 8).collect()
        }
    }
}
