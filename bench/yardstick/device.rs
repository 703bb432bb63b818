//! The device of a capture: its inputs and outputs, and the limits that `docs/FORMATS.md` tells.

use std::collections::HashSet;

use crate::bytes::Bytes;
use crate::routing::find_fault;

/// The end of time.
pub const SECONDS: u64 = 1 << 40;
pub const BILLION: u64 = 1_000_000_000;
/// So many ticks from the first one start before the end of time.
const TICKS_PAST_BASE: u64 = 1 << 23;
/// Stands for an unrouted channel in a routable list.
const UNROUTED: u8 = 0xfe;

/// A channel of an input.
#[derive(Clone, Copy)]
pub struct Source {
    pub input: u8,
    pub channel: u8,
}

/// What an output channel carries; `None` where it is unrouted.
pub type Cell = Option<Source>;

pub fn read_cell(bytes: &mut Bytes) -> Option<Cell> {
    match (bytes.read_u8()?, bytes.read_u8()?) {
        (0xff, 0) => Some(None),
        (0xff, _) => None,
        (input, channel) => Some(Some(Source { input, channel })),
    }
}

pub fn write_cell(cell: Cell, text: &mut Vec<u8>) {
    text.extend(cell.map_or([0xff, 0], |source| [source.input, source.channel]));
}

/// How samples stand in packets.
#[derive(Clone, Copy)]
pub enum Width {
    L16 = 2,
    L24 = 3,
}

/// What inputs and outputs have in common.
pub struct Port<'a> {
    id: &'a [u8],
    pub channels: usize,
    pub width: Width,
    pub payload_type: u8,
}

impl Port<'_> {
    pub fn frame_bytes(&self) -> usize {
        self.channels * self.width as usize
    }

    fn is_within_limits(&self) -> bool {
        let is_in_id = |byte: &u8| byte.is_ascii_alphanumeric() || b"-_".contains(byte);
        (1..=32).contains(&self.id.len())
            && self.id.iter().all(is_in_id)
            && (1..=64).contains(&self.channels)
            && self.payload_type <= 127
    }
}

pub struct Input<'a> {
    pub port: Port<'a>,
    pub block_size: usize,
    pub reorders: bool,
}

pub struct Output<'a> {
    pub port: Port<'a>,
    pub ssrc: u32,
    /// The inputs that may be routed; `None` for all.
    routable: Option<&'a [u8]>,
    pub base_row: Vec<Cell>,
}

impl Output<'_> {
    pub fn may_carry(&self, cell: Cell) -> bool {
        let member = cell.map_or(UNROUTED, |source| source.input);
        self.routable.is_none_or(|members| members.contains(&member))
    }
}

pub struct Device<'a> {
    rate: u32,
    pub frames: usize,
    pub base: u64,
    pub hold: u8,
    pub inputs: Vec<Input<'a>>,
    pub outputs: Vec<Output<'a>>,
}

impl Device<'_> {
    /// When a tick starts, in nanoseconds, rounded down.
    pub fn tick_start(&self, tick: u64) -> u128 {
        u128::from(tick) * self.frames as u128 * u128::from(BILLION) / u128::from(self.rate)
    }

    /// The first tick that starts at a time or later.
    pub fn first_tick_from(&self, nanos: u128) -> u128 {
        (nanos * u128::from(self.rate)).div_ceil(self.frames as u128 * u128::from(BILLION))
    }

    fn is_within_limits(&self) -> bool {
        let last = u128::from(self.base) + u128::from(TICKS_PAST_BASE);
        let input_channels: usize = self.inputs.iter().map(|input| input.port.channels).sum();
        let has_whole_blocks =
            |input: &Input| input.port.channels.checked_rem(input.block_size) == Some(0);
        [44_100, 48_000, 96_000, 192_000].contains(&self.rate)
            && (1..=240).contains(&self.frames)
            && last * (self.frames as u128) < u128::from(self.rate) * u128::from(SECONDS)
            && self.hold <= 64
            && self.inputs.len() <= 16
            && (1..=64).contains(&self.outputs.len())
            && are_within_limits(self.inputs.iter().map(|input| &input.port))
            && are_within_limits(self.outputs.iter().map(|output| &output.port))
            && input_channels <= 128
            && self.inputs.iter().all(has_whole_blocks)
            && (0..self.outputs.len()).all(|output| self.is_output_within_limits(output))
    }

    fn is_output_within_limits(&self, number: usize) -> bool {
        let output = &self.outputs[number];
        let is_there = |&member: &u8| member == UNROUTED || self.has_input(member);
        self.frames * output.port.frame_bytes() <= 1440
            && output.routable.is_none_or(|members| members.iter().all(is_there))
            && find_fault(self, number, &output.base_row).is_none()
    }

    pub fn has_input(&self, number: u8) -> bool {
        usize::from(number) < self.inputs.len()
    }
}

/// Whether each port is within the limits, with an id that no other has.
fn are_within_limits<'a>(mut ports: impl Iterator<Item = &'a Port<'a>>) -> bool {
    let mut ids = HashSet::new();
    ports.all(|port| port.is_within_limits() && ids.insert(port.id))
}

fn read_port<'a>(bytes: &mut Bytes<'a>) -> Option<Port<'a>> {
    let id_len = bytes.read_u8()?.into();
    let id = bytes.take(id_len)?;
    let channels = bytes.read_u8()?.into();
    let width = match bytes.read_u8()? {
        16 => Width::L16,
        24 => Width::L24,
        _ => return None,
    };
    Some(Port { id, channels, width, payload_type: bytes.read_u8()? })
}

fn read_input<'a>(bytes: &mut Bytes<'a>) -> Option<Input<'a>> {
    let port = read_port(bytes)?;
    let (block_size, reorders) = (bytes.read_u8()?.into(), bytes.read_u8()?);
    (reorders <= 1).then_some(Input { port, block_size, reorders: reorders == 1 })
}

fn read_output<'a>(bytes: &mut Bytes<'a>) -> Option<Output<'a>> {
    let port = read_port(bytes)?;
    let ssrc = bytes.read_u32()?;
    let routable = match bytes.read_u8()? {
        0xff => None,
        members => Some(bytes.take(members.into())?),
    };
    let base_row = (0..port.channels).map(|_| read_cell(bytes)).collect::<Option<_>>()?;
    Some(Output { port, ssrc, routable, base_row })
}

/// The device of a record's body; `None` where it has no reading or is beyond the limits.
pub fn read_device(body: &[u8]) -> Option<Device<'_>> {
    let mut bytes = Bytes(body);
    let rate = bytes.read_u32()?;
    let frames = bytes.read_u16()?.into();
    let base = bytes.read_u64()?;
    let hold = bytes.read_u8()?;
    let (inputs, outputs) = (bytes.read_u8()?, bytes.read_u8()?);
    let inputs = (0..inputs).map(|_| read_input(&mut bytes)).collect::<Option<_>>()?;
    let outputs = (0..outputs).map(|_| read_output(&mut bytes)).collect::<Option<_>>()?;
    let device = bytes.end(Device { rate, frames, base, hold, inputs, outputs })?;
    device.is_within_limits().then_some(device)
}
