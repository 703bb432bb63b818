//! Packets of RTP (RFC 3550, sections 5.1 and 5.3.1).

use crate::bytes::Bytes;

const VERSION: u8 = 2;
const PADDING: u8 = 0x20;
const EXTENSION: u8 = 0x10;
const CSRCS: u8 = 0x0f;

/// What counts of a packet that came.
pub struct RtpPacket<'a> {
    pub payload_type: u8,
    pub timestamp: u32,
    pub payload: &'a [u8],
}

/// The packet that these bytes are; `None` where they are none.
pub fn read_packet(bytes: &[u8]) -> Option<RtpPacket<'_>> {
    let mut bytes = Bytes(bytes);
    let first = bytes.read_u8()?;
    if first >> 6 != VERSION {
        return None;
    }
    let payload_type = bytes.read_u8()? & 0x7f;
    let _sequence = bytes.read_u16()?;
    let timestamp = bytes.read_u32()?;
    let _ssrc = bytes.read_u32()?;
    bytes.take(4 * usize::from(first & CSRCS))?;
    if first & EXTENSION != 0 {
        let _profile = bytes.read_u16()?;
        let words = bytes.read_u16()?;
        bytes.take(4 * usize::from(words))?;
    }
    let mut payload = bytes.0;
    if first & PADDING != 0 {
        let padding = usize::from(*payload.last()?);
        let len = payload.len().checked_sub(padding).filter(|_| padding > 0)?;
        payload = &payload[..len];
    }
    Some(RtpPacket { payload_type, timestamp, payload })
}
