//! Which rows an output may have.

use crate::device::{Cell, Device, Input, Source};

/// A check that a row can fail.
#[derive(Clone, Copy)]
pub enum Check {
    UnknownInput = 1,
    UnknownChannel,
    NotRoutable,
    BrokenBlock,
    OutOfOrder,
}

/// An output channel, and the channel of an input that it carries.
struct Carried {
    to: usize,
    from: usize,
}

/// The first check that a row of an output fails, and the lowest channel at which it does.
pub fn find_fault(device: &Device, output: usize, row: &[Cell]) -> Option<(Check, usize)> {
    let output = &device.outputs[output];
    let has_input = |from: Source| device.has_input(from.input);
    let has_channel = |from: Source| {
        usize::from(from.channel) < device.inputs[usize::from(from.input)].port.channels
    };
    let cell = |check, is_bad: &dyn Fn(Cell) -> bool| {
        Some((check, row.iter().position(|cell| is_bad(*cell))?))
    };
    let piece = |check, is_bad| Some((check, find_piece(device, row, is_bad)?));
    cell(Check::UnknownInput, &|cell| !cell.is_none_or(has_input))
        .or_else(|| cell(Check::UnknownChannel, &|cell| !cell.is_none_or(has_channel)))
        .or_else(|| cell(Check::NotRoutable, &|cell| !output.may_carry(cell)))
        .or_else(|| piece(Check::BrokenBlock, is_broken))
        .or_else(|| piece(Check::OutOfOrder, is_out_of_order))
}

/// The lowest channel of a bad piece. Pieces are the channels that carry an input, as many
/// together as its blocks have; those of one channel are never bad.
fn find_piece(
    device: &Device,
    row: &[Cell],
    is_bad: fn(&Input, &[Carried]) -> bool,
) -> Option<usize> {
    let find_first = |(number, input): (usize, &Input)| {
        let carried = find_carried(row, number);
        let piece = carried.chunks(input.block_size).find(|piece| is_bad(input, piece))?;
        Some(piece[0].to)
    };
    let with_blocks = device.inputs.iter().enumerate().filter(|(_, input)| input.block_size > 1);
    with_blocks.filter_map(find_first).min()
}

fn find_carried(row: &[Cell], input: usize) -> Vec<Carried> {
    let carried = |(to, cell): (usize, &Cell)| {
        let from = cell.filter(|from| usize::from(from.input) == input)?;
        Some(Carried { to, from: from.channel.into() })
    };
    row.iter().enumerate().filter_map(carried).collect()
}

/// Whether a piece has gaps, or is other than the channels of one block, each once.
fn is_broken(input: &Input, piece: &[Carried]) -> bool {
    let has_gaps = piece.windows(2).any(|two| two[0].to + 1 < two[1].to);
    let mut channels: Vec<usize> = piece.iter().map(|one| one.from).collect();
    channels.sort_unstable();
    let start = channels[0] / input.block_size * input.block_size;
    has_gaps || channels.into_iter().ne(start..start + input.block_size)
}

fn is_out_of_order(input: &Input, piece: &[Carried]) -> bool {
    !input.reorders && piece.windows(2).any(|two| two[0].from > two[1].from)
}
