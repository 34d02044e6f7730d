//! Cases for the reserved bytes of the extender (02-change-requests.md, P2). They hang on no seed: each extender in both kinds and
//! orders, before extensions, private bytes or none, in every call; then pairs of 348 to 351 bytes.

use crate::cases::{Call, Case, Feeding, Other};
use crate::files::{extension, Header};
use crate::line::Line;
use crate::rules::Order;
use crate::turn::Turn;

/// First bytes of 0, 1 and others, with reserved bytes that are zeros and that are not.
pub const EXTENDERS: [[u8; 4]; 14] = [
    [0, 0, 0, 0],
    [0, 0, 0, 1],
    [0, 1, 0, 0],
    [0, 1, 2, 3],
    [0, 255, 255, 255],
    [1, 0, 0, 0],
    [1, 0, 0, 1],
    [1, 0, 0, 7],
    [1, 1, 0, 0],
    [2, 0, 0, 0],
    [2, 9, 9, 9],
    [128, 0, 0, 0],
    [255, 0, 0, 1],
    [255, 255, 255, 255],
];

const COUNT: u64 = EXTENDERS.len() as u64;
/// What follows the extender: nothing, one extension, two, or two and some bytes.
const MANNERS: u64 = 4;
const CALLS: u64 = 14;

const WHOLE: u64 = COUNT * 2 * 2 * MANNERS * CALLS;
/// Lengths 348 to 351.
const SHORT: u64 = COUNT * 2 * 4 * CALLS;
/// Appends to 348 bytes: two payloads, and a buffer that is one byte short, fits, or has bytes to spare.
const BARE: u64 = COUNT * 2 * 2 * 3;

pub const FIXED: u64 = WHOLE + SHORT + BARE;

pub fn fixed(number: u64) -> Case {
    if number < WHOLE {
        let [call, manner, order, kind, extender] = digits(number, [CALLS, MANNERS, 2, 2, COUNT]);
        let (file, image) = file(order == 1, kind == 1, EXTENDERS[extender], manner);
        let length = file.len() as u64;
        asked(call, [file, vec![0xee; 40]].concat(), length, image)
    } else if number < WHOLE + SHORT {
        let [call, more, order, extender] = digits(number - WHOLE, [CALLS, 4, 2, COUNT]);
        let (file, image) = file(order == 1, true, EXTENDERS[extender], 1);
        asked(call, file, 348 + more as u64, image)
    } else {
        let [spare, long, order, extender] = digits(number - WHOLE - SHORT, [3, 2, 2, COUNT]);
        let (mut buffer, _) = file(order == 1, true, EXTENDERS[extender], 1);
        let (payload, needed) = [(8, 368), (9, 384)][long];
        buffer.resize([needed - 1, needed, needed + 9][spare], 0xee);
        Case::at(Call::Append { file_len: 348, code: 6 }, buffer, Other::Own(vec![0x2e; payload]))
    }
}

/// The digits of a number, the first of which goes round fastest.
pub fn digits<const N: usize>(number: u64, bases: [u64; N]) -> [usize; N] {
    let mut rest = number;
    bases.map(|base| {
        let digit = rest % base;
        rest /= base;
        digit as usize
    })
}

/// A file of 2 x 2 x 3 voxels that has a position and states timing, and a pair's image file.
fn file(big: bool, pair: bool, extender: [u8; 4], manner: usize) -> (Vec<u8>, Vec<u8>) {
    let order = if big { Order::Big } else { Order::Little };
    let notes = [extension(order, 16, 6, &[0xa1; 8]), extension(order, 32, 4, &[0xa2; 24]), vec![0xa3; 7]];
    let region = notes[..manner].concat();
    let mut header = Header::new(order, pair).dims(&[2, 2, 3]).datatype(4).timed(0x30, [0, 2], 3, 1_f32.to_bits());
    header.set16(254, 1);
    let image: Vec<u8> = (1..=24).collect();
    if pair {
        return (header.file(&[&extender, &region]), image);
    }
    let offset = (352 + region.len()) as f32;
    (header.offset(offset.to_bits()).file(&[&extender, &region, &image]), Vec::new())
}

/// A call of the file in the first bytes of the buffer.
fn asked(call: usize, buffer: Vec<u8>, file_len: u64, image: Vec<u8>) -> Case {
    let payload = || Other::Own(vec![0x2e; 9]);
    match call {
        0 => return Case::at(Call::Append { file_len, code: 6 }, buffer, payload()),
        1 => return Case::at(Call::Replace { file_len, number: 0, code: 6 }, buffer, payload()),
        2 => return Case::at(Call::Replace { file_len, number: 1, code: 6 }, buffer, payload()),
        3 => return Case::at(Call::Remove { file_len, number: 0 }, buffer, Other::none()),
        4 => return Case::at(Call::Remove { file_len, number: 1 }, buffer, Other::none()),
        _ => {}
    }
    let mut file = buffer;
    file.truncate(file_len as usize);
    let rooms = [file.len(), image.len()].map(|length| Other::Own(vec![0xee; length]));
    let image = Other::Own(image);
    let next = Turn { axes: [3, 1, 2], reversed: [false, true, false] };
    match call {
        5 => Case::fed(file, Feeding::EveryCut),
        6 => Case::at(Call::ExtensionAt { number: 0 }, file, Other::none()),
        7 => Case::at(Call::Voxel { index: [1, 1, 2, 0, 0, 0, 0] }, file, image),
        8 => Case::at(Call::SliceAt { slice: 0 }, file, Other::none()),
        9 => Case::at(Call::SliceOfRank { rank: 1 }, file, Other::none()),
        10 => Case::at(Call::PositionOf { index: [1, 1, 2] }, file, Other::none()),
        11 => Case::at(Call::Swap, file, image),
        12 => Case::filling(Call::Line(Line { axis: 3, index: [1, 1, 2, 0, 0, 0, 0] }), file, image, rooms),
        _ => Case::filling(Call::Turn { axes: [2, 3, 1], reverse: [1, 0, 1], next }, file, image, rooms),
    }
}
