//! "Copy out a line of voxels" (02-change-requests.md, P7) a second time, written from the papers alone, as rules.rs is. Each voxel
//! of the line is located by its seven indexes.

use crate::rules::{self, Known, Refusal};
use std::array::from_fn;

/// All voxels along an axis through the voxel with these indexes.
#[derive(Clone, Copy, PartialEq, Eq, Debug)]
pub struct Line {
    pub axis: u64,
    pub index: [u64; 7],
}

/// An index that no axis has: the longest has 32767 voxels.
pub const NO_INDEX: u64 = i16::MAX as u64;

impl Line {
    /// The axis, where the file has it.
    pub fn axis_in(&self, known: &Known) -> Option<usize> {
        (1..=known.axes()).find(|&axis| axis as u64 == self.axis)
    }

    /// The bytes of the line. One along an axis that the file has not would have one voxel at least.
    pub fn length_in(&self, known: &Known) -> u64 {
        self.axis_in(known).map_or(1, |axis| known.axis(axis)) * known.voxel_bytes()
    }

    /// The same line through its voxel of this number.
    pub fn through(&self, number: u64) -> Line {
        Line { index: from_fn(|i| if i as u64 + 1 == self.axis { number } else { self.index[i] }), ..*self }
    }
}

/// Every refusal that holds, each judged by itself, in the order in which they are tried: that of reading, 16, 17, 22. Of a file
/// that reading refuses they are judged where they hold whatever else it says: 16 of a pair's image file without a byte, 17 of an
/// axis that is not in 1..7 and of an index that no axis has, 22 of a buffer without a byte.
pub fn faults(file: &[u8], image_len: u64, line: &Line, room: u64) -> Vec<Refusal> {
    let read = rules::read(file);
    let rows = match &read {
        Ok(known) => [
            (16, known.pair && image_len < known.offset + known.image_bytes),
            (17, line.axis_in(known).is_none() || (1..=7).any(|axis| line.index[axis - 1] >= known.axis(axis))),
            (22, room < line.length_in(known)),
        ],
        Err(_) => [
            (16, image_len == 0 && file.get(344..348).is_some_and(|magic| magic == b"ni1\0")),
            (17, !(1..=7).contains(&line.axis) || line.index.iter().any(|&index| index >= NO_INDEX)),
            (22, room == 0),
        ],
    };
    let own = rows.into_iter().filter(|row| row.1).map(|row| Refusal { number: row.0, place: 0 });
    read.err().into_iter().chain(own).collect()
}

/// The bytes of the line, in index order. `room` is the length of the buffer. Refusals 1 to 17, then 22.
pub fn line(file: &[u8], image: &[u8], line: &Line, room: u64) -> Result<Vec<u8>, Refusal> {
    let image_len = image.len() as u64;
    if let Some(&first) = faults(file, image_len, line, room).first() {
        return Err(first);
    }
    let known = rules::read(file)?;
    let holder = if known.pair { image } else { file };
    let mut bytes = Vec::new();
    for number in 0..known.axis(line.axis as usize) {
        let (place, length) = rules::voxel(file, image_len, line.through(number).index)?;
        bytes.extend_from_slice(&holder[place as usize..(place + length) as usize]);
    }
    Ok(bytes)
}
