//! "Turning a volume" (02-change-requests.md, P10) a second time, written from the papers alone, as rules.rs is. Each voxel of the
//! new image is looked up by its seven indexes.

use crate::rules::{self, bytes_of_u32, f32_at, i16_at, Known, Refusal};
use std::array::from_fn;

/// A turn names the old axis, 1 to 3, for each new one; any of the old axes is reversed.
#[derive(Clone, Copy, PartialEq, Eq, Debug)]
pub struct Turn {
    pub axes: [u64; 3],
    pub reversed: [bool; 3],
}

impl Turn {
    /// As the C interface names a turn: a flag is set where it is not 0.
    pub fn named(axes: [u64; 3], reverse: [u64; 3]) -> Turn {
        Turn { axes, reversed: reverse.map(|flag| flag != 0) }
    }

    pub fn is_permutation(&self) -> bool {
        (1..=3).all(|axis| self.axes.contains(&axis))
    }

    /// What the old axes have, for the new ones.
    pub fn shown<T: Copy>(&self, old: [T; 3]) -> [T; 3] {
        self.axes.map(|axis| old[axis as usize - 1])
    }

    /// The new axis that shows an old one, both from 0.
    fn showing(&self, old: usize) -> usize {
        self.axes.iter().position(|&axis| axis == old as u64 + 1).unwrap()
    }

    /// The one turn for this one followed by the next: an axis that both reverse is not reversed.
    pub fn then(&self, next: &Turn) -> Turn {
        Turn { axes: next.shown(self.axes), reversed: from_fn(|old| self.reversed[old] != next.reversed[self.showing(old)]) }
    }

    /// The turn that undoes this one.
    pub fn back(&self) -> Turn {
        Turn { axes: from_fn(|old| self.showing(old) as u64 + 1), reversed: self.shown(self.reversed) }
    }
}

fn lengths(known: &Known) -> [u64; 7] {
    from_fn(|i| known.axis(i + 1))
}

fn is_placed(file: &[u8], known: &Known) -> bool {
    i16_at(file, 254, known.order) > 0
}

/// An srow row, three columns and the shift, with the axes reversed and not yet permuted: first column x (n-1) is added to the
/// shift, axes in order 1 to 3, the product rounded and the sum rounded; then the column is negated.
pub fn reversed_row(row: [f32; 4], lengths: [u64; 3], reversed: [bool; 3]) -> [f32; 4] {
    let mut new = row;
    for axis in (0..3).filter(|&axis| reversed[axis]) {
        let product = row[axis] * (lengths[axis] - 1) as f32;
        new[3] += product;
        new[axis] = -row[axis];
    }
    new
}

fn reversed_rows(file: &[u8], known: &Known, turn: &Turn) -> [[f32; 4]; 3] {
    let [l, m, n, ..] = lengths(known);
    from_fn(|row| {
        let numbers = from_fn(|column| f32_at(file, 280 + 16 * row + 4 * column, known.order));
        reversed_row(numbers, [l, m, n], turn.reversed)
    })
}

/// Every refusal that holds, each judged by itself, in the order in which they are tried: that of reading, 16, 29, 30, 23, 22. Of
/// a file that reading refuses only 30 and 22 can be judged. `room` is the length of the two buffers.
pub fn faults(file: &[u8], image_len: u64, turn: &Turn, room: [u64; 2]) -> Vec<Refusal> {
    let read = rules::read(file);
    let known = read.as_ref().ok();
    let pair = known.is_some_and(|known| known.pair);
    let rows = [
        (16, known.is_some_and(|known| pair && image_len < known.offset + known.image_bytes)),
        (29, known.is_some_and(|known| known.axes() < 3)),
        (30, !turn.is_permutation()),
        (23, known.is_some_and(|known| is_placed(file, known) && !finite(reversed_rows(file, known, turn)))),
        (22, room[0] < file.len() as u64 || pair && room[1] < image_len),
    ];
    let own = rows.into_iter().filter(|row| row.1).map(|row| Refusal { number: row.0, place: 0 });
    read.as_ref().err().copied().into_iter().chain(own).collect()
}

/// A new row has the same numbers in whatever order its columns are.
fn finite(rows: [[f32; 4]; 3]) -> bool {
    rows.iter().flatten().all(|number| number.is_finite())
}

/// The indexes of the voxel with this number, the first varying fastest.
fn index_of(lengths: [u64; 7], number: u64) -> [u64; 7] {
    let mut rest = number;
    lengths.map(|length| {
        let index = rest % length;
        rest /= length;
        index
    })
}

fn number_of(lengths: [u64; 7], index: [u64; 7]) -> u64 {
    (0..7).rev().fold(0, |inner, i| index[i] + lengths[i] * inner)
}

/// The indexes of the old voxel that the new one with these indexes came from.
pub fn came_from(turn: &Turn, lengths: [u64; 7], new: [u64; 7]) -> [u64; 7] {
    let mut old = new;
    for (axis, &index) in turn.axes.iter().zip(&new) {
        let i = *axis as usize - 1;
        old[i] = if turn.reversed[i] { lengths[i] - 1 - index } else { index };
    }
    old
}

/// The new file, and a pair's new image file; a single file has none. Refusals 1 to 16, 29, 30, 23, then 22.
pub fn turn(file: &[u8], image: &[u8], turn: &Turn, room: [u64; 2]) -> Result<(Vec<u8>, Vec<u8>), Refusal> {
    if let Some(&first) = faults(file, image.len() as u64, turn, room).first() {
        return Err(first);
    }
    let known = rules::read(file)?;
    let mut new_file = file.to_vec();
    for (k, &axis) in turn.axes.iter().enumerate() {
        let old = axis as usize;
        new_file[42 + 2 * k..44 + 2 * k].copy_from_slice(&file[40 + 2 * old..42 + 2 * old]);
        new_file[80 + 4 * k..84 + 4 * k].copy_from_slice(&file[76 + 4 * old..80 + 4 * old]);
    }
    if is_placed(file, &known) {
        for (row, [a, b, c, shift]) in reversed_rows(file, &known, turn).into_iter().enumerate() {
            let [a, b, c] = turn.shown([a, b, c]);
            let bytes = [a, b, c, shift].map(|number| bytes_of_u32(number.to_bits(), known.order)).concat();
            new_file[280 + 16 * row..296 + 16 * row].copy_from_slice(&bytes);
        }
    }
    new_file[252..254].fill(0);
    new_file[39] = 0;
    new_file[122] = 0;
    let mut new_image = if known.pair { image.to_vec() } else { Vec::new() };
    let (holder, new_holder) = if known.pair { (image, &mut new_image) } else { (file, &mut new_file) };
    let lengths = lengths(&known);
    let [l, m, n, a, b, c, d] = lengths;
    let [l, m, n] = turn.shown([l, m, n]);
    let bytes = known.voxel_bytes();
    for number in 0..known.image_bytes / bytes {
        let old = number_of(lengths, came_from(turn, lengths, index_of([l, m, n, a, b, c, d], number)));
        let voxel = |number| {
            let at = (known.offset + bytes * number) as usize;
            at..at + bytes as usize
        };
        new_holder[voxel(number)].copy_from_slice(&holder[voxel(old)]);
    }
    Ok((new_file, new_image))
}
