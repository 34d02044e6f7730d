//! Lines in the comparison (02-change-requests.md, P7): which two refusals of a line have held together, and which of its borders
//! were met. Each line is asked of both calls.

use crate::cases::{Call, Case};
use crate::line::{self, Line};
use crate::rules::{self, Known};
use crate::together::Together;

/// A line of a file that reading accepts, the length of its buffer, and the numbers of the refusals that hold.
struct Asked<'a> {
    known: &'a Known,
    line: Line,
    room: u64,
    held: Vec<u64>,
}

impl Asked<'_> {
    fn copied(&self) -> bool {
        self.held.is_empty()
    }

    /// The line's axis and its length.
    fn along(&self, axis: usize, length: u64) -> bool {
        self.line.axis_in(self.known) == Some(axis) && self.known.axis(axis) == length
    }

    /// Nothing but the axis is wrong, and that is this number.
    fn wrong_axis(&self, axis: u64) -> bool {
        self.held == [17] && self.line.axis == axis && self.outside().is_empty()
    }

    /// The axes whose index is outside.
    fn outside(&self) -> Vec<usize> {
        (1..=7).filter(|&axis| self.line.index[axis - 1] >= self.known.axis(axis)).collect()
    }

    /// Nothing but one index is wrong, and that is of such an axis.
    fn wrong_index(&self, such: impl Fn(usize) -> bool) -> bool {
        let outside = self.outside();
        self.held == [17] && self.line.axis_in(self.known).is_some() && outside.len() == 1 && such(outside[0])
    }

    fn own_axis(&self, axis: usize) -> bool {
        axis as u64 == self.line.axis
    }

    fn own_index(&self) -> u64 {
        self.line.index[self.line.axis as usize - 1]
    }
}

type Met = fn(&Asked) -> bool;

const BORDERS: [(&str, Met); 22] = [
    ("a line that fits", |asked| asked.copied() && asked.room == asked.line.length_in(asked.known)),
    ("one byte short", |asked| asked.held == [22] && asked.room + 1 == asked.line.length_in(asked.known)),
    ("a byte to spare", |asked| asked.copied() && asked.room == asked.line.length_in(asked.known) + 1),
    ("no byte", |asked| asked.held == [22] && asked.room == 0),
    ("a line of one voxel", |asked| asked.copied() && (1..=7).any(|axis| asked.along(axis, 1))),
    ("one of 32767", |asked| asked.copied() && (1..=7).any(|axis| asked.along(axis, 32767))),
    ("through its first voxel", |asked| asked.copied() && asked.own_index() == 0),
    ("through its last", |asked| {
        let last = asked.known.axis(asked.line.axis.min(7) as usize) - 1;
        asked.copied() && last > 0 && asked.own_index() == last
    }),
    ("along the first of seven axes", |asked| asked.copied() && asked.known.axes() == 7 && asked.line.axis == 1),
    ("along the last of seven", |asked| asked.copied() && asked.line.axis == 7),
    ("along the last axis", |asked| asked.copied() && asked.known.axes() < 7 && asked.line.axis == asked.known.axes() as u64),
    ("axis 0", |asked| asked.wrong_axis(0)),
    ("the axis after dim[0]", |asked| asked.known.axes() < 7 && asked.wrong_axis(asked.known.axes() as u64 + 1)),
    ("axis 7 of fewer", |asked| asked.known.axes() < 7 && asked.wrong_axis(7)),
    ("axis 8", |asked| asked.wrong_axis(8)),
    ("axis 2^32 + 1", |asked| asked.wrong_axis((1 << 32) + 1)),
    ("axis 2^64 - 1", |asked| asked.wrong_axis(u64::MAX)),
    ("an index past the line's end", |asked| asked.wrong_index(|axis| asked.own_axis(axis) && asked.own_index() < u64::MAX)),
    ("an index of 2^64 - 1 on it", |asked| asked.wrong_index(|axis| asked.own_axis(axis) && asked.own_index() == u64::MAX)),
    ("an index outside another axis", |asked| asked.wrong_index(|axis| axis <= asked.known.axes() && !asked.own_axis(axis))),
    ("an index after dim[0]", |asked| asked.wrong_index(|axis| axis > asked.known.axes())),
    ("an axis and an index", |asked| {
        asked.held == [17] && asked.line.axis_in(asked.known).is_none() && !asked.outside().is_empty()
    }),
];

#[derive(Default)]
pub struct Reached {
    together: Together,
    borders: [u64; BORDERS.len()],
}

/// The refusals that may hold together: of two the one that is tried first, and the other. A file without a kind and a single file
/// have no image file that may be too short.
fn conflicts() -> Vec<(u64, u64)> {
    let reading = (1..=15).flat_map(|first| [(first, 17), (first, 22)]);
    let pairs = (2..=15).filter(|first| ![4, 11].contains(first)).map(|first| (first, 16));
    [(16, 17), (16, 22), (17, 22)].into_iter().chain(reading).chain(pairs).collect()
}

impl Reached {
    /// Counts a line; what is copied voxel by voxel was counted before.
    pub fn count(&mut self, case: &Case) {
        let Call::Line(line) = case.call else {
            return;
        };
        let room = case.room()[0];
        let faults = line::faults(&case.main, case.other.length() as u64, &line, room);
        self.together.count(&faults);
        if let Ok(known) = &rules::read(&case.main) {
            let asked = Asked { known, line, room, held: faults.iter().map(|fault| fault.number).collect() };
            BORDERS.iter().zip(&mut self.borders).for_each(|((_, met), count)| *count += met(&asked) as u64);
        }
    }

    pub fn print(&self) {
        self.together.print("line");
        let borders = BORDERS.iter().zip(self.borders).map(|((name, _), count)| format!("{name}: {count}"));
        println!("borders of a line: {}", borders.collect::<Vec<_>>().join(", "));
    }

    /// What was never met.
    pub fn missing(&self) -> Vec<String> {
        let borders = BORDERS.iter().zip(self.borders).filter(|row| row.1 == 0).map(|row| format!("{} by line", row.0 .0));
        self.together.missing("line", conflicts()).into_iter().chain(borders).collect()
    }
}
