//! Wrong programs that copy out a line of voxels (02-change-requests.md, P7), of the kind that a hurried colleague would write. The
//! cases of the comparison must notice each.

use crate::cases::{Call, Case, Other};
use crate::line::{self, Line};
use crate::noticed::{self, Noticed};
use crate::over;
use crate::rules::{self, Known, Refusal};
use std::array::from_fn;

/// What a line is asked of.
#[derive(Clone, Copy)]
struct Asked<'a> {
    file: &'a [u8],
    image: &'a [u8],
    line: Line,
    out: &'a [u8],
}

/// What is left: how many bytes were written or a refusal, and the buffer.
#[derive(PartialEq)]
struct Left {
    answer: Result<u64, Refusal>,
    out: Vec<u8>,
}

/// Where a line's voxels are: the place of the first, how far on each next one is, and how many they are.
#[derive(Clone, Copy)]
struct Row {
    first: u64,
    step: u64,
    count: u64,
}

const NO_ROOM: Refusal = Refusal { number: 22, place: 0 };

impl Asked<'_> {
    fn refused(&self, no: Refusal) -> Left {
        Left { answer: Err(no), out: self.out.to_vec() }
    }

    /// Bytes that the buffer has no room for are lost.
    fn filled(&self, bytes: &[u8]) -> Left {
        Left { answer: Ok(bytes.len() as u64), out: over(self.out, &bytes[..bytes.len().min(self.out.len())]) }
    }

    fn by(&self, line: Line) -> Left {
        match line::line(self.file, self.image, &line, self.out.len() as u64) {
            Ok(bytes) => self.filled(&bytes),
            Err(no) => self.refused(no),
        }
    }

    fn right(&self) -> Left {
        self.by(self.line)
    }

    /// What the right program leaves, but changed where it is not refused.
    fn but(&self, change: impl Fn(&Known, &mut Left)) -> Left {
        let mut left = self.right();
        if left.answer.is_ok() {
            change(&rules::read(self.file).unwrap(), &mut left);
        }
        left
    }

    fn holder(&self, known: &Known) -> &[u8] {
        if known.pair {
            self.image
        } else {
            self.file
        }
    }

    /// Where the voxels are of a line that is not refused.
    fn row(&self, known: &Known) -> Row {
        let axis = self.line.axis as usize;
        let start = self.line.through(0).index;
        let first = known.offset + (0..7).map(|i| start[i] * known.steps[i]).sum::<u64>();
        Row { first, step: known.steps[axis - 1], count: known.axis(axis) }
    }

    /// What the right program leaves, but with the voxels of another row where it is not refused. A byte past the end is 0.
    fn but_row(&self, row: impl Fn(&Known, Row) -> Row) -> Left {
        self.but(|known, left| *left = self.filled(&gathered(self.holder(known), known, row(known, self.row(known)))))
    }

    /// The refusal that is given first where the numbers are tried in this order, those of reading as 1; one that is not among them
    /// is not given.
    fn in_order(&self, order: &[u64]) -> Left {
        let faults = line::faults(self.file, self.image.len() as u64, &self.line, self.out.len() as u64);
        let place = |no: &Refusal| order.iter().position(|&number| number == if no.number < 16 { 1 } else { no.number });
        let first = faults.iter().filter_map(|no| place(no).map(|place| (place, *no))).min_by_key(|row| row.0);
        match (first, rules::read(self.file)) {
            (Some((_, no)), _) => self.refused(no),
            (None, Ok(known)) if !faults.is_empty() => self.filled(&gathered(self.holder(&known), &known, self.row(&known))),
            _ => self.right(),
        }
    }

    /// What the right program leaves of a line with other indexes, where the file can be read.
    fn with_index(&self, index: impl Fn(&Known, usize) -> u64) -> Left {
        match rules::read(self.file) {
            Ok(known) => self.by(Line { index: from_fn(|i| index(&known, i)), ..self.line }),
            Err(_) => self.right(),
        }
    }

    /// What the right program leaves, but along an axis after dim[0] so many voxels.
    fn after_axes(&self, length: impl Fn(&Known, usize) -> u64) -> Left {
        match rules::read(self.file) {
            Ok(known) if (known.axes() as u64 + 1..8).contains(&self.line.axis) => {
                let first = self.by(Line { axis: 1, ..self.line });
                let row = Row { count: length(&known, self.line.axis as usize), ..self.row(&known) };
                match first.answer {
                    Err(no) if no != NO_ROOM => first,
                    _ if (self.out.len() as u64) < row.count * known.voxel_bytes() => self.refused(NO_ROOM),
                    _ => self.filled(&gathered(self.holder(&known), &known, row)),
                }
            }
            _ => self.right(),
        }
    }
}

fn gathered(holder: &[u8], known: &Known, row: Row) -> Vec<u8> {
    let byte = |at: u64| holder.get(at as usize).copied().unwrap_or(0);
    (0..row.count).flat_map(|k| (0..known.voxel_bytes()).map(move |i| row.first + k * row.step + i)).map(byte).collect()
}

type Wrong = fn(&Asked) -> Left;

const WRONG: [(&str, Wrong); 40] = [
    ("the step is that of the next axis", |asked| {
        asked.but_row(|known, row| {
            let next = known.steps.get(asked.line.axis as usize).copied().unwrap_or(known.image_bytes);
            Row { step: next, ..row }
        })
    }),
    ("the step is that of the axis before", |asked| {
        asked.but_row(|known, row| Row { step: known.steps[(asked.line.axis as usize).saturating_sub(2)], ..row })
    }),
    ("the voxels are taken one after the other", |asked| asked.but_row(|known, row| Row { step: known.voxel_bytes(), ..row })),
    ("the step is counted in voxels", |asked| asked.but_row(|known, row| Row { step: row.step / known.voxel_bytes(), ..row })),
    ("one voxel too few", |asked| asked.but_row(|_, row| Row { count: row.count - 1, ..row })),
    ("one voxel too many", |asked| asked.but_row(|_, row| Row { count: row.count + 1, ..row })),
    ("the last voxel is counted and not written", |asked| {
        asked.but(|known, left| {
            let end = known.axis(asked.line.axis as usize) * known.voxel_bytes();
            let last = (end - known.voxel_bytes()) as usize..end as usize;
            left.out[last.clone()].copy_from_slice(&asked.out[last]);
        })
    }),
    ("the voxel alone is copied", |asked| {
        asked.but_row(|_, row| Row { first: row.first + own_index(asked) * row.step, count: 1, ..row })
    }),
    ("the line begins at the voxel", |asked| asked.but_row(|_, row| Row { first: row.first + own_index(asked) * row.step, ..row })),
    ("the line begins at the voxel and ends with its axis", |asked| {
        asked.but_row(|_, row| {
            let own = own_index(asked);
            Row { first: row.first + own * row.step, count: row.count - own, ..row }
        })
    }),
    ("the line begins where the image does", |asked| asked.but_row(|known, row| Row { first: known.offset, ..row })),
    ("the offset is left out", |asked| asked.but_row(|known, row| Row { first: row.first - known.offset, ..row })),
    ("the line goes backwards", |asked| {
        asked.but(|known, left| {
            let bytes = known.voxel_bytes() as usize;
            let line = left.out[..known.axis(asked.line.axis as usize) as usize * bytes].to_vec();
            line.chunks_exact(bytes).rev().zip(left.out.chunks_exact_mut(bytes)).for_each(|(from, to)| to.copy_from_slice(from));
        })
    }),
    ("every axis is as long as the first", |asked| asked.but_row(|known, row| Row { count: known.axis(1), ..row })),
    ("a voxel has eight bytes at most", |asked| {
        asked.but(|known, left| {
            let bytes = known.voxel_bytes() as usize;
            for at in 0..known.axis(asked.line.axis as usize) as usize * bytes {
                if at % bytes >= 8 {
                    left.out[at] = asked.out[at];
                }
            }
        })
    }),
    ("a pair's voxels are taken from the header file", |asked| {
        asked.but(|known, left| {
            if known.pair {
                *left = asked.filled(&gathered(asked.file, known, asked.row(known)));
            }
        })
    }),
    ("a single file's voxels are taken from the image argument", |asked| {
        asked.but(|known, left| {
            if !known.pair {
                *left = asked.filled(&gathered(asked.image, known, asked.row(known)));
            }
        })
    }),
    ("a byte is written past the line", |asked| {
        asked.but(|known, left| {
            let end = asked.line.length_in(known) as usize;
            left.out[end..].iter_mut().take(1).for_each(|byte| *byte = !*byte);
        })
    }),
    ("bytes past the line become zero", |asked| asked.but(|known, left| left.out[asked.line.length_in(known) as usize..].fill(0))),
    ("the voxels are counted", |asked| asked.but(|known, left| left.answer = Ok(known.axis(asked.line.axis as usize)))),
    ("the buffer's length is answered", |asked| asked.but(|_, left| left.answer = Ok(asked.out.len() as u64))),
    ("22 is tried before 17", |asked| asked.in_order(&[1, 16, 22, 17])),
    ("17 is tried before 16", |asked| asked.in_order(&[1, 17, 16, 22])),
    ("22 is tried before 16", |asked| asked.in_order(&[1, 22, 16, 17])),
    ("17 is tried before reading", |asked| asked.in_order(&[17, 1, 16, 22])),
    ("16 is tried before reading", |asked| asked.in_order(&[16, 1, 17, 22])),
    ("22 is tried before reading", |asked| asked.in_order(&[22, 1, 16, 17])),
    ("the image file is not judged", |asked| asked.in_order(&[1, 17, 22])),
    ("the buffer is not judged", |asked| asked.in_order(&[1, 16, 17])),
    ("the line has to be shorter than its buffer", |asked| match asked.right() {
        left if left.answer == Ok(asked.out.len() as u64) => asked.refused(NO_ROOM),
        left => left,
    }),
    ("the buffer has to have room for the image", |asked| match (asked.right(), rules::read(asked.file)) {
        (left, Ok(known)) if left.answer.is_ok() && (asked.out.len() as u64) < known.image_bytes => asked.refused(NO_ROOM),
        (left, _) => left,
    }),
    ("a buffer that is too short is filled all the same", |asked| match (asked.right(), rules::read(asked.file)) {
        (left, Ok(known)) if left.answer == Err(NO_ROOM) => {
            Left { out: asked.filled(&gathered(asked.holder(&known), &known, asked.row(&known))).out, ..left }
        }
        (left, _) => left,
    }),
    ("a refusal clears the buffer", |asked| match asked.right() {
        Left { answer: Err(no), out } => Left { answer: Err(no), out: vec![0; out.len()] },
        left => left,
    }),
    ("an axis after dim[0] has one voxel", |asked| asked.after_axes(|_, _| 1)),
    ("an axis after dim[0] has its dim", |asked| asked.after_axes(|known, axis| known.dim[axis].max(0) as u64)),
    ("an axis is a number of 32 bits", |asked| asked.by(Line { axis: asked.line.axis & 0xffff_ffff, ..asked.line })),
    ("an axis is a byte", |asked| asked.by(Line { axis: asked.line.axis & 255, ..asked.line })),
    ("the axes are counted from 0", |asked| asked.by(Line { axis: asked.line.axis.wrapping_add(1), ..asked.line })),
    ("the index on the axis is not judged", |asked| asked.by(asked.line.through(0))),
    ("an index after dim[0] is not judged", |asked| {
        asked.with_index(|known, i| if i < known.axes() { asked.line.index[i] } else { 0 })
    }),
];

/// The voxel's own index on the axis of a line that is not refused.
fn own_index(asked: &Asked) -> u64 {
    asked.line.index[asked.line.axis as usize - 1]
}

/// The wrong programs by their names, and how many of these cases notice each.
pub fn noticed(cases: impl Iterator<Item = Case>) -> Noticed {
    let mut noticed = noticed::none(&WRONG);
    for case in cases {
        let (Call::Line(line), Other::Own(out)) = (case.call, &case.rooms[0]) else {
            continue;
        };
        if matches!(case.other, Other::Zeros(_)) {
            continue;
        }
        let asked = Asked { file: &case.main, image: case.other.own(), line, out };
        let right = asked.right();
        noticed::count(&mut noticed, &WRONG, |wrong| wrong(&asked) != right);
    }
    noticed
}
