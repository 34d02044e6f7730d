//! Wrong programs that turn a volume, of the kind that a hurried colleague would write. The cases of the comparison must notice
//! each.

use crate::cases::{Call, Case, Other};
use crate::noticed::{self, Noticed};
use crate::over;
use crate::rules::{self, bytes_of_u32, f32_at, i16_at, Known, Refusal};
use crate::turn::{self, Turn};
use std::array::from_fn;

/// What a turn is given.
struct Asked<'a> {
    file: &'a [u8],
    image: &'a [u8],
    axes: [u64; 3],
    reverse: [u64; 3],
    rooms: [&'a [u8]; 2],
}

/// What it leaves: the two lengths or a refusal, and the buffers.
#[derive(Clone, PartialEq)]
struct Left {
    answer: Result<[u64; 2], Refusal>,
    rooms: [Vec<u8>; 2],
}

impl Asked<'_> {
    fn turn(&self) -> Turn {
        Turn::named(self.axes, self.reverse)
    }

    fn room(&self) -> [u64; 2] {
        self.rooms.map(|room| room.len() as u64)
    }

    fn refused(&self, no: Refusal) -> Left {
        Left { answer: Err(no), rooms: self.rooms.map(<[u8]>::to_vec) }
    }

    /// What the right program leaves, by the turn given.
    fn by(&self, turn: Turn) -> Left {
        match turn::turn(self.file, self.image, &turn, self.room()) {
            Ok((file, image)) => Left {
                answer: Ok([file.len() as u64, image.len() as u64]),
                rooms: [over(self.rooms[0], &file), over(self.rooms[1], &image)],
            },
            Err(no) => self.refused(no),
        }
    }

    fn right(&self) -> Left {
        self.by(self.turn())
    }

    /// What the right program leaves, but changed where it is not refused.
    fn but(&self, change: impl Fn(&Known, &mut Left)) -> Left {
        let mut left = self.right();
        if left.answer.is_ok() {
            change(&rules::read(self.file).unwrap(), &mut left);
        }
        left
    }

    /// What the right program leaves, but with other srow rows where sform_code is above 0: each worked out from the old one.
    fn but_rows(&self, row_of: impl Fn([f32; 4], [u64; 3], Turn) -> [f32; 4]) -> Left {
        self.but(|known, left| {
            let lengths = [1, 2, 3].map(|axis| known.axis(axis));
            for at in [280, 296, 312].into_iter().filter(|_| i16_at(self.file, 254, known.order) > 0) {
                let row = row_of(from_fn(|i| f32_at(self.file, at + 4 * i, known.order)), lengths, self.turn());
                let bytes = row.map(|number| bytes_of_u32(number.to_bits(), known.order)).concat();
                left.rooms[0][at..at + 16].copy_from_slice(&bytes);
            }
        })
    }

    /// The refusal that is given first where the numbers are tried in this order after those of reading.
    fn in_order(&self, order: [u64; 5]) -> Left {
        let faults = turn::faults(self.file, self.image.len() as u64, &self.turn(), self.room());
        let place = |no: &Refusal| order.iter().position(|&number| number == no.number).map_or(0, |place| place + 1);
        faults.into_iter().min_by_key(place).map_or_else(|| self.right(), |no| self.refused(no))
    }
}

/// A row with what is added to the shift worked out by `added` from the shift, the column and n - 1.
fn row_by(row: [f32; 4], lengths: [u64; 3], turn: Turn, added: impl Fn(f32, f32, f32) -> f32) -> [f32; 4] {
    let mut shift = row[3];
    for axis in (0..3).filter(|&axis| turn.reversed[axis]) {
        shift = added(shift, row[axis], (lengths[axis] - 1) as f32);
    }
    let [a, b, c] = turn.shown(from_fn(|axis| if turn.reversed[axis] { -row[axis] } else { row[axis] }));
    [a, b, c, shift]
}

type Wrong = fn(&Asked) -> Left;

const WRONG: [(&str, Wrong); 29] = [
    ("the flags belong to the new axes", |asked| match asked.turn() {
        turn if turn.is_permutation() => asked.by(Turn { reversed: turn.back().shown(turn.reversed), ..turn }),
        turn => asked.by(turn),
    }),
    ("the old axes are told where they go", |asked| match asked.turn() {
        turn if turn.is_permutation() => asked.by(Turn { axes: turn.back().axes, ..turn }),
        turn => asked.by(turn),
    }),
    ("the shift is added after the negation", |asked| {
        asked.but_rows(|row, lengths, turn| row_by(row, lengths, turn, |shift, column, n| shift + -column * n))
    }),
    ("the product and the sum are rounded once", |asked| {
        asked.but_rows(|row, lengths, turn| row_by(row, lengths, turn, |shift, column, n| column.mul_add(n, shift)))
    }),
    ("the shift moves by the axis' length", |asked| {
        asked.but_rows(|row, lengths, turn| row_by(row, lengths, turn, |shift, column, n| shift + column * (n + 1.0)))
    }),
    ("the sum is made in binary64", |asked| {
        asked.but_rows(|row, lengths, turn| {
            let added = (0..3).filter(|&axis| turn.reversed[axis]).map(|axis| row[axis] as f64 * (lengths[axis] - 1) as f64);
            let shift = added.fold(row[3] as f64, |sum, product| sum + product) as f32;
            row_by([row[0], row[1], row[2], shift], lengths, turn, |shift, _, _| shift)
        })
    }),
    ("the shifts are added in the order of the new axes", |asked| {
        asked.but_rows(|row, lengths, turn| {
            let mut new = row_by(row, lengths, turn, |shift, _, _| shift);
            for old in turn.axes.map(|axis| axis as usize - 1).into_iter().filter(|&old| turn.reversed[old]) {
                new[3] += row[old] * (lengths[old] - 1) as f32;
            }
            new
        })
    }),
    ("the columns are permuted before the shifts", |asked| {
        asked.but_rows(|row, lengths, turn| {
            let [a, b, c] = turn.shown([row[0], row[1], row[2]]);
            turn::reversed_row([a, b, c, row[3]], lengths, turn.reversed)
        })
    }),
    ("the columns are not permuted", |asked| asked.but_rows(|row, lengths, turn| turn::reversed_row(row, lengths, turn.reversed))),
    ("the rows are turned where sform_code is not 0", |asked| {
        asked.but(|known, left| {
            if i16_at(asked.file, 254, known.order) < 0 {
                let mut placed = asked.file.to_vec();
                placed[254..256].fill(1);
                let turned = Asked { file: &placed, ..*asked }.right();
                left.rooms[0][280..328].copy_from_slice(&turned.rooms[0][280..328]);
            }
        })
    }),
    ("old rows are not judged where nothing is reversed", |asked| match asked.right() {
        left if left.answer == Err(Refusal { number: 23, place: 0 }) && asked.reverse == [0; 3] => {
            let order = rules::read(asked.file).unwrap().order;
            let mut finite = asked.file.to_vec();
            for at in (280..328).step_by(4).filter(|&at| !f32_at(asked.file, at, order).is_finite()) {
                finite[at..at + 4].fill(0);
            }
            Asked { file: &finite, ..*asked }.right()
        }
        left => left,
    }),
    ("pixdims are not permuted", |asked| asked.but(|_, left| left.rooms[0][80..92].copy_from_slice(&asked.file[80..92]))),
    ("pixdim of a reversed axis is negated", |asked| {
        asked.but(|known, left| {
            let sign = if known.order == rules::Order::Big { 0 } else { 3 };
            for (k, _) in asked.turn().axes.iter().enumerate().filter(|(_, &axis)| asked.reverse[axis as usize - 1] != 0) {
                left.rooms[0][80 + 4 * k + sign] ^= 0x80;
            }
        })
    }),
    ("qform_code is left by the turn that changes nothing", |asked| {
        let same = asked.turn() == Turn { axes: [1, 2, 3], reversed: [false; 3] };
        asked.but(|_, left| left.rooms[0][252..254].copy_from_slice(if same { &asked.file[252..254] } else { &[0, 0] }))
    }),
    ("of dim_info only slice_dim becomes 0", |asked| asked.but(|_, left| left.rooms[0][39] = asked.file[39] & 0xcf)),
    ("slice_code is left", |asked| asked.but(|_, left| left.rooms[0][122] = asked.file[122])),
    ("the extender's reserved bytes become zero", |asked| {
        asked.but(|_, left| left.rooms[0][..asked.file.len()].iter_mut().skip(349).take(3).for_each(|byte| *byte = 0))
    }),
    ("bytes after the image are dropped", |asked| {
        asked.but(|known, left| {
            let (room, end) = (known.pair as usize, (known.offset + known.image_bytes) as usize);
            left.rooms[room][end..].copy_from_slice(&asked.rooms[room][end..]);
        })
    }),
    ("the image file's front is not copied", |asked| {
        asked.but(|known, left| {
            let front = if known.pair { known.offset as usize } else { 0 };
            left.rooms[1][..front].copy_from_slice(&asked.rooms[1][..front]);
        })
    }),
    ("only the first volume is turned", |asked| {
        asked.but(|known, left| {
            let (from, end) = (known.offset as usize, (known.offset + known.image_bytes) as usize);
            let first =
                from + [1, 2, 3].map(|axis| known.axis(axis)).iter().product::<u64>() as usize * known.voxel_bytes() as usize;
            let holder = if known.pair { asked.image } else { asked.file };
            left.rooms[known.pair as usize][first..end].copy_from_slice(&holder[first..end]);
        })
    }),
    ("the third buffer is written for a single file", |asked| {
        asked.but(|known, left| left.rooms[1].iter_mut().take(if known.pair { 0 } else { 1 }).for_each(|byte| *byte = !*byte))
    }),
    ("bytes past the new file become zero", |asked| asked.but(|_, left| left.rooms[0][asked.file.len()..].fill(0))),
    ("the image file's length is answered for a single file", |asked| {
        asked.but(|_, left| left.answer = Ok([asked.file.len() as u64, asked.image.len() as u64]))
    }),
    ("a flag is a byte", |asked| asked.by(Turn::named(asked.axes, asked.reverse.map(|flag| flag & 255)))),
    ("an axis is a number of 32 bits", |asked| asked.by(Turn::named(asked.axes.map(|axis| axis & 0xffff_ffff), asked.reverse))),
    ("a repeated axis is a permutation", |asked| match asked.right() {
        left if left.answer == Err(Refusal { number: 30, place: 0 }) && asked.axes.iter().all(|axis| (1..=3).contains(axis)) => {
            asked.by(Turn { axes: [1, 2, 3], ..asked.turn() })
        }
        left => left,
    }),
    ("the third buffer needs room for the image alone", |asked| match asked.right() {
        left if left.answer == Err(Refusal { number: 22, place: 0 }) => match rules::read(asked.file) {
            Ok(known) if known.pair && asked.rooms[1].len() as u64 >= known.offset + known.image_bytes => {
                Asked { image: &asked.image[..(known.offset + known.image_bytes) as usize], ..*asked }.right()
            }
            _ => left,
        },
        left => left,
    }),
    ("the refusals are tried in the order of their numbers", |asked| asked.in_order([16, 22, 23, 29, 30])),
    ("30 is tried before 29", |asked| asked.in_order([16, 30, 29, 23, 22])),
];

/// The wrong programs by their names, and how many of these cases notice each.
pub fn noticed(cases: impl Iterator<Item = Case>) -> Noticed {
    let mut noticed = noticed::none(&WRONG);
    for case in cases {
        let (Call::Turn { axes, reverse, .. }, Other::Own(_)) = (case.call, &case.other) else {
            continue;
        };
        let [Other::Own(out), Other::Own(out_image)] = &case.rooms else {
            continue;
        };
        let asked = Asked { file: &case.main, image: case.other.own(), axes, reverse, rooms: [out, out_image] };
        let right = asked.right();
        noticed::count(&mut noticed, &WRONG, |wrong| wrong(&asked) != right);
    }
    noticed
}
