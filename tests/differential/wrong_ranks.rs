//! Wrong programs that find the slice of a rank (02-change-requests.md, P8), of the kind that a hurried colleague would write. The
//! cases of the comparison must notice each.

use crate::cases::{Call, Case};
use crate::line::NO_INDEX;
use crate::noticed::{self, Noticed};
use crate::rules::{self, f32_at, i16_at, Known, Order, Ranked, Refusal, Timing};

/// What is asked.
struct Asked<'a> {
    file: &'a [u8],
    rank: u64,
}

const PAST: Refusal = Refusal { number: 17, place: 0 };

impl Asked<'_> {
    fn of(&self, rank: u64) -> Ranked {
        rules::slice_of_rank(self.file, rank)
    }

    fn right(&self) -> Ranked {
        self.of(self.rank)
    }

    /// What the right program answers where it takes the header to say something else of timing.
    fn reading(&self, change: impl Fn(&Known, &mut Timing)) -> Ranked {
        let known = rules::read(self.file)?;
        let mut timing = Timing::of(self.file, &known);
        change(&known, &mut timing);
        timing.slice_of_rank(self.rank)
    }

    /// Another answer than the right one to a file that reading accepts.
    fn answering(&self, change: impl Fn(&Timing, Ranked) -> Ranked) -> Ranked {
        let known = rules::read(self.file)?;
        change(&Timing::of(self.file, &known), self.right())
    }

    /// Another slice than the right one, where one is answered.
    fn finding(&self, slice: impl Fn(&Timing, u32) -> i64) -> Ranked {
        self.answering(|timing, right| right.map(|found| found.map(|right| slice(timing, right) as u32)))
    }

    /// By a formula where the order alternates: by N and whether the odd slices come first it says how many slices come first, and
    /// whether these are the odd ones.
    fn alternating(&self, halves: impl Fn(i64, bool) -> (i64, bool)) -> Ranked {
        self.finding(|timing, right| {
            if timing.code < 3 {
                return right as i64;
            }
            let (half, odd_first) = halves(timing.count() as i64, timing.code > 4);
            let (rank, second) = (self.rank as i64, self.rank as i64 >= half);
            let o = 2 * (rank - if second { half } else { 0 }) + (odd_first != second) as i64;
            if timing.code % 2 == 1 {
                timing.start + o
            } else {
                timing.end - o
            }
        })
    }

    /// The right program with one code taken for another.
    fn coding(&self, codes: &[(u8, u8)]) -> Ranked {
        self.reading(|_, timing| timing.code = codes.iter().find(|row| row.0 == timing.code).map_or(timing.code, |row| row.1))
    }

    /// The right program with such a duration taken for another.
    fn lasting(&self, such: impl Fn(f32) -> bool, other: f32) -> Ranked {
        self.reading(|_, timing| timing.duration = if such(timing.duration) { other } else { timing.duration })
    }

    /// dim_info, 0 where the file has not so many bytes.
    fn dim_info(&self) -> usize {
        self.file.get(39).map_or(0, |&byte| byte as usize)
    }

    fn axis(&self) -> usize {
        self.dim_info() >> 4 & 3
    }

    /// The right program with another slice_dim.
    fn along(&self, axis: usize) -> Ranked {
        let has_axis = |known: &Known| (1..=3).contains(&axis) && axis <= known.axes();
        self.reading(|known, timing| timing.slices = if has_axis(known) { known.dim[axis] as i64 } else { 0 })
    }
}

/// How many slices come first in the order of an alternating code.
fn half(n: i64, odd_first: bool) -> i64 {
    if odd_first {
        n / 2
    } else {
        (n + 1) / 2
    }
}

type Wrong = fn(&Asked) -> Ranked;

const WRONG: [(&str, Wrong); 52] = [
    ("the even and the odd slices are exchanged", |asked| asked.alternating(|n, odd_first| (half(n, odd_first), !odd_first))),
    ("(N+1)/2 is not rounded up", |asked| asked.alternating(|n, odd_first| (n / 2, odd_first))),
    ("N/2 is rounded up", |asked| asked.alternating(|n, odd_first| ((n + 1) / 2, odd_first))),
    ("the rule is not turned round", |asked| {
        asked.finding(|timing, _| timing.start + timing.rank(timing.start + asked.rank as i64))
    }),
    ("DEC is taken for INC", |asked| asked.coding(&[(2, 1), (4, 3), (6, 5)])),
    ("INC is taken for DEC", |asked| asked.coding(&[(1, 2), (3, 4), (5, 6)])),
    ("ALT2 is taken for ALT", |asked| asked.coding(&[(5, 3), (6, 4)])),
    ("ALT is taken for ALT2", |asked| asked.coding(&[(3, 5), (4, 6)])),
    ("ALT is taken for SEQ", |asked| asked.coding(&[(3, 1), (4, 2)])),
    ("ALT2 is taken for SEQ", |asked| asked.coding(&[(5, 1), (6, 2)])),
    ("a slice is counted from slice_start", |asked| asked.finding(|timing, right| right as i64 - timing.start)),
    ("a DEC order begins at the axis's end", |asked| {
        asked.finding(|timing, right| match timing.code % 2 {
            0 => right as i64 + timing.slices - 1 - timing.end,
            _ => right as i64,
        })
    }),
    ("slice_start is taken for 0", |asked| asked.reading(|_, timing| timing.start = 0)),
    ("slice_end is taken for the axis's last slice", |asked| asked.reading(|_, timing| timing.end = timing.slices - 1)),
    ("padding is acquired too", |asked| asked.reading(|_, timing| (timing.start, timing.end) = (0, timing.slices - 1))),
    ("slice_start and slice_end are exchanged", |asked| {
        asked.reading(|_, timing| (timing.start, timing.end) = (timing.end, timing.start))
    }),
    ("a rank is a byte", |asked| asked.of(asked.rank & 0xff)),
    ("a rank is a number of 16 bits", |asked| asked.of(asked.rank & 0xffff)),
    ("a rank is a number of 32 bits", |asked| asked.of(asked.rank & 0xffff_ffff)),
    ("a rank has a sign", |asked| asked.of(if asked.rank < 1 << 63 { asked.rank } else { 0 })),
    ("a slice is a byte", |asked| asked.finding(|_, right| right as i64 & 0xff)),
    ("ranks are counted from 1", |asked| asked.of(asked.rank.wrapping_sub(1))),
    ("rank N has a slice", |asked| {
        asked.answering(|timing, right| match right {
            Err(_) if asked.rank == timing.count() => Ok(Some(timing.end as u32)),
            _ => right,
        })
    }),
    ("rank N - 1 has none", |asked| {
        asked.answering(|timing, right| match right {
            Ok(Some(_)) if asked.rank + 1 == timing.count() => Err(PAST),
            _ => right,
        })
    }),
    ("every slice of the axis has a rank", |asked| {
        asked.answering(|timing, right| match right {
            Err(_) if asked.rank < timing.slices as u64 => Ok(Some(asked.rank as u32)),
            _ => right,
        })
    }),
    ("a rank past the slices is unstated", |asked| asked.answering(|_, right| right.or(Ok(None)))),
    ("timing that is not stated is refused", |asked| asked.answering(|_, right| right?.map_or(Err(PAST), |slice| Ok(Some(slice))))),
    ("17 is tried before unstated", |asked| {
        asked.answering(|timing, right| match right {
            Ok(None) if asked.rank as i128 > (timing.end - timing.start) as i128 => Err(PAST),
            _ => right,
        })
    }),
    ("17 is tried before reading", |asked| match asked.right() {
        Err(_) if asked.rank >= NO_INDEX => Err(PAST),
        right => right,
    }),
    ("unstated is tried before reading", |asked| match (asked.right(), asked.file.get(122)) {
        (Err(_), Some(0 | 7..)) => Ok(None),
        (right, _) => right,
    }),
    ("the place of a refusal is lost", |asked| asked.right().map_err(|no| Refusal { place: 0, ..no })),
    ("17 has the place of slice_end", |asked| asked.answering(|_, right| right.map_err(|no| Refusal { place: 120, ..no }))),
    ("a slice whose time is infinite is unstated", |asked| {
        asked.answering(|timing, right| match right {
            Ok(Some(_)) if timing.seconds(asked.rank as i64).is_infinite() => Ok(None),
            _ => right,
        })
    }),
    ("all are unstated where a time is infinite", |asked| {
        asked.answering(|timing, right| match right {
            Ok(Some(_)) if timing.seconds(timing.count() as i64 - 1).is_infinite() => Ok(None),
            _ => right,
        })
    }),
    ("a duration of 0 is taken", |asked| asked.lasting(|duration| duration == 0.0, 1.0)),
    ("a duration below 0 is taken", |asked| asked.lasting(|duration| duration < 0.0, 1.0)),
    ("an infinite duration is taken", |asked| asked.lasting(|duration| duration == f32::INFINITY, 1.0)),
    ("a duration that is no number is taken", |asked| asked.lasting(f32::is_nan, 1.0)),
    ("the least durations are 0", |asked| asked.lasting(f32::is_subnormal, 0.0)),
    ("slice_code 0 is taken for SEQ_INC", |asked| asked.coding(&[(0, 1)])),
    ("slice_code 7 is taken for ALT_INC2", |asked| asked.coding(&[(7, 5)])),
    ("slice_code has three bits", |asked| asked.reading(|_, timing| timing.code &= 7)),
    ("slice_start below 0 is taken for 0", |asked| asked.reading(|_, timing| timing.start = timing.start.max(0))),
    ("slice_end may be slice_start", |asked| {
        asked.answering(|timing, right| match (right, asked.rank) {
            (Ok(None), 0) if timing.start == timing.end && Timing { start: timing.end - 1, ..*timing }.stated() => {
                Ok(Some(timing.end as u32))
            }
            _ => right,
        })
    }),
    ("slice_end may be the length of the axis", |asked| asked.reading(|_, timing| timing.slices += 1)),
    ("slice_end past the axis is taken for its last slice", |asked| {
        asked.reading(|_, timing| timing.end = timing.end.min(timing.slices - 1))
    }),
    ("slice_dim may be above dim[0]", |asked| {
        asked.reading(|known, timing| timing.slices = if timing.axis > 0 { known.dim[timing.axis] as i64 } else { 0 })
    }),
    ("slice_dim 0 is axis 3", |asked| asked.along(if asked.axis() > 0 { asked.axis() } else { 3 })),
    ("slice_dim is counted from 0", |asked| asked.along(asked.axis() + 1)),
    ("slice_dim is in bits 0 and 1", |asked| asked.along(asked.dim_info() & 3)),
    ("slice_dim has bits 6 and 7 too", |asked| asked.along(asked.dim_info() >> 4)),
    ("the fields are little-endian", |asked| {
        asked.reading(|_, timing| {
            timing.start = i16_at(asked.file, 74, Order::Little) as i64;
            timing.end = i16_at(asked.file, 120, Order::Little) as i64;
            timing.duration = f32_at(asked.file, 132, Order::Little);
        })
    }),
];

/// The wrong programs by their names, and how many of these cases notice each.
pub fn noticed(cases: impl Iterator<Item = Case>) -> Noticed {
    let mut noticed = noticed::none(&WRONG);
    for case in cases {
        if let Call::SliceOfRank { rank } = case.call {
            let asked = Asked { file: &case.main, rank };
            let right = asked.right();
            noticed::count(&mut noticed, &WRONG, |wrong| wrong(&asked) != right);
        }
    }
    noticed
}
