//! Ranks whose slice is asked for (02-change-requests.md, P8), and files whose timing is stated or just is not. First come those
//! that hang on no seed.

use crate::cases::{self, Call, Case, Other, Random};
use crate::extender_cases::digits;
use crate::files::Header;
use crate::line_cases;
use crate::rules::{Known, Order, Timing};
use std::array::from_fn;

const MAX: u64 = u64::MAX;

/// How many axes there are, and what the header says of timing; slice_duration by its bits.
#[derive(Clone, Copy)]
struct Fields {
    axes: usize,
    slice_dim: u8,
    span: [i16; 2],
    code: u8,
    duration: u32,
}

/// Timing that is stated, of so many slices on the slice axis.
const SLICES: i16 = 7;
const STATED: Fields = Fields { axes: 3, slice_dim: 3, span: [1, 5], code: 3, duration: 0x3dcc_cccd };

/// slice_start and slice_end, slice_code and slice_duration on each side of what is stated.
const SPANS: [[i16; 2]; 16] = [
    [0, 6],
    [0, 1],
    [5, 6],
    [1, 5],
    [-1, 5],
    [-32768, 5],
    [0, 0],
    [5, 5],
    [5, 1],
    [0, 7],
    [6, 7],
    [0, 8],
    [1, 261],
    [1, 32767],
    [1, -1],
    [-2, -1],
];
const CODES: [u8; 12] = [0, 1, 2, 3, 4, 5, 6, 7, 8, 127, 131, 255];
const DURATIONS: [u32; 14] = [
    0, 1, 0x007f_ffff, 0x0080_0000, 0x7f7f_ffff, 0x7f80_0000, 0x7f80_0001, 0x7fc0_0000, 0x8000_0000, 0x8000_0001, 0xbdcc_cccd,
    0xff7f_ffff, 0xff80_0000, 0xffc0_0000,
];
/// Durations with which timing is stated; with the last two most times are infinite.
const STATED_DURATIONS: [u32; 6] = [0x3dcc_cccd, 0x3f80_0000, 1, 0x0000_0c00, 0x7f00_0000, 0x7f7f_ffff];

/// A file for a rank or a slice: in one case of three any, else one that states timing, every third of these but for a field at a
/// border.
pub fn file(random: &mut Random) -> Vec<u8> {
    if random.once_in(3) {
        return cases::file(random);
    }
    let most = random.pick(&[2, 8, 40, 1000]);
    let slices = 2 + random.below(most) as i16;
    let stated = stated(random, slices);
    let fields = if random.once_in(3) { at_border(random, slices, stated) } else { stated };
    timed(random, slices, fields)
}

fn stated(random: &mut Random, slices: i16) -> Fields {
    let slice_dim = 1 + random.below(3) as u8;
    let start = random.below(slices as u64 - 1) as i16;
    let end = start + 1 + random.below((slices - start) as u64 - 1) as i16;
    Fields {
        axes: slice_dim as usize + random.size(3),
        slice_dim,
        span: random.pick(&[[0, slices - 1], [start, end], [start, end]]),
        code: 1 + random.below(CODES_STATED) as u8,
        duration: random.pick(&STATED_DURATIONS),
    }
}

/// Such fields with one of them on either side of what is stated.
fn at_border(random: &mut Random, slices: i16, fields: Fields) -> Fields {
    let [start, end] = fields.span;
    let ends = [[-1, end], [i16::MIN, end], [end - 1, end], [end, end], [end, start]];
    let starts = [[start, slices - 1], [start, slices], [start, slices + 1], [start, i16::MAX], [start, -1]];
    match random.below(4) {
        0 => Fields { axes: 1 + random.size(3), slice_dim: random.below(4) as u8, ..fields },
        1 => Fields { span: random.pick(&[ends, starts].concat()), ..fields },
        2 => Fields { code: random.pick(&CODES), ..fields },
        _ => Fields { duration: random.pick(&DURATIONS), ..fields },
    }
}

/// A rank of the file's slices, or one past them.
pub fn any(random: &mut Random, file: &[u8], known: Option<&Known>) -> Call {
    let timing = known.map(|known| Timing::of(file, known)).filter(Timing::stated);
    Call::SliceOfRank { rank: cases::number(random, timing.map_or(5, |timing| timing.count())) }
}

pub const FIXED: u64 = EVERY + BORDERS + TOGETHER + LONGEST;

/// Each rank of 2 to 9 slices and the first past them, by each code, with and without slices before and after them.
const EVERY: u64 = 52 * CODES_STATED * 3 * 2;
const CODES_STATED: u64 = 6;

/// Each field on each side of what is stated, the others as they were, with each rank.
const BORDERS: u64 = RANKS * FIELDS * 2;
const AXES: u64 = 3 * 4;
const FIELDS: u64 = AXES + SPANS.len() as u64 + CODES.len() as u64 + DURATIONS.len() as u64;

/// Each refusal of reading and none, where timing is stated and where not, with ranks inside and past the slices, of both orders
/// and kinds.
pub const TOGETHER: u64 = 16 * 2 * 4 * 2 * 2;

/// An axis of 32767 slices, all or all but one of them acquired, by each code, with each rank.
const LONGEST: u64 = RANKS * CODES_STATED * 3;

pub fn fixed(number: u64) -> Case {
    let groups: [(u64, fn(u64) -> Case); 4] =
        [(EVERY, every), (BORDERS, borders), (TOGETHER, |number| together(number).0), (LONGEST, longest)];
    cases::grouped(number, &groups)
}

fn asked(rank: u64, file: Vec<u8>) -> Case {
    Case::at(Call::SliceOfRank { rank }, file, Other::none())
}

/// A file with these fields, of any order and kind. The axis that slice_dim names has so many slices, past dim[0] too; where it
/// names none, the third has.
fn timed(random: &mut Random, slices: i16, fields: Fields) -> Vec<u8> {
    let Fields { axes, slice_dim, span, code, duration } = fields;
    let named = if slice_dim == 0 { 3 } else { slice_dim as usize };
    let dims = from_fn(|i| if i + 1 == named { slices } else { 1 + random.size(2) as i16 });
    let (order, pair) = (random.pick(&[Order::Little, Order::Big]), random.once_in(2));
    let (bytes, _) = line_cases::file(random, order, pair, axes, dims, 0);
    let dim_info = (random.next() as u8 & 0xcf) | slice_dim << 4;
    Header { bytes, order }.timed(dim_info, span, code, duration).bytes
}

fn every(number: u64) -> Case {
    let random = &mut Random::new(81, number);
    let [code, before, after, place] = digits(number, [CODES_STATED, 3, 2, 52]);
    let (count, rank) = (2..=9).flat_map(|count| (0..=count).map(move |rank| (count, rank))).nth(place).unwrap();
    let start = [0, 1, 4][before];
    let end = start + count - 1;
    let slices = end + 1 + 2 * after as i16;
    let fields = Fields { span: [start, end], code: code as u8 + 1, ..stated(random, slices) };
    asked(rank as u64, timed(random, slices, fields))
}

const RANKS: u64 = 12;

/// Ranks of so many slices, at their ends and where the halves meet, and past them, some of which a narrower number would take for
/// one inside.
fn ranks(count: u64) -> [u64; RANKS as usize] {
    let (half, last) = (count / 2, count.saturating_sub(1));
    [0, 1, half.saturating_sub(1), half, count.div_ceil(2), last, count, 1 << 16, 1 << 32, (1 << 32) + 1, (1 << 63) + half, MAX]
}

fn borders(number: u64) -> Case {
    let random = &mut Random::new(82, number);
    let [rank, field] = digits(number, [RANKS, FIELDS]);
    let groups: [(u64, fn(u64) -> Fields); 4] = [
        (AXES, |n| Fields { axes: 1 + n as usize % 3, slice_dim: n as u8 / 3, ..STATED }),
        (SPANS.len() as u64, |n| Fields { span: SPANS[n as usize], ..STATED }),
        (CODES.len() as u64, |n| Fields { code: CODES[n as usize], ..STATED }),
        (DURATIONS.len() as u64, |n| Fields { duration: DURATIONS[n as usize], ..STATED }),
    ];
    let fields = cases::grouped(field as u64, &groups);
    let [start, end] = fields.span.map(i64::from);
    asked(ranks((end - start + 1).max(0) as u64)[rank], timed(random, SLICES, fields))
}

fn longest(number: u64) -> Case {
    let random = &mut Random::new(83, number);
    let [rank, code, left_out] = digits(number, [RANKS, CODES_STATED, 3]);
    let span = [[0, 32766], [1, 32766], [0, 32765]][left_out];
    let fields = Fields { span, code: code as u8 + 1, ..stated(random, 32767) };
    asked(ranks((span[1] - span[0] + 1) as u64)[rank], timed(random, 32767, fields))
}

/// A rank of a file that reading refuses by the first digit of the number, or does not for 0, and the refusals that hold.
pub fn together(number: u64) -> (Case, Vec<u64>) {
    let [reading, stated, rank, big, pair] = digits(number, [16, 2, 4, 2, 2]);
    let order = line_cases::order(big);
    let (bytes, _) = line_cases::refused(reading, order, line_cases::kind(reading, pair == 1));
    let code = if stated == 1 { 1 + (number % CODES_STATED) as u8 } else { 0 };
    let file = Header { bytes, order }.timed(0x30, [1, 3], code, 0x3dcc_cccd).bytes;
    let past = rank >= 2 && (reading > 0 || stated == 1);
    let holds = [(reading as u64, reading > 0), (17, past)];
    (asked([0, 2, 1 << 16, MAX][rank], file), holds.into_iter().filter(|row| row.1).map(|row| row.0).collect())
}
