//! Turns to ask for: the file, the numbers that name the turn, and the two buffers that it fills. First come those that hang on no
//! seed.

use crate::cases::{self, Call, Case, Other, Random};
use crate::files::{extension, Header, NO_EXTENSIONS, OFFSET_352};
use crate::memory::Where;
use crate::rules::{self, Known, Order, DATATYPES, REGION_LIMIT};
use crate::turn::{self, Turn};
use std::array::from_fn;

pub const PERMUTATIONS: [[u64; 3]; 6] = [[1, 2, 3], [1, 3, 2], [2, 1, 3], [2, 3, 1], [3, 1, 2], [3, 2, 1]];

/// How many turns there are.
pub const TURNS: u64 = 48;

pub fn numbered(number: u64) -> Turn {
    let flags = number / 6;
    Turn { axes: PERMUTATIONS[number as usize % 6], reversed: [flags & 1 != 0, flags & 2 != 0, flags & 4 != 0] }
}

/// A file for a turn: most often it has three axes or more, of which not all are one voxel long.
pub fn file(random: &mut Random) -> Vec<u8> {
    let first = cases::file(random);
    match rules::read(&first) {
        Ok(known) if known.dim[1..=known.axes().min(3)].iter().all(|&d| d == 1) && !random.once_in(8) => file(random),
        Ok(known) if known.axes() < 3 && !random.once_in(6) => file(random),
        _ => first,
    }
}

/// The old axis for each new one, not always of a permutation: with other numbers, with an axis named twice, or with one that a
/// narrower number would take for an axis.
fn axes(random: &mut Random) -> [u64; 3] {
    let axes = random.pick(&PERMUTATIONS);
    let any = random.next();
    let numbers = [0, 1, 2, 3, 1, 2, 3, 4, 5, 1 << 63, u64::MAX - 1, u64::MAX, any];
    let few = [[1, 1, 1], [1, 1, 2], [1, 2, 1], [2, 1, 1], [3, 2, 2], [3, 3, 1], [0, 1, 2], [2, 1, 0], [2, 3, 4]];
    let (raised, by) = (random.size(3), random.pick(&[1 << 8, 1 << 16, 1 << 32, 1 << 63]));
    match random.below(18) {
        0 => from_fn(|_| random.pick(&numbers)),
        1 => random.pick(&few),
        2 => from_fn(|k| axes[k] + if k == raised { by } else { 0 }),
        _ => axes,
    }
}

/// A flag: whatever is not 0 is set, also where a narrower number has 0.
fn flag(random: &mut Random) -> u64 {
    random.pick(&[0, 0, 0, 0, 1, 1, 1, 2, 255, 256, 1 << 32, 1 << 63, u64::MAX])
}

/// A buffer for a result of so many bytes: it fits exactly or by some bytes, or it does not fit.
pub fn room(random: &mut Random, needed: usize) -> Other {
    let (more, fewer) = (needed + 1 + random.size(60), random.size(needed));
    let too_few = random.pick(&[needed.saturating_sub(1), needed.saturating_sub(1), fewer, 0]);
    let length = random.pick(&[needed, needed, needed, more, more, too_few]);
    Other::Own(random.bytes(length))
}

/// A buffer for the image file, which a turn of a single file leaves alone. Where the image file is longer than memory the buffer
/// is too short for it.
fn image_room(random: &mut Random, known: Option<&Known>, image: &Other) -> Other {
    if !known.is_some_and(|known| known.pair) {
        return cases::unread_image(random);
    }
    match *image {
        Other::Own(ref bytes) => room(random, bytes.len()),
        Other::Zeros(length) | Other::Closed(length) => {
            let (few, fewer) = (random.size(100), random.size(length));
            match random.below(3) {
                0 => Other::Own(random.bytes(few)),
                1 => Other::Zeros(length - 1),
                _ => Other::Zeros(fewer),
            }
        }
    }
}

pub fn any(random: &mut Random, file: &[u8], known: Option<&Known>) -> (Call, Other, [Other; 2]) {
    let (axes, reverse) = (axes(random), from_fn(|_| flag(random)));
    let next = numbered(random.below(TURNS));
    let image = cases::image(random, known, false);
    let mut rooms = [room(random, file.len()), image_room(random, known, &image)];
    let turn = Turn::named(axes, reverse);
    let lengths = [0, 1].map(|i: usize| rooms[i].length() as u64);
    let refused = !turn::faults(file, image.length() as u64, &turn, lengths).is_empty();
    // a buffer that may not even be written with the bytes that it has
    if refused && random.once_in(4) {
        rooms = lengths.map(|length| Other::Zeros(length as usize));
    }
    (Call::Turn { axes, reverse, next }, image, rooms)
}

pub const FIXED: u64 = EVERY + TOGETHER + PLACED + LARGE;

/// Every turn of every datatype in both orders and kinds, with 3 to 7 axes.
const EVERY: u64 = TURNS * DATATYPES.len() as u64 * 4;

/// Refusals 16, 29, 30, 23 and 22 by either buffer, each given or not.
const TOGETHER: u64 = 64;

/// srow numbers at the borders of 23, in each row and order.
const PLACED: u64 = BORDERS.len() as u64 * 6;

/// Files at 2^27 and 2^40, and buffers longer than memory. They take up to a gigabyte while they run.
pub const LARGE: u64 = 8;

pub fn fixed(number: u64) -> Case {
    if number < EVERY {
        every(number)
    } else if number < EVERY + TOGETHER {
        together(number - EVERY)
    } else if number < EVERY + TOGETHER + PLACED {
        placed(number - EVERY - TOGETHER)
    } else {
        large(number - EVERY - TOGETHER - PLACED)
    }
}

fn asked(random: &mut Random, turn: Turn, file: Vec<u8>, image: Other, rooms: [Other; 2]) -> Case {
    let next = numbered(random.below(TURNS));
    Case::filling(Call::Turn { axes: turn.axes, reverse: turn.reversed.map(u64::from), next }, file, image, rooms)
}

fn sevens(length: usize) -> Other {
    Other::Own(vec![0x77; length])
}

/// A header whose bytes are any, with finite srow numbers.
fn volume(random: &mut Random, order: Order, pair: bool, dims: &[i16], datatype: i16) -> Header {
    let mut header = Header::over(random.bytes(348), order, pair).dims(dims).datatype(datatype);
    header.set16(254, 1 + random.below(4) as i16);
    for number in 0..12 {
        let value = random.below(20_001) as f32 / 64.0 - 150.0;
        header.set32(280 + 4 * number, value.to_bits());
    }
    header
}

fn every(number: u64) -> Case {
    let random = &mut Random::new(48, number);
    let (turn, kind) = (numbered(number % TURNS), number / TURNS);
    let (order, pair) = (if kind & 1 == 0 { Order::Little } else { Order::Big }, kind & 2 != 0);
    let (datatype, bits, _) = DATATYPES[kind as usize / 4];
    let axes = 3 + number as usize % 5;
    let dims = &[3, 2, 4, 2, 1, 2, 3][..axes];
    let header = volume(random, order, pair, dims, datatype);
    let image_bytes = dims.iter().map(|&d| d as usize).product::<usize>() * bits as usize / 8;
    let first = random.pick(&[1, 1, 2, 255]);
    let extended = [
        cases::extender(random, first).to_vec(),
        extension(order, 32, 6, &random.bytes(24)),
        extension(order, 16, 4, &random.bytes(8)),
    ];
    let none = cases::extender(random, 0).to_vec();
    let region = match number % 3 {
        0 => extended.concat(),
        1 => [none, random.bytes(5)].concat(),
        _ => none,
    };
    let more = (number % 4) as usize * 5;
    let image = random.bytes(image_bytes + more);
    let (file, image) = if pair {
        let front = number as usize % 7 * 3;
        let image = [random.bytes(front), image].concat();
        (header.offset((front as f32).to_bits()).file(&[&region]), Other::Own(image))
    } else {
        (header.offset(((348 + region.len()) as f32).to_bits()).file(&[&region, &image]), Other::none())
    };
    let spare = (number / 2 % 2) as usize * 9;
    let rooms =
        [file.len() + spare, if pair { image.length() + spare } else { spare }].map(|length| Other::Own(random.bytes(length)));
    let mut case = asked(random, turn, file, image, rooms);
    if spare == 0 && !pair {
        case.rooms_at[1] = Where::Null;
    }
    case
}

/// A pair that each bit of the number gives a fault.
fn together(number: u64) -> Case {
    let random = &mut Random::new(16, number);
    let bit = |place: u32| number >> place & 1 == 1;
    let order = random.pick(&[Order::Little, Order::Big]);
    let dims: &[i16] = if bit(1) { &[3, 2] } else { &[3, 2, 4] };
    let mut header = volume(random, order, true, dims, 4).offset(0x4000_0000);
    let reversed = [number % 3 == 0, number % 2 == 0, number % 5 == 0];
    if bit(3) {
        let at = 280 + 4 * random.size(12);
        header.set32(at, random.pick(&[0x7f80_0000, 0xff80_0000, 0x7fc0_0000, 0x7f80_0001]));
    }
    let axes = if bit(2) { random.pick(&[[1, 1, 3], [0, 1, 2], [2, 3, 4]]) } else { random.pick(&PERMUTATIONS) };
    let image_bytes = dims.iter().map(|&d| d as usize).product::<usize>() * 2;
    let image = Other::Own(random.bytes(2 + image_bytes - bit(0) as usize));
    let file = header.file(&[&NO_EXTENSIONS, &random.bytes(3)]);
    let rooms = [sevens(file.len() - bit(4) as usize), sevens(image.length() - bit(5) as usize)];
    asked(random, Turn { axes, reversed }, file, image, rooms)
}

const MOST: f32 = f32::MAX;
const HALF: f32 = f32::MAX / 2.0;
const NAN: f32 = f32::NAN;
const INFINITE: f32 = f32::INFINITY;

/// sform_code, a row of srow, and which axes are reversed, of 3, 2 and 4 voxels: column x 2, x 1 and x 3 are added to the shift.
const BORDERS: [(i16, [f32; 4], [bool; 3]); 25] = [
    // an infinite product; a product and a sum at the most and past it
    (1, [MOST, 0.0, 0.0, 0.0], [true, false, false]),
    (1, [HALF, 0.0, 0.0, 0.0], [true, false, false]),
    (1, [HALF, 0.0, 0.0, MOST], [true, false, false]),
    (1, [HALF, 0.0, 0.0, -MOST], [true, false, false]),
    (1, [-HALF, 0.0, 0.0, -MOST], [true, false, false]),
    (1, [MOST, MOST, MOST, MOST], [false, false, false]),
    (1, [MOST, MOST, MOST, 0.0], [false, true, false]),
    // infinite on the way; finite by one order of the axes, or in a wider number
    (1, [MOST, 0.0, -MOST, 0.0], [true, false, true]),
    (1, [MOST / 4.0, 0.0, -MOST / 4.0, MOST], [true, false, true]),
    (1, [-MOST / 4.0, 0.0, MOST / 8.0, MOST], [true, false, true]),
    (1, [MOST / 8.0, 0.0, -MOST / 4.0, MOST], [true, false, true]),
    // not finite before
    (1, [NAN, 1.0, 2.0, 3.0], [false, false, false]),
    (1, [1.0, INFINITE, 2.0, 3.0], [false, false, false]),
    (1, [1.0, 2.0, -INFINITE, 3.0], [false, false, true]),
    (1, [1.0, 2.0, 3.0, NAN], [false, false, false]),
    (1, [1.0, 2.0, 3.0, INFINITE], [true, true, true]),
    // no sform: the rows stay as they are
    (0, [NAN, 1.0, 2.0, 3.0], [true, true, true]),
    (-1, [MOST, INFINITE, -MOST, 0.0], [true, false, true]),
    (-32768, [1.0, 2.0, 3.0, 4.0], [true, true, false]),
    // any sform_code above 0
    (256, [1.0, 2.0, 3.0, 4.0], [true, true, false]),
    (32767, [0.1, 0.2, 0.3, 0.4], [true, true, true]),
    // zeros of either sign, numbers below the least normal one
    (1, [-0.0, 0.0, -0.0, -0.0], [true, false, true]),
    (1, [0.0, 0.0, 0.0, -0.0], [false, false, false]),
    (1, [1e-45, -1e-45, 3e-45, -0.0], [true, true, true]),
    (2, [16_777_216.0, 0.1, 1.0, 0.1], [true, true, true]),
];

fn placed(number: u64) -> Case {
    let random = &mut Random::new(23, number);
    let (sform_code, numbers, reversed) = BORDERS[number as usize / 6];
    let order = if number % 2 == 0 { Order::Little } else { Order::Big };
    let mut header = volume(random, order, false, &[3, 2, 4], 2).offset(OFFSET_352);
    header.set16(254, sform_code);
    for (column, value) in numbers.into_iter().enumerate() {
        header.set32(280 + 16 * (number as usize / 2 % 3) + 4 * column, value.to_bits());
    }
    let file = header.file(&[&NO_EXTENSIONS, &random.bytes(24)]);
    let rooms = [sevens(file.len()), Other::none()];
    let axes = random.pick(&PERMUTATIONS);
    asked(random, Turn { axes, reversed }, file, Other::none(), rooms)
}

fn large(number: u64) -> Case {
    let random = &mut Random::new(27, number);
    let turn = Turn { axes: [3, 1, 2], reversed: [false, true, true] };
    let limit = REGION_LIMIT as usize;
    let image_file = rules::IMAGE_LIMIT as usize + limit;
    let zeros = Other::Zeros;
    if number < 4 {
        let (pair, short) = (number & 2 != 0, number as usize & 1);
        let header = volume(random, Order::Big, pair, &[3, 2, 4], 4).offset(0x4d00_0000);
        let image = random.bytes(50);
        if pair {
            let image = Other::Own([vec![0x2e; limit], image].concat());
            return asked(random, turn, header.bytes, image, [sevens(348), sevens(limit + 51 - 2 * short)]);
        }
        let file = header.file(&[&NO_EXTENSIONS, &vec![0x2e; limit - 352], &image]);
        return asked(random, turn, file, Other::none(), [sevens(limit + 51 - 2 * short), Other::none()]);
    }
    let longest = volume(random, Order::Little, true, &[16384, 16384, 4096], 2).offset(0x4d00_0000).bytes;
    let twice = Turn { axes: [3, 3, 2], ..turn };
    match number {
        4 => asked(random, turn, longest, zeros(image_file), [sevens(348), zeros(image_file - 1)]),
        5 => asked(random, turn, longest, zeros(image_file), [sevens(347), zeros(image_file)]),
        6 => asked(random, turn, longest, zeros(image_file - 1), [zeros(image_file), zeros(image_file)]),
        _ => asked(random, twice, longest, zeros(image_file), [zeros(image_file), zeros(image_file)]),
    }
}
