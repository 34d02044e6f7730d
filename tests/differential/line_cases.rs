//! Lines to copy out (02-change-requests.md, P7): the file, the axis and the voxel, and the buffer that is filled. First come those
//! that hang on no seed.

use crate::cases::{self, Call, Case, Other, Random};
use crate::extender_cases::digits;
use crate::files::{extension, Header, EXTENSIONS, OFFSET_352};
use crate::line::{self, Line, NO_INDEX};
use crate::memory::Where;
use crate::rules::{Known, Order, DATATYPES};
use crate::turn_cases;
use std::array::from_fn;

const MAX: u64 = u64::MAX;

/// The lengths of the axes; those after dim[0] are stored too, and not judged.
const LENGTHS: [i16; 7] = [3, 2, 4, 2, 3, 2, 5];

/// Numbers that are no axis of any file, some of which a narrower number would take for one.
const NO_AXES: [u64; 8] = [0, 8, (1 << 8) + 1, (1 << 16) + 1, (1 << 32) + 1, (1 << 63) + 1, MAX - 1, MAX];

/// An axis of the file, every second time the longest, or in one case of eight a number that is none of most files.
fn axis(random: &mut Random, known: Option<&Known>) -> u64 {
    let axes = known.map_or(3, Known::axes);
    let longest = (1..=axes).max_by_key(|&axis| known.map_or(1, |known| known.axis(axis))).unwrap_or(1);
    let any = 1 + random.size(axes);
    if random.once_in(8) {
        let outside = cases::outside(random, axes as u64 + 1);
        return random.pick(&[0, 7, outside, outside]);
    }
    random.pick(&[any, longest]) as u64
}

/// A line of more voxels is most often too long for its buffer: in a long image each takes a page of memory.
const LONG: u64 = 1000;

pub fn any(random: &mut Random, file: &[u8], known: Option<&Known>) -> (Call, Other, [Other; 2]) {
    let line = Line { axis: axis(random, known), index: cases::indexes(random, known) };
    let image = cases::image(random, known, false);
    let needed = known.map_or(6, |known| line.length_in(known)) as usize;
    let long = known.is_some_and(|known| line.length_in(known) > LONG * known.voxel_bytes());
    let few = random.size(100);
    let mut room = if long && !random.once_in(40) { Other::Own(random.bytes(few)) } else { turn_cases::room(random, needed) };
    let refused = !line::faults(file, image.length() as u64, &line, room.length() as u64).is_empty();
    // a buffer that may not even be written with the bytes that it has
    if refused && random.once_in(4) {
        room = Other::Zeros(room.length());
    }
    (Call::Line(line), image, [room, Other::none()])
}

pub const FIXED: u64 = EVERY + AXES + OUTSIDE + TOGETHER + LONG_AXES;

/// Each axis of 1 to 7, of every datatype in both orders and kinds; a buffer that is one byte short, that fits or that is longer.
const EVERY: u64 = 28 * DATATYPES.len() as u64 * 2 * 2 * 3;

/// Numbers of an axis, of 1 to 7 axes in both orders and kinds.
const AXES: u64 = 7 * (7 + NO_AXES.len() as u64) * 2 * 2;

/// Each index, at and past the end of its axis, along that axis and along another, of 1 to 7 axes in both kinds.
const OUTSIDE: u64 = 7 * 9 * 2 * 7 * 2;

/// Refusals 16, 17 and 22, each given or not, after each refusal of reading and after none.
pub const TOGETHER: u64 = 8 * 16 * 2 * 8;

/// The longest axis, beside another or alone, of both kinds; a buffer that is one byte short or that fits.
const LONG_AXES: u64 = 3 * 2 * 2;

pub fn fixed(number: u64) -> Case {
    let groups: [(u64, fn(u64) -> Case); 5] =
        [(EVERY, every), (AXES, each_axis), (OUTSIDE, outside), (TOGETHER, |number| together(number).0), (LONG_AXES, long_axes)];
    cases::grouped(number, &groups)
}

pub fn order(big: usize) -> Order {
    if big == 1 {
        Order::Big
    } else {
        Order::Little
    }
}

/// A file of the first so many of these dims and its image, any bytes before and after the voxels: private ones, or those of the
/// image file.
pub fn file(random: &mut Random, order: Order, pair: bool, axes: usize, dims: [i16; 7], datatype: usize) -> (Vec<u8>, Other) {
    let (code, bits, _) = DATATYPES[datatype];
    let mut header = Header::over(random.bytes(348), order, pair).dims(&dims).datatype(code);
    header.set16(40, axes as i16);
    let front = random.size(20);
    let start = if pair { front } else { 352 + front };
    let image_bytes = dims[..axes].iter().map(|&d| d as usize).product::<usize>() * bits as usize / 8;
    let held = front + image_bytes + random.pick(&[0, 0, 1, 9]);
    let (held, header) = (random.bytes(held), header.offset((start as f32).to_bits()));
    let extender = cases::extender(random, 0);
    if pair {
        (header.file(&[&extender]), Other::Own(held))
    } else {
        (header.file(&[&extender, &held]), cases::unread_image(random))
    }
}

/// Indexes inside the first so many axes.
fn inside(random: &mut Random, axes: usize) -> [u64; 7] {
    from_fn(|i| if i < axes { cases::inside(random, LENGTHS[i] as u64) } else { 0 })
}

/// The buffer of any bytes, at an end of its memory or inside it.
fn asked(random: &mut Random, line: Line, (file, image): (Vec<u8>, Other), room: usize) -> Case {
    let room = Other::Own(random.bytes(room));
    let place = cases::place(random, room.length());
    Case { rooms_at: [place, Where::Back], ..Case::filling(Call::Line(line), file, image, [room, Other::none()]) }
}

fn every(number: u64) -> Case {
    let random = &mut Random::new(71, number);
    let [room, pair, big, datatype, place] = digits(number, [3, 2, 2, DATATYPES.len() as u64, 28]);
    let (axes, axis) = (1..=7).flat_map(|axes| (1..=axes).map(move |axis| (axes, axis))).nth(place).unwrap();
    let both = file(random, order(big), pair == 1, axes, LENGTHS, datatype);
    let needed = LENGTHS[axis - 1] as usize * DATATYPES[datatype].1 as usize / 8;
    let more = needed + random.pick(&[1, 2, 9, 40]);
    let line = Line { axis: axis as u64, index: inside(random, axes) };
    asked(random, line, both, [needed - 1, needed, more][room])
}

/// The buffer has room for any of them.
fn each_axis(number: u64) -> Case {
    let random = &mut Random::new(72, number);
    let [pair, big, axes, named] = digits(number, [2, 2, 7, 7 + NO_AXES.len() as u64]);
    let axis = if named < 7 { named as u64 + 1 } else { NO_AXES[named - 7] };
    let both = file(random, order(big), pair == 1, axes + 1, LENGTHS, number as usize % DATATYPES.len());
    let line = Line { axis, index: inside(random, axes + 1) };
    asked(random, line, both, 5 * 32)
}

fn outside(number: u64) -> Case {
    let random = &mut Random::new(73, number);
    let [pair, place, value, own, axes] = digits(number, [2, 7, 9, 2, 7]);
    let axes = axes + 1;
    let length = if place < axes { LENGTHS[place] as u64 } else { 1 };
    let low = length - 1;
    let mut index = inside(random, axes);
    index[place] = [low, length, length + 1, 1 << 8, (1 << 16) + low, 1 << 32, (1 << 32) + low, (1 << 63) + low, MAX][value];
    let axis = if own == 1 && place < axes { place } else { (place + 1) % axes };
    let both = file(random, order(number as usize / 2 % 2), pair == 1, axes, LENGTHS, number as usize % DATATYPES.len());
    asked(random, Line { axis: axis as u64 + 1, index }, both, 5 * 32)
}

fn long_axes(number: u64) -> Case {
    let random = &mut Random::new(74, number);
    let [fits, pair, place] = digits(number, [2, 2, 3]);
    let (axes, axis) = [(1, 1), (2, 1), (2, 2)][place];
    let dims = from_fn(|i| if i + 1 == axis { 32767 } else { 2 });
    let datatype = number as usize % 8;
    let both = file(random, order(fits), pair == 1, axes, dims, datatype);
    let index = from_fn(|i| if i + 1 == axis { 32766 } else { (i < axes) as u64 });
    asked(random, Line { axis: axis as u64, index }, both, 32767 * DATATYPES[datatype].1 as usize / 8 - 1 + fits)
}

/// The kind of a file that reading refuses by this number: no pair is refused by 11 and no single file by 12.
pub fn kind(number: usize, pair: bool) -> bool {
    match number {
        11 => false,
        12 => true,
        _ => pair,
    }
}

/// The file of 3 x 2 x 4 voxels of two bytes and its image, with a fault for which reading refuses it by this number; 0 for none.
pub fn refused(number: usize, order: Order, pair: bool) -> (Vec<u8>, Vec<u8>) {
    let dims: [i16; 3] = if number == 10 { [16384, 16384, 4097] } else { [3, 2, 4] };
    let count = [(13, 0), (14, 2), (15, 65)].iter().find(|row| row.0 == number).map(|row| row.1);
    let note = |i| extension(order, 16, if number == 14 && i == 1 { -1 } else { 4 }, b"one note");
    let region: Vec<u8> = (0..count.unwrap_or(0)).flat_map(note).collect();
    let start = if pair { 2.0 } else { 352.0 + region.len() as f32 };
    let mut header = Header::new(order, pair).dims(&dims).datatype(4).offset(start.to_bits());
    match number {
        2 => header.set16(40, 8),
        3 => header.set32(0, 347),
        4 => header.bytes[344..348].copy_from_slice(b"nil\0"),
        5 => header.set16(44, 0),
        6 => header.set16(70, 3),
        7 => header.set16(72, 8),
        8 => header.set32(108, OFFSET_352 + 0x4000),
        9 => header.set32(108, 0x4d00_0001),
        _ => {}
    }
    let extender = if count.is_some() { EXTENSIONS } else { [0, 7, 7, 7] };
    let voxels: Vec<u8> = (1..=48).collect();
    let image = [&[0x2e; 2], &voxels[..]].concat();
    let mut file = header.file(&[&extender, &region]);
    if !pair {
        file.extend(&voxels);
    }
    file.truncate(match number {
        1 => 347,
        11 => file.len() - 1,
        12 => 350,
        _ => file.len(),
    });
    (file, image)
}

/// A line that each bit of the number gives a fault, 16, 17 and 22, and the numbers of the refusals that hold. A file of no kind
/// and a single file are not refused by 16.
pub fn together(number: u64) -> (Case, Vec<u64>) {
    let random = &mut Random::new(75, number);
    let [bits, reading, pair, _] = digits(number, [8, 16, 2, 8]);
    let pair = kind(reading, pair == 1);
    let short = bits & 1 != 0 && pair && ![1, 4].contains(&reading);
    let (outside, no_room) = (bits & 2 != 0, bits & 4 != 0);
    let (file, image) = refused(reading, random.pick(&[Order::Little, Order::Big]), pair);
    let lengths = [3, 2, 4];
    let mut line = Line { axis: 1 + random.below(3), index: from_fn(|i| lengths.get(i).map_or(0, |&d| random.below(d))) };
    let place = random.size(7);
    if outside && random.once_in(2) {
        let (none, after) = (random.pick(&NO_AXES), 4 + random.below(4));
        line.axis = if reading == 0 { random.pick(&[none, after]) } else { none };
    } else if outside {
        let past = if reading == 0 { lengths.get(place).copied().unwrap_or(1) } else { NO_INDEX };
        line.index[place] = random.pick(&[past, past, 1 << 32, MAX]);
    }
    let needed = 2 * lengths.get((line.axis as usize).wrapping_sub(1)).copied().unwrap_or(1) as usize;
    let room = match (no_room, reading) {
        (true, 0) => random.pick(&[0, needed - 1]),
        (true, _) => 0,
        (false, _) => random.pick(&[needed, needed + 1, 99]),
    };
    let image_len = match (short, reading) {
        (true, 0) => random.pick(&[0, 2, 49]),
        (true, _) => 0,
        (false, _) => 50,
    };
    let holds = [(reading as u64, reading > 0), (16, short), (17, outside), (22, no_room)];
    let case = asked(random, line, (file, Other::Own(image[..image_len].to_vec())), room);
    (case, holds.into_iter().filter(|row| row.1).map(|row| row.0).collect())
}
