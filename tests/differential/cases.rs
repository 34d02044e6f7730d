//! The comparison's inputs: files valid and damaged, the call's arguments at and beside their borders, and where the buffers lie.
//! Everything follows from the seed and the case's number.

use crate::extender_cases::{self, EXTENDERS};
use crate::files::{extension, Header, EXTENSIONS, NO_EXTENSIONS, OFFSET_352};
use crate::library::STATE_WORDS;
use crate::line::Line;
use crate::line_cases;
use crate::memory::Where;
use crate::rank_cases;
use crate::record::Asked;
use crate::record_cases;
use crate::rules::{self, Edit, Known, Order, DATATYPES, REGION, REGION_LIMIT, TOTAL};
use crate::swap_cases;
use crate::turn::Turn;
use crate::turn_cases;
use std::fmt;

/// The most bytes that a lent buffer has: a region that ends at 2^27, an image behind it and some.
pub const LARGEST: usize = REGION_LIMIT as usize + (1 << 16);
/// Zero bytes to lend: a pair's longest image file and some.
pub const ZEROS: usize = (rules::IMAGE_LIMIT + REGION_LIMIT + 4096) as usize;
/// A file of so many bytes is longer than its pieces may come to.
pub const TALLEST: usize = TOTAL as usize + 4096;
/// Bytes to lend that may not be read.
pub const CLOSED: usize = 1 << 20;

/// Steele, Lea and Flood's splitmix64.
pub struct Random(u64);

impl Random {
    pub fn new(seed: u64, number: u64) -> Random {
        let mut random = Random(seed.wrapping_mul(0xd134_2543_de82_ef95) ^ number);
        Random(random.next())
    }

    pub fn next(&mut self) -> u64 {
        self.0 = self.0.wrapping_add(0x9e37_79b9_7f4a_7c15);
        let a = (self.0 ^ self.0 >> 30).wrapping_mul(0xbf58_476d_1ce4_e5b9);
        let b = (a ^ a >> 27).wrapping_mul(0x94d0_49bb_1331_11eb);
        b ^ b >> 31
    }

    pub fn below(&mut self, bound: u64) -> u64 {
        self.next() % bound.max(1)
    }

    pub fn size(&mut self, bound: usize) -> usize {
        self.below(bound as u64) as usize
    }

    /// Once in n.
    pub fn once_in(&mut self, n: u64) -> bool {
        self.below(n) == 0
    }

    pub fn pick<T: Copy>(&mut self, of: &[T]) -> T {
        of[self.size(of.len())]
    }

    pub fn bytes(&mut self, length: usize) -> Vec<u8> {
        (0..length.div_ceil(8)).flat_map(|_| self.next().to_le_bytes()).take(length).collect()
    }
}

/// What is asked. Beside a turn stands another, which follows it in the laws; voxel_in is given a record and no file.
#[derive(Clone, Copy, PartialEq, Debug)]
pub enum Call {
    Read,
    ExtensionAt { number: u64 },
    Voxel { index: [u64; 7] },
    VoxelIn(Asked),
    Line(Line),
    LineByVoxel(Line),
    SliceAt { slice: u64 },
    SliceOfRank { rank: u64 },
    PositionOf { index: [u64; 3] },
    Swap,
    SwapByUnit,
    Append { file_len: u64, code: i32 },
    Replace { file_len: u64, number: u64, code: i32 },
    Remove { file_len: u64, number: u64 },
    Turn { axes: [u64; 3], reverse: [u64; 3], next: Turn },
}

/// The image, an edit's payload, or a buffer to be filled.
#[derive(Clone)]
pub enum Other {
    Own(Vec<u8>),
    /// So many of the zero bytes, which can't be written.
    Zeros(usize),
    /// So many bytes that can't be read: a single file's image, old or new.
    Closed(usize),
}

impl Other {
    pub fn none() -> Other {
        Other::Own(Vec::new())
    }

    pub fn own(&self) -> &[u8] {
        match self {
            Other::Own(bytes) => bytes,
            _ => &[],
        }
    }

    pub fn length(&self) -> usize {
        match *self {
            Other::Own(ref bytes) => bytes.len(),
            Other::Zeros(length) | Other::Closed(length) => length,
        }
    }
}

/// A piece of the file: its length, where it lies, and whether answers are asked for after it.
#[derive(Clone, Copy, PartialEq)]
pub struct Piece {
    pub length: usize,
    pub at: Where,
    pub asked: bool,
}

impl fmt::Debug for Piece {
    fn fmt(&self, f: &mut fmt::Formatter) -> fmt::Result {
        write!(f, "{} {:?}{}", self.length, self.at, if self.asked { " asked" } else { "" })
    }
}

/// How the file is fed in pieces beside the call.
#[derive(Clone, PartialEq, Debug)]
pub enum Feeding {
    Not,
    /// In these pieces. Then states that come from no start are fed and asked: those on the way, with these words changed.
    Pieces {
        pieces: Vec<Piece>,
        words: Vec<(usize, u64)>,
    },
    /// Byte by byte, and in two pieces cut at every place.
    EveryCut,
    /// The file and zeros after it, to the most bytes that pieces come to and beyond.
    ToTotal,
}

/// One call with all that it is given. `main` is the file, or an edit's whole buffer.
#[derive(Clone)]
pub struct Case {
    pub call: Call,
    pub main: Vec<u8>,
    pub other: Other,
    pub main_at: Where,
    pub other_at: Where,
    /// The two buffers that a turn fills, or first the one that a line does.
    pub rooms: [Other; 2],
    pub rooms_at: [Where; 2],
    pub feeding: Feeding,
}

/// Dims whose image is at, just above or far above the limit, or passes 2^32 or 2^64.
pub const LONG_DIMS: [&[i16]; 12] = [
    &[16384, 16384, 4096],
    &[16384, 16384, 4097],
    &[16384, 16384, 2048],
    &[16384, 16384, 1024],
    &[16384, 16384, 512],
    &[16384, 16384, 256, 1, 1, 1, 1],
    &[16384, 16384, 128],
    &[16384, 16384, 16],
    &[32767, 32767, 1024],
    &[16384, 16384, 16384, 16384, 256],
    &[32767, 32767, 32767, 32767, 32767, 32767, 32767],
    &[1, 16384, 2, 16384, 2, 16384, 16384],
];

fn dims(random: &mut Random, voxel_bytes: usize) -> Vec<i16> {
    let axes = 1 + random.size(7);
    let mut room = random.pick(&[256, 1024, 1024, 4096, 16384]) / voxel_bytes;
    let mut dim = || {
        let most = random.pick(&[1, 2, 3, 7, 9, 40]).min(room);
        let d = 1 + random.size(most);
        room /= d;
        d as i16
    };
    (0..axes).map(|_| dim()).collect()
}

fn float(random: &mut Random) -> f32 {
    let special =
        [0.0, -0.0, f32::INFINITY, f32::NEG_INFINITY, f32::NAN, f32::MAX, f32::MIN, f32::MIN_POSITIVE, 1e-45, 2e38, -2e38];
    let sign = random.pick(&[1.0, -1.0]);
    match random.below(4) {
        0 => random.pick(&special),
        1 => f32::from_bits(random.next() as u32),
        2 => sign * random.below(9) as f32,
        _ => sign * f32::from_bits(0x3c00_0000 + random.below(0x0a00_0000) as u32),
    }
}

/// dim_info, slice_code, slice_start, slice_end and slice_duration, most often such that timing is stated.
fn slices(random: &mut Random, header: &mut Header, dims: &[i16]) {
    let longest = (1..=dims.len().min(3)).max_by_key(|&axis| dims[axis - 1]).unwrap_or(1);
    let slice_dim = if random.once_in(5) { random.size(4) } else { longest };
    header.bytes[39] = (random.next() as u8 & 0xcf) | (slice_dim as u8) << 4;
    header.bytes[122] = if random.once_in(8) { random.pick(&[0, 7, 8, 128, 255]) } else { 1 + random.size(6) as u8 };
    let slices = dims.get(slice_dim.wrapping_sub(1)).copied().unwrap_or(5);
    let start = inside(random, slices.max(1) as u64 - 1) as i16;
    let end = start + 1 + inside(random, (slices.max(1) - start) as u64 - 1) as i16;
    let borders = [-32768, -1, 0, start, slices.wrapping_sub(1), slices, slices.wrapping_add(1), 32767];
    header.set16(74, if random.once_in(12) { random.pick(&borders) } else { start });
    header.set16(120, if random.once_in(12) { random.pick(&borders) } else { end });
    let duration = match random.below(4) {
        0 => random.pick(&[0.1, 1e-45, 1e-39, f32::MAX, 1e38, 2e38, f32::MIN_POSITIVE]),
        1 if random.once_in(4) => float(random),
        _ => f32::from_bits(0x3c00_0000 + random.below(0x0a00_0000) as u32),
    };
    header.set32(132, duration.to_bits());
}

/// sform_code and the twelve srow numbers.
pub fn srow(random: &mut Random, header: &mut Header) {
    header.set16(254, if random.once_in(12) { random.pick(&[0, -1, -32768]) } else { random.pick(&[1, 2, 4, 256, 32767]) });
    let manner = random.below(8);
    for number in 0..12 {
        let sign = random.pick(&[1.0, -1.0]);
        let value = match manner {
            0..=1 => {
                let most = if number % 4 == 3 { 8_388_608 } else { 64 };
                sign * inside(random, most + 1) as f32
            }
            2..=3 => sign * f32::from_bits(0x3c00_0000 + random.below(0x0a00_0000) as u32),
            4 => sign * random.below(2) as f32,
            5 => sign * f32::from_bits(0x7d00_0000 + random.below(0x0200_0000) as u32),
            6 if random.once_in(6) => float(random),
            7 => float(random),
            _ => sign * random.below(1000) as f32 / 8.0,
        };
        header.set32(280 + 4 * number, value.to_bits());
    }
}

/// An extender with this first byte. In half of them the reserved bytes are zeros.
pub fn extender(random: &mut Random, first: u8) -> [u8; 4] {
    let [any, other, last] = [0; 3].map(|_| random.next() as u8);
    let reserved = random.pick(&[[0, 0, 7], [9, 9, 9], [1, 2, 3], [0, 0, 1], [1, 0, 0], [255, 255, 255], [any, other, last]]);
    let [a, b, c] = if random.once_in(2) { [0; 3] } else { reserved };
    [first, a, b, c]
}

/// The extender and what follows it in the region.
fn region(random: &mut Random, order: Order) -> Vec<u8> {
    if random.once_in(3) {
        let private = if random.once_in(2) { 0 } else { random.size(70) };
        return [&extender(random, 0)[..], &random.bytes(private)].concat();
    }
    let count = random.pick(&[1, 1, 1, 2, 2, 3, 4, 8, 30, 63, 64, 64, 65]);
    let any = 1 + random.below(255) as u8;
    let first = random.pick(&[1, 1, 1, 2, 128, 255, any]);
    let mut region = extender(random, first).to_vec();
    for _ in 0..count {
        let size = if random.once_in(20) { 16 * (1 + random.size(200)) } else { 16 * (1 + random.size(3)) };
        let any = random.next() as i32 & i32::MAX;
        let code = random.pick(&[0, 2, 4, 6, 12, 1, i32::MAX, any]);
        region.extend(extension(order, size as i32, code, &random.bytes(size - 8)));
    }
    region
}

/// A file that is accepted, but for a 65th extension and, once in a while, an image that is too long.
fn valid_file(random: &mut Random) -> Vec<u8> {
    let order = random.pick(&[Order::Little, Order::Big]);
    let pair = random.once_in(2);
    let (datatype, bits, _) = random.pick(&DATATYPES);
    let voxel_bytes = bits as usize / 8;
    let long = random.once_in(if pair { 16 } else { 64 });
    let dims = if long { random.pick(&LONG_DIMS).to_vec() } else { dims(random, voxel_bytes) };
    let unused = if random.once_in(2) { random.bytes(348) } else { Vec::new() };
    let mut header = Header::over(unused, order, pair).dims(&dims).datatype(datatype);
    slices(random, &mut header, &dims);
    srow(random, &mut header);
    let region = region(random, order);
    if pair {
        let small = (random.below(600) as f32).to_bits();
        // every second multiple of 8 is none of 16, and so is the last binary32 before 2^27
        let eights = (8.0 * random.below(75) as f32).to_bits();
        let far = random.pick(&[0x4cff_ffff, 0x4d00_0000]);
        let offset = random.pick(&[0, 0, 0x8000_0000, OFFSET_352, 0x4180_0000, far, small, small, eights]);
        let length = if random.once_in(4) { random.pick(&[0, 0, 0, 0, 4, 4, 1, 2, 3]) } else { region.len() };
        return header.offset(offset).file(&[&region[..length]]);
    }
    let image_bytes = if long { 12 } else { dims.iter().map(|&d| d as usize).product::<usize>() * voxel_bytes };
    let after = if random.once_in(2) { 0 } else { random.size(40) };
    let offset = (348 + region.len()) as f32;
    let image = random.bytes(image_bytes + after);
    header.offset(offset.to_bits()).file(&[&region, &image])
}

/// Offsets at and beside every border: 0, -0, 1, 351, 352, 353, 352.5, 2^24, 2^27 and its neighbours, the largest, infinity, NaN,
/// the least subnormal, -1, -0.5.
const OFFSETS: [u32; 24] = [
    0, 0x8000_0000, 0x3f80_0000, 0x43af_8000, 0x43b0_0000, 0x43b0_8000, 0x43b0_4000, 0x43af_ffff, 0x43b0_0001, 0x4b7f_ffff,
    0x4b80_0000, 0x4cff_ffff, 0x4d00_0000, 0x4d00_0001, 0x7f7f_ffff, 0x7f80_0000, 0xff80_0000, 0x7fc0_0000, 0x7f80_0001, 1,
    0x8000_0001, 0xbf80_0000, 0xbf00_0000, 0x3f00_0000,
];

const DATATYPES_REFUSED: [i16; 14] = [0, 1, 3, 5, 255, 257, 127, 129, 2303, 2305, 2560, -2, -32768, 32767];

/// Sizes of an extension at and beside their borders.
const SIZES: [u32; 12] = [0, 1, 8, 15, 16, 17, 24, 32, 0xffff_fff0, 0x8000_0000, 0x7fff_fff0, 0x7fff_ffff];

const CODES: [i32; 8] = [0, 2, 4, 6, i32::MAX, i32::MAX - 1, 1, 40];

/// Where an extension may begin, in a file of either order, damaged or not.
fn some_extension(random: &mut Random, file: &[u8], order: Order) -> usize {
    let mut start = REGION as usize;
    for _ in 0..random.size(66) {
        if start + 4 > file.len() {
            break;
        }
        let size = rules::i32_at(file, start, order);
        if size <= 0 || start + size as usize + 8 > file.len() {
            break;
        }
        start += size as usize;
    }
    start
}

fn set(file: &mut [u8], at: usize, bytes: &[u8]) {
    if let Some(field) = file.get_mut(at..at + bytes.len()) {
        field.copy_from_slice(bytes);
    }
}

fn set16(file: &mut [u8], at: usize, value: i16, order: Order) {
    set(file, at, &if order == Order::Little { value.to_le_bytes() } else { value.to_be_bytes() });
}

fn set32(file: &mut [u8], at: usize, value: u32, order: Order) {
    set(file, at, &rules::bytes_of_u32(value, order));
}

/// One fault, or one field moved to a border that may be none.
fn damage(random: &mut Random, file: &mut Vec<u8>) {
    let order = if file.get(40) == Some(&0) { Order::Big } else { Order::Little };
    let borders = [-32768, -1, 0, 1, 2, 7, 8, 255, 256, 257, 0x0107, 0x0700, 1792, 32767];
    match random.below(16) {
        0 => {
            let at = random.size(file.len().min(352));
            file[at..].iter_mut().take(1).for_each(|byte| *byte ^= 1 << random.below(8));
        }
        1 => {
            let at = random.size(file.len());
            file[at..].iter_mut().take(1).for_each(|byte| *byte = random.next() as u8);
        }
        2 => file.truncate(random.size(file.len() + 1)),
        3 => file.truncate(random.pick(&[0, 1, 347, 348, 349, 350, 351, 352, 353, 359, 360, 363, 367, 368])),
        4 => file.truncate(file.len().saturating_sub(1 + random.size(20))),
        5 => {
            let more = 1 + random.size(20);
            file.extend(random.bytes(more));
        }
        6 => set16(file, 40, random.pick(&borders), order),
        7 => set32(file, 0, random.pick(&[0, 347, 349, 540, 348 << 16, 0x5c01_0000, 0x8000_015c]), order),
        8 => set(file, 344, random.pick(&[b"n+1\0", b"ni1\0", b"n+2\0", b"nil\0", b"n+1 ", b"\0\0\0\0", b"n+1\x01", b"N+1\0"])),
        9 => {
            let at = 40 + 2 * (1 + random.size(7));
            set16(file, at, random.pick(&borders), order);
        }
        10 => set16(file, 70, random.pick(&DATATYPES_REFUSED), order),
        11 => {
            let at = random.pick(&[70, 72]);
            set16(file, at, random.pick(&[2, 4, 8, 16, 24, 32, 64, 128, 256, 512, 768, 1024, 1536, -8, 0]), order);
        }
        12 => set32(file, 108, random.pick(&OFFSETS), order),
        13 => set(file, 348, &random.pick(&EXTENDERS)),
        14 => {
            let start = some_extension(random, file, order);
            let left = file.len().saturating_sub(start) as u32;
            let near = [left, left & !15, (left & !15) + 16];
            let size = if random.once_in(4) { random.pick(&near) } else { random.pick(&SIZES) };
            set32(file, start, size, order);
        }
        _ => {
            let start = some_extension(random, file, order);
            set32(file, start + 4, random.pick(&[0xffff_ffff, 0x8000_0000, 0x8000_0001, 0x7fff_ffff, 0]), order);
        }
    }
}

/// A file, in two of five cases damaged.
pub fn file(random: &mut Random) -> Vec<u8> {
    if random.once_in(400) {
        let length = random.size(500);
        return random.bytes(length);
    }
    let mut file = valid_file(random);
    if random.below(5) < 2 {
        for _ in 0..1 + random.size(2) {
            damage(random, &mut file);
        }
    }
    file
}

/// A file for a call that names an extension: most often it has some.
fn extended_file(random: &mut Random) -> Vec<u8> {
    let first = file(random);
    match rules::read(&first) {
        Ok(known) if known.spans.is_empty() && !random.once_in(4) => extended_file(random),
        _ => first,
    }
}

/// A number below the bound, now and then its last.
pub fn inside(random: &mut Random, bound: u64) -> u64 {
    let any = random.below(bound);
    random.pick(&[0, bound.saturating_sub(1), any, any])
}

/// A number at or past the bound, some of which a narrower number would take for one below it.
pub fn outside(random: &mut Random, bound: u64) -> u64 {
    let low = random.below(bound);
    random.pick(&[bound, bound + 1, (1 << 16) + low, (1 << 32) + low, 1 << 32, 1 << 63, (1 << 63) + low, u64::MAX])
}

pub fn number(random: &mut Random, bound: u64) -> u64 {
    if bound == 0 || random.once_in(4) {
        outside(random, bound)
    } else {
        inside(random, bound)
    }
}

/// Indexes for the first axes; in one case of four one is outside its axis.
pub fn indexes<const N: usize>(random: &mut Random, known: Option<&Known>) -> [u64; N] {
    let lengths: [u64; N] = std::array::from_fn(|i| known.map_or(3, |known| known.axis(i + 1)));
    let mut index = lengths.map(|length| inside(random, length));
    if random.once_in(4) {
        let axis = random.size(N);
        index[axis] = outside(random, lengths[axis]);
    }
    index
}

/// Own bytes for an image, or bytes that a single file's call must leave alone.
pub fn unread_image(random: &mut Random) -> Other {
    let length = random.size(100);
    match random.below(3) {
        0 => Other::Own(Vec::new()),
        1 => Other::Own(random.bytes(length)),
        _ => Other::Closed(random.pick(&[0, 1, length, CLOSED])),
    }
}

pub fn image(random: &mut Random, known: Option<&Known>, written: bool) -> Other {
    let Some(known) = known else {
        let length = random.size(100);
        return Other::Own(random.bytes(length));
    };
    if !known.pair {
        return unread_image(random);
    }
    let need = known.offset + known.image_bytes;
    let (more, fewer) = (need + 1 + random.below(40), random.below(need));
    let length = random.pick(&[need, need, need, need, need + 1, more, need - 1, fewer, 0]) as usize;
    if length <= 20_000 {
        Other::Own(random.bytes(length))
    } else if written {
        Other::Own(random.bytes(length % 1000))
    } else {
        Other::Zeros(length)
    }
}

/// Payloads whose stored size is past 2^27, or at or past what 31 or 32 bits hold.
const LONG_PAYLOADS: [u64; 6] = [1 << 27, (1 << 31) - 24, (1 << 31) - 8, 1 << 31, (1 << 32) - 8, (1 << 32) + 5];

/// Payloads up to 40 bytes, longer ones, and, without touching them, ones that would end the region at or past 2^27.
/// `replaced` is the size of the extension that makes room.
fn payload(random: &mut Random, file: &[u8], replaced: u64) -> Other {
    if random.once_in(12) {
        let listed: u64 = rules::read(file).map_or(0, |known| known.spans.iter().map(|span| span.size as u64).sum());
        let fits = REGION_LIMIT - REGION - 8 - (listed - replaced);
        let near = [fits, fits, fits + 1, fits + 16, fits - 15];
        let length = if random.once_in(2) { random.pick(&near) } else { random.pick(&LONG_PAYLOADS) };
        return Other::Zeros(length as usize);
    }
    let length = if random.once_in(10) { random.size(3000) } else { random.size(41) };
    Other::Own(random.bytes(length))
}

/// A buffer that holds the file, and the stated length. Most often the result fits exactly or by some bytes; else it is one byte too
/// long, or no byte is spare. Once in a while the stated length is not the file's.
fn buffer(random: &mut Random, file: Vec<u8>, edit: &Edit) -> (Vec<u8>, u64) {
    let length = file.len();
    let roomy = match *edit {
        Edit::Append { payload, .. } | Edit::Replace { payload, .. } if payload.len() < 10_000 => length + payload.len() + 32,
        _ => length,
    };
    let mut main = file;
    main.resize(roomy, 0);
    let needed = rules::edit(&main, length as u64, edit).map_or(length, |done| done.1 as usize);
    main.truncate(length);
    let spare = random.size(100);
    let one_short = needed.saturating_sub(1);
    let whole = random.pick(&[needed, needed, needed, needed + spare, needed + spare, one_short, length, length + spare]);
    let rest = random.bytes(whole.saturating_sub(length));
    main.extend(rest);
    let whole = main.len() as u64;
    let stated = match random.below(24) {
        0 => random.pick(&[whole + 1, whole + 16, (1 << 32) + length as u64, 1 << 63, u64::MAX]),
        1 => random.below(length as u64 + 1),
        2 => (length as u64).saturating_sub(1 + random.below(20)),
        3 => whole,
        _ => length as u64,
    };
    (main, stated)
}

fn code(random: &mut Random) -> i32 {
    if random.once_in(10) {
        random.pick(&[-1, i32::MIN, i32::MIN + 1, -16])
    } else {
        random.pick(&CODES)
    }
}

pub fn place(random: &mut Random, length: usize) -> Where {
    match random.below(4) {
        0 if length == 0 => Where::Null,
        0 => Where::Front,
        1 | 2 => Where::Back,
        _ => Where::Inside(64 + random.size(17)),
    }
}

/// Places beside which a piece may end: the header's end, the region's, the image's, and the first and the ninth byte of each
/// extension.
pub fn borders(file: &[u8]) -> Vec<usize> {
    let mut borders = vec![348, REGION as usize];
    if let Ok((known, _)) = rules::walked(file) {
        borders.extend([known.offset as usize, (known.offset + known.image_bytes) as usize]);
        borders.extend(known.spans.iter().flat_map(|span| [span.start as usize + 8, span.end() as usize]));
    }
    borders
}

/// Pieces that make up the file: all of 256 bytes, or of one, or of any lengths, none too, many of them ending beside a border.
fn pieces(random: &mut Random, file: &[u8]) -> Vec<Piece> {
    let borders = borders(file);
    let same = match random.below(8) {
        0 => Some(256),
        1 if file.len() < 2000 => Some(1),
        _ => None,
    };
    let often = random.pick(&[2, 4, 16]);
    let mut pieces = Vec::new();
    let mut begin = 0;
    while begin < file.len() || random.once_in(4) {
        let left = file.len() - begin;
        let beside = (random.pick(&borders) + random.size(3)).saturating_sub(begin + 1);
        let (few, more) = (2 + random.size(20), random.size(600));
        let any = random.pick(&[0, 1, few, few, more, 256, 65_536, left, beside, beside, beside, beside]);
        let length = same.unwrap_or(any).min(left);
        pieces.push(Piece { length, at: place(random, length), asked: random.once_in(often) });
        begin += length;
    }
    pieces
}

/// The words of a state of reading in pieces where its members begin, the marks after them.
const TAKEN: usize = 0;
const FRONT: usize = 1;
const AT: usize = 45;
const COUNT: usize = 46;
const COMING: usize = 47;

/// Words to change a state by: some, vox_offset or the extender in the front among them, or all.
fn words(random: &mut Random) -> Vec<(usize, u64)> {
    if random.once_in(16) {
        let taken = random.below(2 * TOTAL);
        return (0..STATE_WORDS).map(|word| (word, if word == TAKEN { taken } else { random.next() })).collect();
    }
    let any = random.next();
    let values = [0, 1, 63, 64, 65, 255, 256, 348, 351, 352, 353, 360, 368, 1 << 31, 1 << 32, 1 << 63, u64::MAX, u64::MAX - 7, any];
    let limits = [REGION_LIMIT, REGION_LIMIT + 1, TOTAL, TOTAL - 1, TOTAL - 300, TOTAL + 1, u64::MAX - TOTAL];
    (0..1 + random.size(4))
        .map(|_| {
            let anywhere = random.size(STATE_WORDS);
            let word = random.pick(&[TAKEN, AT, AT, COUNT, COUNT, COMING, FRONT + 108 / 8, FRONT + 348 / 8, anywhere]);
            (word, if random.once_in(3) { random.pick(&limits) } else { random.pick(&values) })
        })
        .collect()
}

fn other_bytes<'a>(other: &'a Other, zeros: &'a [u8]) -> &'a [u8] {
    match other {
        Other::Own(bytes) => bytes,
        Other::Zeros(length) => &zeros[..*length],
        Other::Closed(_) => &[],
    }
}

impl Case {
    /// How long the buffers are that a turn or a line fills.
    pub fn room(&self) -> [u64; 2] {
        [0, 1].map(|i: usize| self.rooms[i].length() as u64)
    }

    /// The image or payload, as the rules see it.
    pub fn other<'a>(&'a self, zeros: &'a [u8]) -> &'a [u8] {
        other_bytes(&self.other, zeros)
    }

    pub fn at(call: Call, main: Vec<u8>, other: Other) -> Case {
        Case::filling(call, main, other, [Other::none(), Other::none()])
    }

    pub fn filling(call: Call, main: Vec<u8>, other: Other, rooms: [Other; 2]) -> Case {
        let (main_at, other_at, rooms_at) = (Where::Back, Where::Back, [Where::Back; 2]);
        Case { call, main, other, main_at, other_at, rooms, rooms_at, feeding: Feeding::Not }
    }

    pub fn fed(main: Vec<u8>, feeding: Feeding) -> Case {
        Case { feeding, ..Case::at(Call::Read, main, Other::none()) }
    }

    /// The case of this number.
    pub fn new(seed: u64, number_of_case: u64, zeros: &[u8]) -> Case {
        let random = &mut Random::new(seed, number_of_case);
        let call = random.below(34);
        if call > 30 {
            return record_cases::case(record_cases::any(random));
        }
        let file = match call {
            2 | 16..=19 => extended_file(random),
            20..=24 => turn_cases::file(random),
            7 | 28.. => rank_cases::file(random),
            _ => file(random),
        };
        let known = rules::read(&file).ok();
        let known = known.as_ref();
        let none = Other::none();
        let mut rooms = [Other::none(), Other::none()];
        let count = known.map_or(0, |known| known.spans.len() as u64);
        let (call, main, other) = match call {
            0 | 1 => (Call::Read, file, none),
            2 => (Call::ExtensionAt { number: number(random, count) }, file, none),
            3..=5 => (Call::Voxel { index: indexes(random, known) }, file, image(random, known, false)),
            6 | 7 => (Call::SliceAt { slice: slice(random, &file, known) }, file, none),
            8 | 9 => (Call::PositionOf { index: indexes(random, known) }, file, none),
            10..=12 => (Call::Swap, file, image(random, known, true)),
            13..=15 => append(random, file, zeros),
            16..=18 => replace(random, file, known, zeros),
            28.. => (rank_cases::any(random, &file, known), file, none),
            20.. => {
                let any = if call < 25 { turn_cases::any } else { line_cases::any };
                let (call, other, filled) = any(random, &file, known);
                rooms = filled;
                (call, file, other)
            }
            _ => {
                let number = number(random, count);
                let (main, file_len) = buffer(random, file, &Edit::Remove { number });
                (Call::Remove { file_len, number }, main, none)
            }
        };
        let main_at = place(random, main.len());
        let other_at = place(random, other_bytes(&other, zeros).len());
        let rooms_at = [0, 1].map(|room: usize| place(random, rooms[room].own().len()));
        let feeding = match call {
            Call::Read | Call::ExtensionAt { .. } => Feeding::Pieces { pieces: pieces(random, &main), words: words(random) },
            _ => Feeding::Not,
        };
        Case { call, main, other, main_at, other_at, rooms, rooms_at, feeding }
    }
}

fn append(random: &mut Random, file: Vec<u8>, zeros: &[u8]) -> (Call, Vec<u8>, Other) {
    let code = code(random);
    let other = payload(random, &file, 0);
    let (main, file_len) = buffer(random, file, &Edit::Append { code, payload: other_bytes(&other, zeros) });
    (Call::Append { file_len, code }, main, other)
}

fn replace(random: &mut Random, file: Vec<u8>, known: Option<&Known>, zeros: &[u8]) -> (Call, Vec<u8>, Other) {
    let spans = known.map_or(&[][..], |known| &known.spans);
    let number = number(random, spans.len() as u64);
    let code = code(random);
    let old = usize::try_from(number).ok().and_then(|number| spans.get(number)).map_or(0, |span| span.size as u64);
    let other = payload(random, &file, old);
    let (main, file_len) = buffer(random, file, &Edit::Replace { number, code, payload: other_bytes(&other, zeros) });
    (Call::Replace { file_len, number, code }, main, other)
}

/// A slice of the file's slice axis, or one outside it.
fn slice(random: &mut Random, file: &[u8], known: Option<&Known>) -> u64 {
    let slices = known.map_or(3, |known| known.axis(1 + (file[39] >> 4 & 3).saturating_sub(1) as usize));
    number(random, slices)
}

/// The cases that hang on no seed, and come first.
pub const FIXED: u64 = RANKS + rank_cases::FIXED + record_cases::FIXED + extender_cases::FIXED + turn_cases::FIXED;

/// The cases at 2^27 and 2^40, which take up to half a gigabyte while they run; the files that are cut at every place; those that
/// are fed up to 2^41 bytes.
pub const LARGE: u64 = 27;
const CUT: u64 = 22;
const TALL: u64 = 13;

/// The first case of each number of units, the first line and the first rank, among those that hang on no seed.
pub const SWAPS: u64 = LARGE + CUT + TALL;
pub const LINES: u64 = SWAPS + swap_cases::FIXED;
pub const RANKS: u64 = LINES + line_cases::FIXED;

pub fn fixed(number: u64) -> Case {
    let groups: [(u64, fn(u64) -> Case); 9] = [
        (LARGE, large),
        (CUT, |number| Case::fed(cut_everywhere(number), Feeding::EveryCut)),
        (TALL, |number| Case::fed(tall(number), Feeding::ToTotal)),
        (swap_cases::FIXED, swap_cases::fixed),
        (line_cases::FIXED, line_cases::fixed),
        (rank_cases::FIXED, rank_cases::fixed),
        (record_cases::FIXED, record_cases::fixed),
        (extender_cases::FIXED, extender_cases::fixed),
        (turn_cases::FIXED, turn_cases::fixed),
    ];
    grouped(number, &groups)
}

/// What the number names in groups that follow one another, each with its count.
pub fn grouped<T>(number: u64, groups: &[(u64, fn(u64) -> T)]) -> T {
    let mut rest = number;
    for &(count, group) in groups {
        if rest < count {
            return group(rest);
        }
        rest -= count;
    }
    panic!("no case {number}");
}

/// Extensions of these sizes and codes, joined.
fn extensions(order: Order, list: &[(i32, i32)]) -> Vec<u8> {
    list.iter().flat_map(|&(size, code)| extension(order, size, code, &vec![0x2e; (size.clamp(8, 4096) - 8) as usize])).collect()
}

/// A pair's header file whose region is these bytes.
fn pair_over(order: Order, region: &[u8]) -> Vec<u8> {
    Header::new(order, true).dims(&[3, 2]).datatype(4).file(&[&EXTENSIONS, region])
}

/// A single file whose region is these bytes, or only what stands before its image.
fn single_over(order: Order, region: &[u8]) -> Header {
    Header::new(order, false).dims(&[3, 2]).datatype(4).offset(((REGION as usize + region.len()) as f32).to_bits())
}

fn whole_single(order: Order, region: &[u8]) -> Vec<u8> {
    single_over(order, region).file(&[&EXTENSIONS, region, &[0x77; 15]])
}

/// Files in which an answer of the bytes so far is another than that of the whole, or one rule is broken before another is known to
/// be: in a single file 11 goes before all that its extensions do wrong, and in a pair an extension that has not come whole is 13,
/// whatever its code.
fn cut_everywhere(number: u64) -> Vec<u8> {
    use Order::{Big, Little};
    let many = |count| vec![(16, 2); count];
    match number {
        0 => crate::files::file_a(),
        1 => pair_over(Big, &extensions(Big, &[(16, 0), (48, 2), (32, 4)])),
        2 => whole_single(Little, &extensions(Little, &[(32, 6), (16, i32::MAX)])),
        // 11, then 13, 14 and 15
        3 => whole_single(Big, &extensions(Big, &[(16, 0), (24, 2)])),
        4 => whole_single(Little, &extensions(Little, &[(32, 0), (32, -1)])),
        5 => whole_single(Big, &extensions(Big, &many(65))),
        // 13, then 14; then 13 for good, as the size passes the end
        6 => pair_over(Little, &extensions(Little, &[(16, 0), (48, -1)])),
        7 => pair_over(Big, &extensions(Big, &[(48, i32::MIN), (16, 0)])),
        8 => pair_over(Little, &extensions(Little, &[(16, 0), (48, -1)])[..48]),
        // 15 at a byte of a 65th, whatever it holds
        9 => pair_over(Big, &extensions(Big, &many(65))),
        10 => pair_over(Little, &[extensions(Little, &many(64)), vec![0xff; 8]].concat()),
        // reserved bytes; of a pair 12 before they have come
        11 => single_over(Little, &[0; 16]).file(&[&[1, 0, 0, 7], &extensions(Little, &[(16, 0)]), &[0x77; 12]]),
        12 => Header::new(Big, true).dims(&[3, 2]).datatype(4).file(&[&[2, 9, 9, 9], &extensions(Big, &[(16, 0), (32, -1)])]),
        // fewer than 8, and fewer than 16 bytes before the image, which are no extension
        13 => whole_single(Little, &[extensions(Little, &[(16, 0)]), vec![16, 0, 0]].concat()),
        14 => whole_single(Big, &[extensions(Big, &[(16, 0)]), vec![0, 0, 0, 16, 0, 0, 0, 2, 5, 5, 5, 5, 5]].concat()),
        // a size that passes the region's end and not the file's
        15 => single_over(Big, &[0; 16]).file(&[&EXTENSIONS, &extensions(Big, &[(32, 0)]), &[0x77; 4]]),
        // private bytes that look like an extension
        16 => single_over(Little, &[0; 16]).file(&[&NO_EXTENSIONS, &extensions(Little, &[(16, 3)]), &[0x77; 12]]),
        17 => Header::new(Big, true).dims(&[3, 2]).datatype(4).file(&[&NO_EXTENSIONS, &extensions(Big, &[(16, 3)])]),
        18 => single_over(Big, &[0; 16]).file(&[&[0, 1, 2, 3], &extensions(Big, &[(16, 3)]), &[0x77; 12]]),
        19 => Header::new(Little, true).dims(&[3, 2]).datatype(4).file(&[&[0, 1, 2, 3], &extensions(Little, &[(16, 3)])]),
        // an empty region
        20 => whole_single(Big, &[]),
        _ => pair_over(Little, &[]),
    }
}

/// Fronts of files that zeros follow up to 2^41 bytes. A pair's is too long past 2^27 whatever its extensions are, and a single
/// file's with the longest image too short for it below 2^40 and some.
fn tall(number: u64) -> Vec<u8> {
    use Order::{Big, Little};
    let full = (REGION_LIMIT - REGION) as i32;
    let longest = |order, list: &[(i32, i32)]| {
        let region = extensions(order, list);
        single_over(order, &region).dims(&[16384, 16384, 4096]).datatype(2).file(&[&EXTENSIONS, &region])
    };
    let head = |order, size, code| extension(order, size, code, &[]);
    match number {
        0 => crate::files::file_a(),
        1 => longest(Little, &[(16, 0), (48, 2)]),
        2 => longest(Big, &[(16, 0), (24, 2)]),
        3 => longest(Little, &[(16, 0), (32, -1)]),
        4 => longest(Big, &vec![(16, 0); 65]),
        5 => single_over(Big, &[]).offset(0x4d00_0000).file(&[&EXTENSIONS, &head(Big, full, 6)]),
        6 => pair_over(Little, &head(Little, full, 6)),
        7 => pair_over(Big, &extensions(Big, &[(16, 0), (32, -1)])),
        8 => pair_over(Little, &extensions(Little, &[(24, 0)])),
        9 => pair_over(Big, &extensions(Big, &vec![(16, 0); 65])),
        10 => pair_over(Little, &head(Little, 0x7fff_fff0, 6)),
        11 => Header::new(Little, true).dims(&[3, 2]).datatype(4).file(&[&[255, 1, 2, 3], &head(Little, full, 6)]),
        _ => Header::new(Big, true).dims(&[3, 2]).datatype(4).bytes,
    }
}

/// A single file with one extension whose region ends at 2^27, and twelve image bytes.
fn single_at_limit(order: Order) -> Vec<u8> {
    let size = (REGION_LIMIT - REGION) as usize;
    let mut file = Header::new(order, false).dims(&[3, 2]).datatype(4).offset(0x4d00_0000).file(&[&EXTENSIONS]);
    file.extend(extension(order, size as i32, 6, b"a note"));
    file.resize(REGION_LIMIT as usize, 0x2e);
    file.extend(1..=12);
    file
}

/// A pair's header file of so many bytes with a zero extender, all but its header private.
fn long_pair(length: u64) -> Vec<u8> {
    let mut file = Header::new(Order::Big, true).dims(&[16384, 16384, 4096]).datatype(2).offset(0x4d00_0000).bytes;
    file.resize(length as usize, 0);
    file
}

fn large(number: u64) -> Case {
    let none = Other::none;
    let most = (REGION_LIMIT - REGION - 8) as usize;
    let full = REGION_LIMIT + 12;
    let a = |length: usize| {
        let mut buffer = crate::files::file_a();
        buffer.resize(length, 0x77);
        buffer
    };
    let last = [16383, 16383, 4095, 0, 0, 0, 0];
    let pair_image = (rules::IMAGE_LIMIT + REGION_LIMIT) as usize;
    let line = |axis, index, main, other, room| {
        Case::filling(Call::Line(Line { axis, index }), main, other, [Other::Own(vec![0x77; room]), none()])
    };
    match number {
        0 => Case::at(Call::Read, long_pair(REGION_LIMIT), none()),
        1 => Case::at(Call::Read, long_pair(REGION_LIMIT + 1), none()),
        2 => Case::at(Call::Append { file_len: REGION_LIMIT, code: 6 }, long_pair(REGION_LIMIT), none()),
        3 => Case::at(Call::Voxel { index: last }, long_pair(348), Other::Zeros(pair_image)),
        4 => Case::at(Call::Voxel { index: last }, long_pair(348), Other::Zeros(pair_image - 1)),
        5 => Case::at(Call::Voxel { index: [0, 0, 4096, 0, 0, 0, 0] }, long_pair(348), Other::Zeros(pair_image)),
        6 => Case::at(Call::Read, single_at_limit(Order::Little), none()),
        7 => Case::at(Call::ExtensionAt { number: 0 }, single_at_limit(Order::Big), none()),
        8 => Case::at(Call::Swap, single_at_limit(Order::Big), none()),
        9 => Case::at(Call::Voxel { index: [2, 1, 0, 0, 0, 0, 0] }, single_at_limit(Order::Big), none()),
        10 => Case::at(Call::Append { file_len: full, code: 6 }, single_at_limit(Order::Little), none()),
        11 => Case::at(Call::Remove { file_len: full, number: 0 }, single_at_limit(Order::Big), none()),
        12 => Case::at(Call::Replace { file_len: full, number: 0, code: 4 }, single_at_limit(Order::Little), Other::Zeros(most)),
        13 => Case::at(Call::Replace { file_len: full, number: 0, code: 4 }, single_at_limit(Order::Big), Other::Zeros(most + 1)),
        14 => Case::at(Call::Replace { file_len: full, number: 0, code: 4 }, single_at_limit(Order::Big), Other::Own(vec![9; 5])),
        15 => Case::at(Call::Append { file_len: 364, code: 6 }, a(full as usize), Other::Zeros(most)),
        16 => Case::at(Call::Append { file_len: 364, code: 6 }, a(full as usize - 1), Other::Zeros(most)),
        17 => Case::at(Call::Append { file_len: 364, code: 6 }, a(full as usize), Other::Zeros(most + 1)),
        18 => Case::at(Call::Append { file_len: 364, code: 6 }, a(full as usize - 16), Other::Zeros(most - 16)),
        19 => Case::at(Call::Append { file_len: 352, code: 6 }, long_pair(REGION_LIMIT), Other::Zeros(most)),
        20 => Case::at(Call::Append { file_len: 348, code: 6 }, long_pair(REGION_LIMIT), Other::Zeros(most + 1)),
        21 => Case::at(Call::Swap, long_pair(348), none()),
        22 => line(1, last, long_pair(348), Other::Zeros(pair_image), 16384),
        23 => line(3, last, long_pair(348), Other::Zeros(pair_image), 4097),
        24 => line(3, last, long_pair(348), Other::Zeros(pair_image), 4095),
        25 => line(3, last, long_pair(348), Other::Zeros(pair_image - 1), 4096),
        _ => line(2, [2, 0, 0, 0, 0, 0, 0], single_at_limit(Order::Big), none(), 4),
    }
}
