//! Files whose steps are read, and records for voxel_in (02-change-requests.md, P4): as reading answers them, and with members that
//! reading never leaves so. Files whose offset is a multiple of 16, and files whose offset is not (P6). First come those that hang
//! on no seed.

use crate::cases::{self, Call, Case, Feeding, Other, Piece, Random};
use crate::extender_cases::digits;
use crate::file_answer;
use crate::files::{extension, Header, EXTENSIONS, NO_EXTENSIONS};
use crate::library::FileAnswer;
use crate::memory::Where;
use crate::record::Asked;
use crate::rules::{self, Order, DATATYPES, IMAGE_LIMIT, REGION_LIMIT};
use std::array::from_fn;

const MAX: u64 = u64::MAX;

/// Numbers of a record's own refusal, and of its place: of the table, of none, and such that a narrower number would take for 0.
const OWN: [u64; 12] = [1, 2, 5, 9, 16, 17, 26, 77, 1 << 8, 1 << 32, 1 << 63, MAX];
/// Numbers of axes that are none.
const NO_AXES: [i16; 10] = [0, -1, 8, 9, 256, 257, 263, 0x0700, -32768, 32767];
const OFFSETS: [u64; 12] =
    [0, 1, 351, 352, 353, REGION_LIMIT - 1, REGION_LIMIT, REGION_LIMIT + 1, (1 << 32) + 352, 1 << 63, MAX - 351, MAX];
/// Whatever is not 0 is a pair.
const PAIRS: [u32; 6] = [0, 1, 2, 256, 1 << 31, u32::MAX];
const DIMS: [i16; 12] = [-32768, -1, 0, 1, 2, 3, 7, 8, 255, 256, 257, 32767];

/// The lengths of the axes that there are.
const LENGTHS: [i16; 7] = [3, 2, 4, 2, 3, 2, 5];

/// A record of so many axes, none of one voxel, as reading answers it, asked for its last voxel. Entries after dim[0] are 1.
fn right(pair: bool, axes: usize, datatype: usize) -> Asked {
    let (datatype, bitpix, _) = DATATYPES[datatype];
    let dim = from_fn(|i| match i {
        0 => axes as i16,
        _ if i <= axes => LENGTHS[i - 1],
        _ => 1,
    });
    let data_bytes = dim[1..].iter().map(|&d| d as u64).product::<u64>() * bitpix as u64 / 8;
    let record = FileAnswer {
        data_offset: if pair { 7 } else { 368 },
        data_bytes,
        pair: pair as u32,
        dim,
        datatype,
        bitpix,
        extensions: 1,
        step: rules::steps(&dim, bitpix, data_bytes),
        aligned: !pair as u32,
        ..FileAnswer::default()
    };
    let mut asked = Asked { record, image_len: 0, index: [0; 7] };
    asked.index = last(&asked);
    fitted(asked)
}

fn last(asked: &Asked) -> [u64; 7] {
    from_fn(|i| asked.axis(i + 1).max(1) - 1)
}

/// A number of 64 bits, the most of them where it is past them.
fn narrow(number: u128) -> u64 {
    number.min(MAX as u128) as u64
}

/// With an image file that is just as long as the record says.
fn fitted(asked: Asked) -> Asked {
    Asked { image_len: narrow(asked.image_end()), ..asked }
}

pub const FIXED: u64 = READ + LONG + RECORDS + ALIGNMENTS;

/// Files of 1 to 7 axes of every datatype, in both orders and kinds, and pairs with an image at the limits: read, whole and in two
/// pieces, or asked for a voxel.
const READ: u64 = 7 * DATATYPES.len() as u64 * 2 * 2 * 2;
const LONG: u64 = cases::LONG_DIMS.len() as u64 * DATATYPES.len() as u64 * 2;

/// Records that are no file's.
const RECORDS: u64 = FAULTY + PLACED + TOTALS + STEPPED + LONG_AXES + OUTSIDE + LONGEST + WRAPPED;

/// Each of the six refusals given or not, of both kinds and with 1 to 7 axes.
pub const FAULTY: u64 = 64 * 2 * 7;
/// data_offset, pair and the length of the image file.
const PLACED: u64 = OFFSETS.len() as u64 * PAIRS.len() as u64 * 5;
/// data_bytes, of the first and the last voxel, of both kinds, with 1, 4 and 7 axes.
const TOTALS: u64 = 12 * 2 * 2 * 3;
/// The step of each axis, of the first voxel, of the one beside it along that axis, of the last one and of that with index 0 of the
/// axis; data_bytes as it was, at the limit, and where this voxel ends.
const STEPPED: u64 = 7 * 12 * 4 * 3;
/// Each dim, with the first index inside that axis, the last and one past it, with 1, 4 and 7 axes.
const LONG_AXES: u64 = 8 * DIMS.len() as u64 * 3 * 3;
/// Each index, with 1 to 7 axes.
const OUTSIDE: u64 = 7 * 9 * 7;
/// The longest image, at the last places where one may begin.
const LONGEST: u64 = 4 * 3 * 3 * 2;
/// Products and sums that come back to a place inside the image where 64 bits are all that is kept.
const WRAPPED: u64 = 7 * 7 * 3;

/// vox_offset of a pair and of a single file, multiples of 16 and neighbours of them. 134217720 is the binary32 before 2^27.
const PAIR_OFFSETS: [f32; 9] = [0.0, -0.0, 1.0, 7.0, 8.0, 16.0, 24.0, 134_217_720.0, 134_217_728.0];
const SINGLE_OFFSETS: [f32; 6] = [352.0, 353.0, 356.0, 360.0, 368.0, 376.0];

/// Each of these offsets, in both orders, in every call whose answer says whether it is aligned or leaves that out.
pub const ALIGNMENTS: u64 = (PAIR_OFFSETS.len() + SINGLE_OFFSETS.len()) as u64 * 2 * 8;

pub fn fixed(number: u64) -> Case {
    let groups: [(u64, fn(u64) -> Case); 4] =
        [(READ, file_read), (LONG, long_read), (RECORDS, |number| case(numbered(number))), (ALIGNMENTS, alignment)];
    cases::grouped(number, &groups)
}

pub fn case(asked: Asked) -> Case {
    Case::at(Call::VoxelIn(asked), Vec::new(), Other::none())
}

/// The header's file, which has a note, read or asked for its last voxel.
fn read_or_located(header: Header, pair: bool, image: Other, last: [u64; 7], located: bool) -> Case {
    let region = [&EXTENSIONS[..], &extension(header.order, 16, 4, b"one note")].concat();
    let file = match &image {
        Other::Own(bytes) if !pair => header.offset(368_f32.to_bits()).file(&[&region, bytes]),
        _ => header.offset(0x40e0_0000).file(&[&region]),
    };
    if located {
        return Case::at(Call::Voxel { index: last }, file, if pair { image } else { Other::none() });
    }
    read_cut(file, 300)
}

/// Read whole, and in two pieces cut here.
fn read_cut(file: Vec<u8>, cut: usize) -> Case {
    let pieces = [cut, file.len() - cut].map(|length| Piece { length, at: Where::Back, asked: true }).to_vec();
    Case::fed(file, Feeding::Pieces { pieces, words: Vec::new() })
}

fn file_read(number: u64) -> Case {
    let [located, pair, big, axes, datatype] = digits(number, [2, 2, 2, 7, DATATYPES.len() as u64]);
    let order = if big == 1 { Order::Big } else { Order::Little };
    let lengths: Vec<i16> = LENGTHS[..axes + 1].to_vec();
    let header = Header::new(order, pair == 1).dims(&lengths).datatype(DATATYPES[datatype].0);
    let last = from_fn(|i| if i <= axes { LENGTHS[i] as u64 - 1 } else { 0 });
    let image_bytes = lengths.iter().map(|&d| d as usize).product::<usize>() * DATATYPES[datatype].1 as usize / 8;
    read_or_located(header, pair == 1, Other::Own(vec![0x77; 7 * pair + image_bytes]), last, located == 1)
}

fn long_read(number: u64) -> Case {
    let [located, dims, datatype] = digits(number, [2, cases::LONG_DIMS.len() as u64, DATATYPES.len() as u64]);
    let lengths = cases::LONG_DIMS[dims];
    let header = Header::new(Order::Big, true).dims(lengths).datatype(DATATYPES[datatype].0);
    let last = from_fn(|i| lengths.get(i).map_or(0, |&d| d as u64 - 1));
    read_or_located(header, true, Other::Zeros(IMAGE_LIMIT as usize + 7), last, located == 1)
}

/// A pair's header file with a note; or a single file without one, whose region is private bytes up to the image.
fn file_at(order: Order, number: usize) -> Vec<u8> {
    let header = |pair, at: f32| Header::new(order, pair).dims(&[3, 2]).datatype(4).offset(at.to_bits());
    if let Some(&at) = PAIR_OFFSETS.get(number) {
        return header(true, at).file(&[&EXTENSIONS, &extension(order, 16, 4, b"one note")]);
    }
    let at = SINGLE_OFFSETS[number - PAIR_OFFSETS.len()];
    header(false, at).file(&[&NO_EXTENSIONS, &vec![0x2e; at as usize - 352], &[0x77; 12]])
}

/// The pieces are cut inside vox_offset. One byte less is refused by 11 or 13, after the offset. The image file is long enough for
/// the small offsets. The record is the file's but for a wrong `aligned`, on which a voxel does not hang.
fn alignment(number: u64) -> Case {
    let [call, big, offset] = digits(number, [8, 2, (PAIR_OFFSETS.len() + SINGLE_OFFSETS.len()) as u64]);
    let file = file_at(if big == 1 { Order::Big } else { Order::Little }, offset);
    let file_len = file.len() as u64;
    let index = [2, 1, 0, 0, 0, 0, 0];
    let bytes = |byte, length| Other::Own(vec![byte; length]);
    let edit = |call, payload| Case::at(call, [&file[..], &[0xee; 40]].concat(), payload);
    match call {
        0 => read_cut(file, 110),
        1 => read_cut(file[..file.len() - 1].to_vec(), 110),
        2 => edit(Call::Append { file_len, code: 6 }, bytes(0x2e, 9)),
        3 => edit(Call::Replace { file_len, number: 0, code: 6 }, bytes(0x2e, 9)),
        4 => edit(Call::Remove { file_len, number: 0 }, Other::none()),
        5 => Case::at(Call::Swap, file, bytes(0x77, 36)),
        6 => Case::at(Call::Voxel { index }, file, bytes(0x77, 36)),
        _ => {
            let record = file_answer(&rules::read(&file));
            case(fitted(Asked { record: FileAnswer { aligned: 1 - record.aligned, ..record }, image_len: 0, index }))
        }
    }
}

fn numbered(number: u64) -> Asked {
    let groups: [(u64, fn(u64) -> Asked); 8] = [
        (FAULTY, |number| faulty(number).0),
        (PLACED, placed),
        (TOTALS, totals),
        (STEPPED, stepped),
        (LONG_AXES, long_axes),
        (OUTSIDE, outside),
        (LONGEST, longest),
        (WRAPPED, wrapped),
    ];
    cases::grouped(number, &groups)
}

/// A record that each bit of the number gives a fault, and which faults hold. A single file is not refused by 16.
pub fn faulty(number: u64) -> (Asked, [bool; 6]) {
    let random = &mut Random::new(26, number);
    let [bits, pair, axes] = digits(number, [64, 2, 7]);
    let pair = pair == 1;
    let mut holds: [bool; 6] = from_fn(|place| bits >> place & 1 == 1);
    holds[3] &= pair;
    let [own, no_axes, misplaced, short, outside, wrong] = holds;
    let mut asked = right(pair, axes + 1, random.size(DATATYPES.len()));
    let record = &mut asked.record;
    if own {
        record.refusal = random.pick(&OWN);
        record.place = random.pick(&[0, 1, 40, 108, 1 << 32, MAX]);
    }
    if no_axes {
        record.dim[0] = random.pick(&NO_AXES);
    }
    if misplaced {
        let far = [REGION_LIMIT + 1, REGION_LIMIT + 2, 1 << 32, 1 << 40];
        record.data_offset = if pair { random.pick(&far) } else { random.pick(&[&far[..], &[0, 1, 351, 1 << 63, MAX]].concat()) };
    }
    let lengths: [u64; 7] = from_fn(|i| asked.axis(i + 1));
    asked.index = lengths.map(|length| cases::inside(random, length));
    if outside {
        // with room for a voxel there, so that 26 does not hold too
        let axis = random.size(7);
        asked.index[axis] = lengths[axis] + random.below(2);
        asked.record.data_bytes = IMAGE_LIMIT;
    }
    if wrong {
        let moved = (0..7).find(|&i| asked.index[i] > 0);
        match (random.below(4), moved) {
            (0, _) => asked.record.step[0] = 0,
            (1, _) => asked.record.data_bytes = random.pick(&[IMAGE_LIMIT + 1, 1 << 41, 1 << 62]),
            (2, Some(i)) => asked.record.step[i] = random.pick(&[IMAGE_LIMIT + 1, 1 << 62, MAX]),
            _ => asked.record.data_bytes = asked.end() as u64 - 1,
        }
    }
    let end = narrow(asked.image_end());
    let (long, few) = (end.saturating_add(random.below(3)), random.below(end));
    asked.image_len = if short { random.pick(&[end - 1, 0, few]) } else { random.pick(&[end, long, MAX]) };
    if !pair && random.once_in(2) {
        asked.image_len = 0;
    }
    (asked, holds)
}

fn placed(number: u64) -> Asked {
    let [offset, pair, length] = digits(number, [OFFSETS.len() as u64, PAIRS.len() as u64, 5]);
    let mut asked = right(false, 1 + number as usize % 7, number as usize % DATATYPES.len());
    asked.record.data_offset = OFFSETS[offset];
    asked.record.pair = PAIRS[pair];
    let end = narrow(asked.image_end());
    asked.image_len = [0, end - 1, end, end.saturating_add(1), MAX][length];
    asked
}

fn totals(number: u64) -> Asked {
    let [total, first, pair, axes] = digits(number, [12, 2, 2, 3]);
    let mut asked = right(pair == 1, [1, 4, 7][axes], number as usize % DATATYPES.len());
    if first == 1 {
        asked.index = [0; 7];
    }
    let end = asked.end() as u64;
    let limits = [IMAGE_LIMIT - 1, IMAGE_LIMIT, IMAGE_LIMIT + 1, 1 << 63, MAX, MAX - 6, MAX - 367];
    asked.record.data_bytes = [0, 1, end - 1, end, end + 1].iter().chain(&limits).copied().nth(total).unwrap();
    fitted(asked)
}

fn stepped(number: u64) -> Asked {
    let [axis, value, voxel, total] = digits(number, [7, 12, 4, 3]);
    let mut asked = right(number % 2 == 1, 7, number as usize % DATATYPES.len());
    let step = asked.record.step;
    let beside = step[(axis + 1) % 7];
    asked.record.step[axis] =
        [0, 1, step[axis] - 1, step[axis] + 1, beside, 1 << 32, 1 << 62, 1 << 63, (1 << 63) + 1, IMAGE_LIMIT, MAX - 1, MAX][value];
    match voxel {
        0 => asked.index = [0; 7],
        1 => asked.index = from_fn(|i| (i == axis) as u64),
        2 => {}
        _ => asked.index[axis] = 0,
    }
    match total {
        0 => {}
        1 => asked.record.data_bytes = IMAGE_LIMIT,
        _ => asked.record.data_bytes = narrow(asked.end()),
    }
    fitted(asked)
}

fn long_axes(number: u64) -> Asked {
    let [entry, value, index, axes] = digits(number, [8, DIMS.len() as u64, 3, 3]);
    let mut asked = right(false, [1, 4, 7][axes], number as usize % DATATYPES.len());
    asked.record.dim[entry] = DIMS[value];
    asked.record.data_bytes = IMAGE_LIMIT;
    asked.index = [0; 7];
    let axis = entry.max(1);
    let length = asked.axis(axis);
    asked.index[axis - 1] = [0, length.max(1) - 1, length][index];
    asked
}

fn outside(number: u64) -> Asked {
    let [axis, value, axes] = digits(number, [7, 9, 7]);
    let mut asked = right(false, axes + 1, number as usize % DATATYPES.len());
    let length = asked.axis(axis + 1);
    asked.record.data_bytes = IMAGE_LIMIT;
    asked.index[axis] = [
        length - 1,
        length,
        length + 1,
        1 << 8,
        1 << 16,
        (1 << 16) + length - 1,
        (1 << 32) + length - 1,
        (1 << 63) + length - 1,
        MAX,
    ][value];
    asked
}

/// A record of 2^40 bytes, exactly or one byte beside it, of which the last voxel, the one before it or the first is asked.
fn longest(number: u64) -> Asked {
    let [offset, total, voxel, pair] = digits(number, [4, 3, 3, 2]);
    let dim = [3, 16384, 16384, 4096, 0, -1, 0, 0];
    let record = FileAnswer {
        data_offset: [352, REGION_LIMIT - 1, REGION_LIMIT, REGION_LIMIT + 1][offset],
        data_bytes: [IMAGE_LIMIT, IMAGE_LIMIT - 1, IMAGE_LIMIT + 1][total],
        pair: pair as u32,
        dim,
        datatype: 2,
        bitpix: 8,
        step: rules::steps(&dim, 8, IMAGE_LIMIT),
        ..FileAnswer::default()
    };
    let index = [[16383, 16383, 4095, 0, 0, 0, 0], [16382, 16383, 4095, 0, 0, 0, 0], [0; 7]][voxel];
    fitted(Asked { record, image_len: 0, index })
}

/// Two axes with steps that together come to 2^64, or one axis whose product does; all other indexes are 0.
fn wrapped(number: u64) -> Asked {
    let [first, second, manner] = digits(number, [7, 7, 3]);
    let mut asked = right(number % 2 == 1, 7, number as usize % DATATYPES.len());
    asked.index = from_fn(|i| (i == first || i == second) as u64);
    let step = &mut asked.record.step;
    match manner {
        0 => {
            step[first] = 1 << 63;
            step[second] = 1 << 63;
        }
        1 => step[second] = step[first].wrapping_neg(),
        _ => {
            step[second] = MAX / 2 + 1;
            asked.record.dim[second + 1] = 5;
            asked.index[second] = 4;
        }
    }
    asked.record.data_bytes = IMAGE_LIMIT;
    fitted(asked)
}

/// What reading answers of a file, most often of one that is accepted.
fn read(random: &mut Random) -> FileAnswer {
    let record = file_answer(&rules::read(&cases::file(random)));
    if record.refusal != 0 && !random.once_in(6) {
        return read(random);
    }
    record
}

/// A member that the index does not hang on, or hangs on, moved to a border or to any number.
fn damage(random: &mut Random, record: &mut FileAnswer) {
    let any = random.next() >> random.below(64);
    match random.below(10) {
        0 => record.refusal = random.pick(&[&OWN[..], &[any]].concat()),
        1 => record.place = any,
        2 => record.data_offset = random.pick(&[&OFFSETS[..], &[any, any % (REGION_LIMIT + 2)]].concat()),
        3 => record.pair = random.pick(&[&PAIRS[..], &[any as u32]].concat()),
        4 => record.dim[0] = random.pick(&[&NO_AXES[..], &[any as i16]].concat()),
        5 | 6 => record.dim[0] = 1 + random.size(7) as i16,
        7 | 8 => record.dim[1 + random.size(7)] = random.pick(&[&DIMS[..], &[any as i16]].concat()),
        _ => {
            record.big_endian = any as u32;
            record.datatype = random.next() as i16;
            record.bitpix = random.next() as i16;
            record.extensions = random.next() as u32;
            record.aligned = random.pick(&[0, 1, 2, any as u32]);
        }
    }
}

fn indexes(random: &mut Random, asked: &Asked) -> [u64; 7] {
    let lengths: [u64; 7] = from_fn(|i| asked.axis(i + 1));
    let mut index = match random.below(4) {
        0 => last(asked),
        1 => lengths.map(|length| (length > 1) as u64),
        _ => lengths.map(|length| cases::inside(random, length)),
    };
    if random.once_in(5) {
        let axis = random.size(7);
        index[axis] = cases::outside(random, lengths[axis]);
    }
    index
}

/// One step moved: to that of another axis, to a border, or to where 64 bits bring the voxel back.
fn move_step(random: &mut Random, asked: &mut Asked) {
    let (axis, other) = (random.size(7), random.size(7));
    let (index, step) = (asked.index[axis], asked.record.step[axis]);
    if random.once_in(6) {
        asked.record.step.swap(axis, other);
        return;
    }
    let any = random.next() >> random.below(64);
    asked.record.step[axis] = 0;
    let rest = asked.distance() as u64;
    asked.record.step[axis] = match (random.below(3), index) {
        (0, _) => random.pick(&[0, 1, step.wrapping_add(1), step.wrapping_sub(1), any]),
        (1, 1) => rest.wrapping_neg(),
        (1, 2..) => (MAX / index).wrapping_add(1),
        _ => random.pick(&[1 << 32, 1 << 62, 1 << 63, MAX - 1, MAX]),
    };
}

/// data_bytes beside a limit, or at or beside the end of the voxel.
fn move_total(random: &mut Random, asked: &mut Asked) {
    let any = random.next() >> random.below(64);
    let end = narrow(asked.end());
    asked.record.data_bytes = match random.below(3) {
        0 => random.pick(&[end, end, end.saturating_sub(1), end.saturating_add(1)]),
        1 => random.pick(&[IMAGE_LIMIT, IMAGE_LIMIT, IMAGE_LIMIT - 1, IMAGE_LIMIT + 1]),
        _ => random.pick(&[0, any, 1 << 63, MAX]),
    };
}

/// A record of any numbers, every second one without a refusal of its own.
fn any_record(random: &mut Random) -> FileAnswer {
    let [refusal, place, data_offset, data_bytes] = [0; 4].map(|_| random.next() >> random.below(64));
    let [big_endian, pair, extensions, aligned] = [0; 4].map(|_| random.next() as u32);
    let dim = from_fn(|i| if i == 0 { random.below(9) as i16 } else { random.next() as i16 });
    let (datatype, bitpix, step) = (random.next() as i16, random.next() as i16, from_fn(|_| random.next() >> random.below(64)));
    let refusal = if random.once_in(2) { 0 } else { refusal };
    FileAnswer { refusal, place, data_offset, data_bytes, big_endian, pair, dim, datatype, bitpix, extensions, step, aligned }
}

pub fn any(random: &mut Random) -> Asked {
    let mut asked = Asked { record: read(random), image_len: 0, index: [0; 7] };
    if random.once_in(30) {
        asked.record = any_record(random);
    }
    for _ in 0..random.pick(&[0, 0, 0, 1, 1, 2]) {
        damage(random, &mut asked.record);
    }
    asked.index = indexes(random, &asked);
    for _ in 0..random.pick(&[0, 0, 0, 1, 1, 2]) {
        move_step(random, &mut asked);
    }
    if random.once_in(2) {
        move_total(random, &mut asked);
    }
    let end = narrow(asked.image_end());
    let (few, number) = (random.below(end), random.next());
    asked.image_len = random.pick(&[end, end, end, end, end.saturating_add(1), MAX, end.saturating_sub(1), few, number, 0]);
    asked
}
