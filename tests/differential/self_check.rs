//! The second implementation held to values worked out by hand: the numbers of 01-scope.md ("Numbers on each side"), the timing
//! table of source document 004, the examples of document 002, and the borders that docs/DECISIONS.md settles. Then laws that any
//! right implementation obeys, on files made at random, and wrong programs that the comparison's cases must notice.

use crate::cases::{self, Call, Case, Other};
use crate::files::{extension, file_a, Header, EXTENSIONS, NO_EXTENSIONS, OFFSET_352};
use crate::library::{Answer, FileAnswer, Reply};
use crate::line::{self, Line};
use crate::noticed::Noticed;
use crate::pieces::twin;
use crate::record::Asked;
use crate::rules::*;
use crate::turn::{came_from, faults, reversed_row, turn, Turn};
use crate::turn_laws::{broken, Both, Engine, Tried};
use crate::{by_rules, case, extender_cases, file_answer, line_cases, memory, rank_cases, ranks, record_cases, turn_cases};
use crate::{wrong_alignment, wrong_extenders, wrong_lines, wrong_ranks, wrong_steps, wrong_swaps, wrong_turns};
use std::fmt::Debug;
use std::ops::Range;

#[derive(Default)]
struct Checks {
    done: u32,
    failed: u32,
}

impl Checks {
    fn equal<T: PartialEq + Debug>(&mut self, name: &str, got: T, expected: T) {
        self.done += 1;
        if got != expected {
            self.failed += 1;
            println!("self-check {name}: got {got:?}, expected {expected:?}");
        }
    }

    fn refused<T: Debug>(&mut self, name: &str, got: Result<T, Refusal>, number: u64, place: u64) {
        self.equal(name, got.err(), Some(Refusal { number, place }));
    }

    fn holds(&mut self, name: &str, fact: bool) {
        self.equal(name, fact, true);
    }
}

const BIG: Order = Order::Big;
const LITTLE: Order = Order::Little;

fn single(order: Order) -> Header {
    Header::new(order, false).dims(&[3, 2]).datatype(4).offset(OFFSET_352)
}

fn pair(order: Order) -> Header {
    Header::new(order, true).dims(&[3, 2]).datatype(4)
}

/// A pair's header file with these extension bytes.
fn pair_with(extensions: &[Vec<u8>]) -> Vec<u8> {
    pair(LITTLE).file(&[&EXTENSIONS, &extensions.concat()])
}

fn note(size: i32, code: i32) -> Vec<u8> {
    extension(LITTLE, size, code, &vec![0; size.max(8) as usize - 8])
}

fn changed(mut file: Vec<u8>, at: usize, bytes: &[u8]) -> Vec<u8> {
    file[at..at + bytes.len()].copy_from_slice(bytes);
    file
}

fn file_a_numbers(checks: &mut Checks) {
    let a = file_a();
    let nonzero: [(usize, u8); 12] = [
        (0, 0x5c),
        (1, 0x01),
        (40, 2),
        (42, 3),
        (44, 2),
        (70, 4),
        (72, 0x10),
        (110, 0xb0),
        (111, 0x43),
        (344, 0x6e),
        (345, 0x2b),
        (346, 0x31),
    ];
    let mut header = vec![0; 352];
    nonzero.iter().for_each(|&(at, byte)| header[at] = byte);
    checks.equal("file A's bytes", a[..352].to_vec(), header);
    checks.equal("file A's length", a.len(), 364);
    checks.refused("empty file", read(&[]), 1, 0);
    checks.refused("347 bytes", read(&a[..347]), 1, 0);
    checks.refused("348 zero bytes", read(&[0; 348]), 2, 40);
    checks.refused("A cut to 363", read(&a[..363]), 11, 108);
    let known = read(&a).unwrap();
    checks.equal("A", (known.order, known.pair, known.offset, known.image_bytes), (LITTLE, false, 352, 12));
    checks.equal("A's extensions", known.spans.len(), 0);
    checks.equal("A's steps", known.steps, [2, 6, 12, 12, 12, 12, 12]);
    checks.equal("voxel (2,1) of A", voxel(&a, 0, [2, 1, 0, 0, 0, 0, 0]), Ok((362, 2)));
    checks.refused("voxel (3,0) of A", voxel(&a, 0, [3, 0, 0, 0, 0, 0, 0]), 17, 0);
    checks.refused("voxel (0,0,1) of A", voxel(&a, 0, [0, 0, 1, 0, 0, 0, 0]), 17, 0);
}

fn offsets(checks: &mut Checks) {
    let in_single = |bits| read(&single(LITTLE).offset(bits).file(&[&NO_EXTENSIONS, &[0; 12]]));
    let in_pair = |bits| read(&pair(BIG).offset(bits).bytes).map(|known| known.offset);
    checks.equal("43B00000", in_single(0x43b0_0000).map(|known| known.offset), Ok(352));
    checks.refused("43B04000", in_single(0x43b0_4000), 8, 108);
    checks.refused("43AF8000 in a single file", in_single(0x43af_8000), 9, 108);
    checks.equal("43AF8000 in a pair", in_pair(0x43af_8000), Ok(351));
    checks.equal("4D000000 in a pair", in_pair(0x4d00_0000), Ok(134_217_728));
    checks.refused("4D000000 in a short single file", in_single(0x4d00_0000), 11, 108);
    checks.refused("4D000001 in a pair", in_pair(0x4d00_0001), 9, 108);
    checks.refused("4D000001 in a single file", in_single(0x4d00_0001), 9, 108);
    checks.equal("-0 in a pair", in_pair(0x8000_0000), Ok(0));
    checks.refused("-0 in a single file", in_single(0x8000_0000), 9, 108);
    checks.refused("0 in a single file", in_single(0), 9, 108);
    checks.equal("2^24", in_pair(0x4b80_0000), Ok(16_777_216));
    for (name, bits) in [("NaN", 0x7fc0_0000), ("infinity", 0x7f80_0000), ("-1", 0xbf80_0000), ("-0.5", 0xbf00_0000), ("least", 1)]
    {
        checks.refused(name, in_pair(bits), 8, 108);
    }
    checks.refused("the largest binary32", in_pair(0x7f7f_ffff), 9, 108);
}

/// Whether vox_offset is a multiple of 16 (02-change-requests.md, P6), of files and by the replies of calls.
fn alignment(checks: &mut Checks) {
    let aligned = |file: &[u8]| read(file).map(|known| known.aligned);
    let private =
        |order, at: usize| single(order).offset((at as f32).to_bits()).file(&[&NO_EXTENSIONS, &vec![7; at - 352], &[0; 12]]);
    checks.equal("A is aligned", aligned(&file_a()), Ok(true));
    for order in [BIG, LITTLE] {
        for bits in [0, 0x8000_0000, 0x4180_0000, 0x43b0_0000, 0x4d00_0000] {
            checks.equal("0, -0, 16, 352 and 2^27", aligned(&pair(order).offset(bits).bytes), Ok(true));
        }
        for bits in [0x3f80_0000, 0x40e0_0000, 0x4100_0000, 0x41c0_0000, 0x4cff_ffff] {
            checks.equal("1, 7, 8, 24 and 2^27 - 8", aligned(&pair(order).offset(bits).bytes), Ok(false));
        }
        for (at, fact) in [(352, true), (353, false), (360, false), (368, true), (376, false)] {
            checks.equal("a single file", aligned(&private(order, at)), Ok(fact));
        }
    }
    let answer = |call, file| by_rules(&RESERVED, &Case::at(call, file, Other::none()), &[]).answer;
    let appended = |file: Vec<u8>| {
        let call = Call::Append { file_len: file.len() as u64, code: 6 };
        answer(call, [file, vec![0; 40]].concat())
    };
    let done = |length, aligned| Answer::Reply(Reply { length, aligned, ..Reply::default() });
    checks.equal("an append to A", appended(file_a()), done(380, 1));
    checks.equal("to a pair at -0", appended(pair(BIG).offset(0x8000_0000).bytes), done(368, 1));
    checks.equal("to a pair at 8", appended(pair(BIG).offset(0x4100_0000).bytes), done(368, 0));
    checks.equal("refused", appended(private(BIG, 368)), Answer::Reply(Reply { refusal: 20, ..Reply::default() }));
    checks.equal("a swap of A", answer(Call::Swap, file_a()), done(0, 0));
    checks.equal("unit by unit", answer(Call::SwapByUnit, file_a()), done(0, 0));
    let voxel = Answer::Reply(Reply { place: 352, length: 2, ..Reply::default() });
    checks.equal("a voxel of A", answer(Call::Voxel { index: [0; 7] }, file_a()), voxel);
}

fn images(checks: &mut Checks) {
    let bytes =
        |dims: &[i16], datatype| read(&Header::new(BIG, true).dims(dims).datatype(datatype).bytes).map(|known| known.image_bytes);
    checks.equal("image limit", bytes(&[16384, 16384, 4096], 2), Ok(1_099_511_627_776));
    checks.refused("twice the image limit", bytes(&[16384, 16384, 4096], 4), 10, 40);
    checks.refused("2^64 image bytes", bytes(&[16384, 16384, 16384, 16384, 256], 2), 10, 40);
    checks.refused("seven longest axes", bytes(&[32767; 7], 2048), 10, 40);
    checks.equal("FMRI", bytes(&[64, 64, 20, 120], 4), Ok(19_660_800));
    checks.equal("T1", bytes(&[256, 256, 128], 4), Ok(16_777_216));
    checks.equal("EPI", bytes(&[64, 64, 1, 1200], 4), Ok(9_830_400));
    checks.equal("3-vector", bytes(&[256, 256, 128, 1, 3], 16), Ok(100_663_296));
    checks.equal("3x3 matrix", bytes(&[1, 1, 1, 1200, 9], 16), Ok(43_200));
    checks.equal("VECTOR", bytes(&[64, 64, 20, 1, 3], 16), Ok(983_040));
    checks.equal("TTEST", bytes(&[128, 128, 1, 1, 2], 16), Ok(131_072));
    let vector = Header::new(LITTLE, true).dims(&[64, 64, 20, 1, 3]).datatype(16).bytes;
    checks.equal("second component", voxel(&vector, 983_040, [0, 0, 0, 0, 1, 0, 0]), Ok((327_680, 4)));
    checks.refused("image file one short", voxel(&vector, 983_039, [0; 7]), 16, 0);
    checks.refused("16 before 17", voxel(&vector, 0, [64, 0, 0, 0, 0, 0, 0]), 16, 0);
    for (code, bits) in [(2, 8), (4, 16), (8, 32), (16, 32), (32, 64), (64, 64), (128, 24), (256, 8)] {
        checks.equal("bytes of a voxel", bytes(&[1], code), Ok(bits / 8));
    }
    for (code, bits) in [(512, 16), (768, 32), (1024, 64), (1280, 64), (1536, 128), (1792, 128), (2048, 256), (2304, 32)] {
        checks.equal("bytes of a voxel", bytes(&[1], code), Ok(bits / 8));
    }
    for code in [0, 1, 255, 1200, -2, 32767] {
        checks.refused("datatype", bytes(&[1], code), 6, 70);
    }
}

/// The steps of 01-scope.md's files and of document 002's examples.
fn steps_read(checks: &mut Checks) {
    let steps = |dims: &[i16], datatype| read(&Header::new(BIG, true).dims(dims).datatype(datatype).bytes).map(|known| known.steps);
    checks.equal("one axis", steps(&[5], 128), Ok([3, 15, 15, 15, 15, 15, 15]));
    checks.equal("one voxel", steps(&[1], 2048), Ok([32; 7]));
    checks.equal("T1", steps(&[256, 256, 128], 4), Ok([2, 512, 131_072, 16_777_216, 16_777_216, 16_777_216, 16_777_216]));
    checks.equal("VECTOR", steps(&[64, 64, 20, 1, 3], 16), Ok([4, 256, 16_384, 327_680, 327_680, 983_040, 983_040]));
    checks.equal("six axes", steps(&[3, 2, 4, 2, 3, 2], 64), Ok([8, 24, 48, 192, 384, 1152, 2304]));
    checks.equal("seven axes", steps(&[3, 2, 4, 2, 3, 2, 5], 4), Ok([2, 6, 12, 48, 96, 288, 576]));
    let most = 1_099_511_627_776;
    checks.equal("image limit", steps(&[16384, 16384, 4096], 2), Ok([1, 16_384, 268_435_456, most, most, most, most]));
    let unused = changed(file_a(), 46, &[255, 255, 7, 0]);
    checks.equal("dims after dim[0]", read(&unused).map(|known| known.steps), Ok([2, 6, 12, 12, 12, 12, 12]));
    let swapped = swap(&file_a(), &[]).and_then(|both| read(&both.0)).map(|known| known.steps);
    checks.equal("A swapped", swapped, Ok([2, 6, 12, 12, 12, 12, 12]));
    let refused = FileAnswer { refusal: 11, place: 108, ..FileAnswer::default() };
    checks.equal("a refused file has none", file_answer(&read(&file_a()[..363])), refused);
}

/// Voxels by the record of file A, and by others: each with what is refused first, or the place and length.
fn voxels_by_record(checks: &mut Checks) {
    const MAX: u64 = u64::MAX;
    const MOST: u64 = 1_099_511_627_776;
    let a = FileAnswer {
        data_offset: 352,
        data_bytes: 12,
        dim: [2, 3, 2, 0, 0, 0, 0, 0],
        datatype: 4,
        bitpix: 16,
        step: [2, 6, 12, 12, 12, 12, 12],
        aligned: 1,
        ..FileAnswer::default()
    };
    checks.equal("the record of A", file_answer(&read(&file_a())), a);
    let at = |index: [u64; 7]| Asked { record: a, image_len: 0, index }.voxel();
    checks.equal("voxel (2,1)", at([2, 1, 0, 0, 0, 0, 0]), Ok((362, 2)));
    checks.equal("voxel (0,1)", at([0, 1, 0, 0, 0, 0, 0]), Ok((358, 2)));
    checks.refused("voxel (3,0)", at([3, 0, 0, 0, 0, 0, 0]), 17, 0);
    checks.refused("voxel (0,0,1)", at([0, 0, 1, 0, 0, 0, 0]), 17, 0);
    checks.refused("voxel (0,2^64 - 1)", at([0, MAX, 0, 0, 0, 0, 0]), 17, 0);

    let last = |change: fn(&mut FileAnswer)| {
        let mut record = a;
        change(&mut record);
        Asked { record, image_len: 364, index: [2, 1, 0, 0, 0, 0, 0] }.voxel()
    };
    checks.refused("its own refusal and place", last(|a| (a.refusal, a.place) = (77, MAX)), 77, MAX);
    checks.equal("a place alone is none", last(|a| a.place = 40), Ok((362, 2)));
    for no_axes in [-32768, -1, 0, 8, 258] {
        let record = FileAnswer { dim: [no_axes, 3, 2, 1, 1, 1, 1, 1], ..a };
        checks.refused("dim[0]", Asked { record, image_len: 0, index: [0; 7] }.voxel(), 2, 40);
    }
    checks.refused("a single file at 351", last(|a| a.data_offset = 351), 9, 108);
    checks.equal("at 134217728", last(|a| a.data_offset = 134_217_728), Ok((134_217_738, 2)));
    checks.refused("at 134217729", last(|a| a.data_offset = 134_217_729), 9, 108);
    checks.equal("a pair at 0", last(|a| (a.pair, a.data_offset) = (1, 0)), Ok((10, 2)));
    checks.refused("a pair at 134217729", last(|a| (a.pair, a.data_offset) = (1, 134_217_729)), 9, 108);
    checks.equal("a pair whose image file just fits", last(|a| a.pair = 2), Ok((362, 2)));
    checks.refused("one byte short", last(|a| (a.pair, a.data_offset) = (2, 353)), 16, 0);
    checks.equal("which is nothing to a single file", last(|a| a.data_offset = 353), Ok((363, 2)));
    checks.refused("an image that ends past 2^64", last(|a| (a.pair, a.data_bytes) = (1, MAX)), 16, 0);
    checks.refused("dim[1] -3", last(|a| a.dim[1] = -3), 17, 0);
    checks.equal("dim[3] -3", last(|a| a.dim[3] = -3), Ok((362, 2)));
    checks.refused("dim[3] -3 of three axes", last(|a| (a.dim[0], a.dim[3]) = (3, -3)), 17, 0);
    checks.refused("one image byte less", last(|a| a.data_bytes = 11), 26, 0);
    checks.refused("a longer row", last(|a| a.step[1] = 7), 26, 0);
    checks.equal("a shorter row", last(|a| a.step[1] = 5), Ok((361, 2)));
    checks.equal("rows in one place", last(|a| a.step[1] = 0), Ok((356, 2)));
    checks.equal("the most image bytes", last(|a| a.data_bytes = 1_099_511_627_776), Ok((362, 2)));
    checks.refused("and one more", last(|a| a.data_bytes = 1_099_511_627_777), 26, 0);
    checks.refused("voxels of no byte", last(|a| a.step[0] = 0), 26, 0);
    checks.equal("a step that nothing multiplies", last(|a| a.step[6] = MAX), Ok((362, 2)));
    checks.refused("2 x 2^63 + 6 + 2^63", last(|a| a.step[0] = 1 << 63), 26, 0);
    checks.refused("4 + (2^64 - 4) + 2", last(|a| a.step[1] = MAX - 3), 26, 0);
    let far = |step: u64, data_bytes: u64| {
        let record = FileAnswer { step: [1, step, 1, 1, 1, 1, 1], data_bytes, ..a };
        Asked { record, image_len: 0, index: [0, 1, 0, 0, 0, 0, 0] }.voxel()
    };
    checks.equal("the last byte of the longest image", far(MOST - 1, MOST), Ok((352 + MOST - 1, 1)));
    checks.refused("the byte after it", far(MOST, MOST), 26, 0);
    let seven = FileAnswer { dim: [7, 2, 2, 2, 2, 2, 2, 2], step: [1, 2, 4, 8, 16, 32, 64], data_bytes: 128, ..a };
    checks.equal("all seven", Asked { record: seven, image_len: 0, index: [1; 7] }.voxel(), Ok((479, 1)));
    for number in 0..record_cases::FAULTY {
        let (asked, holds) = record_cases::faulty(number);
        checks.equal("which refusals hold together", asked.faults().map(|fault| fault.is_some()), holds);
    }
}

/// A line through voxel (i, j, k).
fn through(axis: u64, [i, j, k]: [u64; 3]) -> Line {
    Line { axis, index: [i, j, k, 0, 0, 0, 0] }
}

/// Lines of file A, whose voxels hold 0 to 5, and of the volume below as a pair, with what is refused first (02-change-requests.md,
/// P7).
fn lines(checks: &mut Checks) {
    let a = file_a();
    let of_a = |axis, voxel, room| line::line(&a, &[], &through(axis, voxel), room);
    for i in 0..3 {
        checks.equal("row 0 of A", of_a(1, [i, 0, 0], 6), Ok(vec![0, 0, 1, 0, 2, 0]));
        checks.equal("row 1 of A", of_a(1, [i, 1, 0], 99), Ok(vec![3, 0, 4, 0, 5, 0]));
    }
    for j in 0..2 {
        checks.equal("column 0 of A", of_a(2, [0, j, 0], 4), Ok(vec![0, 0, 3, 0]));
        checks.equal("column 2 of A", of_a(2, [2, j, 0], 5), Ok(vec![2, 0, 5, 0]));
    }
    for axis in [0, 3, 4, 7, 8, 257, 65_537, 4_294_967_297, 9_223_372_036_854_775_809, u64::MAX] {
        checks.refused("no axis of A", of_a(axis, [0; 3], 99), 17, 0);
    }
    for voxel in [[3, 0, 0], [0, 2, 0], [0, 0, 1], [u64::MAX, 0, 0], [0, 4_294_967_296, 0]] {
        checks.refused("no voxel of A, along axis 1", of_a(1, voxel, 99), 17, 0);
        checks.refused("no voxel of A, along axis 2", of_a(2, voxel, 99), 17, 0);
    }
    checks.refused("row, one byte short", of_a(1, [0; 3], 5), 22, 0);
    checks.refused("column, one byte short", of_a(2, [0; 3], 3), 22, 0);
    checks.refused("no byte", of_a(2, [0; 3], 0), 22, 0);
    checks.refused("17 before 22", of_a(1, [3, 0, 0], 0), 17, 0);
    checks.refused("17 by the axis before 22", of_a(3, [0; 3], 0), 17, 0);
    checks.refused("11 before these", line::line(&a[..363], &[], &through(3, [3, 0, 0]), 0), 11, 108);

    let room = [Other::Own(vec![0xee; 9]), Other::Own(vec![0xdd; 2])];
    for call in [Call::Line(through(1, [2, 1, 0])), Call::LineByVoxel(through(1, [0, 1, 0]))] {
        let left = by_rules(&RESERVED, &Case::filling(call, a.clone(), Other::none(), room.clone()), &[]);
        checks.equal("its answer", left.answer, Answer::Reply(Reply { length: 6, ..Reply::default() }));
        checks.equal("its buffer", left.rooms, [vec![3, 0, 4, 0, 5, 0, 0xee, 0xee, 0xee], vec![0xdd; 2]]);
        checks.equal("its file", (left.main, left.other), (a.clone(), Vec::new()));
    }
    let left = by_rules(&RESERVED, &Case::filling(Call::Line(through(1, [3, 1, 0])), a.clone(), Other::none(), room), &[]);
    checks.equal("a refusal", left.answer, Answer::Reply(Reply { refusal: 17, ..Reply::default() }));
    checks.equal("its buffer", left.rooms[0].clone(), vec![0xee; 9]);

    let (pair, image) = (volume(BIG, true).bytes, [b"at3", &VOXELS[..], b"tail"].concat());
    let of_pair = |axis, voxel, length: usize, room| line::line(&pair, &image[..length], &through(axis, voxel), room);
    checks.equal("along axis 1", of_pair(1, [2, 1, 1], 15, 3), Ok(vec![11, 111, 211]));
    checks.equal("along axis 2", of_pair(2, [2, 0, 0], 15, 2), Ok(vec![200, 210]));
    checks.equal("along axis 3", of_pair(3, [1, 1, 0], 19, 2), Ok(vec![110, 111]));
    checks.refused("image file one short", of_pair(1, [0; 3], 14, 3), 16, 0);
    checks.refused("16 before 17", of_pair(1, [3, 0, 0], 14, 3), 16, 0);
    checks.refused("16 before 17 by the axis", of_pair(4, [0; 3], 14, 3), 16, 0);
    checks.refused("16 before 22", of_pair(1, [0; 3], 0, 0), 16, 0);
    checks.refused("reading first", line::line(&pair[..347], &[], &through(0, [3, 0, 0]), 0), 1, 0);
    checks.refused("with its place", line::line(&changed(pair, 344, b"nil\0"), &[], &through(0, [0; 3]), 0), 4, 344);
    for number in 0..line_cases::TOGETHER {
        let (case, holds) = line_cases::together(number);
        let Call::Line(line) = case.call else {
            continue;
        };
        let faults = line::faults(&case.main, case.other.length() as u64, &line, case.room()[0]);
        checks.equal("which refusals hold together", faults.iter().map(|no| no.number).collect::<Vec<_>>(), holds);
    }
}

fn headers(checks: &mut Checks) {
    let a = file_a();
    checks.refused("dim[0] 256 reads 1 in the other order", read(&changed(a.clone(), 40, &[0, 1])), 3, 0);
    checks.refused("dim[0] 0x0107", read(&changed(a.clone(), 40, &[7, 1])), 2, 40);
    checks.refused("sizeof_hdr 540", read(&changed(a.clone(), 0, &[0x1c, 2])), 3, 0);
    checks.refused("magic nil", read(&changed(a.clone(), 344, b"nil\0")), 4, 344);
    checks.refused("dim[2] 0", read(&changed(a.clone(), 44, &[0, 0])), 5, 44);
    checks.refused("dim[1] -32768", read(&changed(a.clone(), 42, &[0, 0x80])), 5, 42);
    checks.refused("bitpix 8", read(&changed(a.clone(), 72, &[8, 0])), 7, 72);
    checks.holds("dim[3] -1 is not judged", read(&changed(a.clone(), 46, &[255, 255])).is_ok());
    checks.holds("pixdim[4] 0 is not judged", f32_at(&a, 92, LITTLE) == 0.0 && read(&a).is_ok());
    let before_12 = pair(LITTLE).dims(&[0]).file(&[&[0, 0]]);
    checks.refused("5 before 12", read(&before_12), 5, 42);
    for length in 349..352 {
        checks.refused("pair of 349..351 bytes", read(&pair(BIG).file(&[&NO_EXTENSIONS])[..length]), 12, 348);
    }
    checks.holds("pair of 348 bytes", read(&pair(BIG).bytes).is_ok());
}

/// The first byte of the extender alone has a meaning; an edit writes it and keeps the others (02-change-requests.md, P2).
fn reserved_bytes(checks: &mut Checks) {
    let count = |file: &[u8]| read(file).map(|known| known.spans.len());
    let hello = extension(BIG, 16, 6, b"hello\0\0\0");
    let image = [7; 12];
    let noted = |extender: [u8; 4]| single(BIG).offset(368_f32.to_bits()).file(&[&extender, &hello, &image]);
    for extender in [[1, 0, 0, 0], [1, 0, 0, 1], [1, 0, 0, 7], [2, 9, 9, 9], [255, 1, 2, 3], [128, 0, 0, 0]] {
        checks.equal("extensions in a single file", count(&noted(extender)), Ok(1));
        checks.equal("extensions in a pair", count(&pair(BIG).file(&[&extender, &hello, &hello])), Ok(2));
        checks.refused("an empty region", read(&changed(file_a(), 348, &extender)), 13, 352);
        checks.refused("an empty region of a pair", read(&pair(LITTLE).file(&[&extender])), 13, 352);
    }
    for extender in [[0, 0, 0, 0], [0, 0, 0, 1], [0, 1, 0, 0], [0, 1, 2, 3], [0, 255, 255, 255]] {
        checks.equal("none in a single file", count(&changed(file_a(), 348, &extender)), Ok(0));
        checks.equal("private bytes in a single file", count(&noted(extender)), Ok(0));
        checks.equal("private bytes in a pair", count(&pair(LITTLE).file(&[&extender, &[0xff]])), Ok(0));
    }
    for length in 349..352 {
        for extender in [[1, 0, 0, 7], [2, 9, 9, 9], [0, 1, 2, 3]] {
            checks.refused("349..351 bytes, whatever they are", read(&pair(LITTLE).file(&[&extender])[..length]), 12, 348);
        }
    }
    for extender in [[1, 0, 0, 7], [2, 0, 0, 0], [0, 0, 0, 1]] {
        checks.refused("as the base had it", read_by(&BASE, &noted(extender)), 12, 348);
    }

    let append = Edit::Append { code: 6, payload: b"hello" };
    let replace = Edit::Replace { number: 0, code: 6, payload: b"hello" };
    let remove = Edit::Remove { number: 0 };
    let twice = |extender: [u8; 4]| single(BIG).offset(384_f32.to_bits()).file(&[&extender, &hello, &hello, &image]);
    let none = |extender: [u8; 4]| single(BIG).file(&[&extender, &image]);
    let with_old = |file: Vec<u8>, length: usize, old: u8| [&file[..], &vec![old; length - file.len()]].concat();
    for (before, one, empty) in [
        ([1, 0, 0, 7], [1, 0, 0, 7], [0, 0, 0, 7]),
        ([2, 9, 9, 9], [1, 9, 9, 9], [0, 9, 9, 9]),
        ([255; 4], [1, 255, 255, 255], [0, 255, 255, 255]),
    ] {
        let buffer = with_old(noted(before), 400, 0xee);
        checks.equal("append", edit(&buffer, 380, &append), Ok((with_old(twice(one), 400, 0xee), 396)));
        checks.equal("replace", edit(&buffer, 380, &replace), Ok((with_old(noted(one), 400, 0xee), 380)));
        checks.equal("remove one", edit(&twice(before), 396, &remove), Ok((with_old(noted(one), 396, 0), 380)));
        checks.equal("remove the last", edit(&noted(before), 380, &remove), Ok((with_old(none(empty), 380, 0), 364)));
    }
    let empty = with_old(none([0, 1, 2, 3]), 390, 0xee);
    checks.equal("append to none", edit(&empty, 364, &append), Ok((with_old(noted([1, 1, 2, 3]), 390, 0xee), 380)));
    checks.refused("append after private bytes", edit(&with_old(noted([0, 1, 2, 3]), 400, 0xee), 380, &append), 20, 0);
    let after = pair(BIG).file(&[&[0, 1, 2, 3], &[5], &[0xee; 40]]);
    checks.refused("append after one private byte of a pair", edit(&after, 353, &append), 20, 0);
    let grown = pair(BIG).file(&[&[1, 1, 2, 3], &hello, &[0xee; 25]]);
    checks.equal("append to 352 bytes", edit(&changed(after, 352, &[0xee]), 352, &append), Ok((grown, 368)));
    let bare = with_old(pair(BIG).bytes, 375, 0xee);
    let grown = pair(BIG).file(&[&[1, 0, 0, 0], &hello, &[0xee; 7]]);
    checks.equal("append to 348 bytes", edit(&bare, 348, &append), Ok((grown.clone(), 368)));
    checks.holds("its exact fit", edit(&bare[..368], 348, &append).is_ok());
    checks.refused("one byte short", edit(&bare[..367], 348, &append), 22, 0);
    let emptied = pair(BIG).file(&[&[0; 4], &[0; 16], &[0xee; 7]]);
    checks.equal("and taken out", edit(&grown, 368, &remove), Ok((emptied, 352)));

    let swapped = swap(&noted([1, 0, 0, 7]), &[]).map(|both| both.0[348..352].to_vec());
    checks.equal("a swap keeps all four", swapped, Ok(vec![1, 0, 0, 7]));
    let volume = volume(BIG, true).file(&[&[2, 9, 9, 9], &hello]);
    checks.equal(
        "a turn keeps all four",
        turned(&volume, &[0; 15], &QUARTER).map(|both| both.0[348..352].to_vec()),
        Ok(vec![2, 9, 9, 9]),
    );
}

fn extensions(checks: &mut Checks) {
    let of = |extensions: &[Vec<u8>]| read(&pair_with(extensions)).map(|known| known.spans);
    checks.refused("empty region of a pair", of(&[]), 13, 352);
    checks.refused("empty region of a single file", read(&changed(file_a(), 348, &EXTENSIONS)), 13, 352);
    let starts = of(&[note(16, 0), note(48, 2), note(32, 4)]).unwrap();
    checks.equal("starts", starts.iter().map(|span| span.start).collect::<Vec<_>>(), vec![352, 368, 416]);
    for code in [0, 1, 2, 4, 6, 8, 10, 12, 2_147_483_646, 2_147_483_647] {
        checks.equal("code", of(&[note(16, code)]).unwrap()[0].code, code);
    }
    checks.refused("code -1", of(&[note(16, 0), note(16, -1)]), 14, 372);
    for size in [0, 8, 24, -16, 32, 2_147_483_632, i32::MIN] {
        checks.refused("size", of(&[extension(LITTLE, size, 0, &[0; 8])]), 13, 352);
    }
    for left in 1..16 {
        checks.refused("bytes left over", of(&[note(16, 0), vec![0; left]]), 13, 368);
    }
    checks.equal("64 extensions", of(&vec![note(16, 0); 64]).unwrap().len(), 64);
    checks.refused("65 extensions", of(&vec![note(16, 0); 65]), 15, 1376);
    checks.refused("8 bytes after 64", of(&[vec![note(16, 0); 64], vec![vec![0; 8]]].concat()), 15, 1376);
    checks.refused("no such extension", extension_at(&pair_with(&[note(16, 0)]), 1), 18, 0);
    let unaligned = single(BIG).offset(354_f32.to_bits()).file(&[&EXTENSIONS, &[0; 2], &[0; 12]]);
    checks.refused("unaligned region", read(&unaligned), 13, 352);
}

/// The total of the pieces, and the answers of the bytes so far: in a single file 11 before all that its extensions do wrong, in a
/// pair 13 for one that has not come whole.
fn pieces(checks: &mut Checks) {
    checks.equal("pieces up to the total", take(1, 2_199_023_255_551), Ok(2_199_023_255_552));
    checks.equal("an empty piece at the total", take(2_199_023_255_552, 0), Ok(2_199_023_255_552));
    checks.refused("a byte past the total", take(2_199_023_255_552, 1), 25, 0);
    checks.refused("a piece past the total", take(0, 2_199_023_255_553), 25, 0);
    checks.refused("a sum past 64 bits", take(2_199_023_255_552, u64::MAX), 25, 0);
    let extensions = |order| [extension(order, 16, 0, &[5; 8]), extension(order, 48, -1, &[5; 40])].concat();
    let pair = pair(LITTLE).file(&[&EXTENSIONS, &extensions(LITTLE)]);
    let rows = [(0, 1, 0), (347, 1, 0), (349, 12, 348), (351, 12, 348), (352, 13, 352), (367, 13, 352), (369, 13, 368)];
    for (length, number, place) in rows.into_iter().chain([(376, 13, 368), (415, 13, 368), (416, 14, 372)]) {
        checks.refused("the pair so far", read(&pair[..length]), number, place);
    }
    checks.equal("the pair of 348 and of 368 bytes", [348, 368].map(|n| read(&pair[..n]).unwrap().spans.len()), [0, 1]);
    let single = single(BIG).offset(416_f32.to_bits()).file(&[&EXTENSIONS, &extensions(BIG), &[7; 12]]);
    for (length, number, place) in [(347, 1, 0), (348, 11, 108), (416, 11, 108), (427, 11, 108), (428, 14, 372)] {
        checks.refused("the single file so far", read(&single[..length]), number, place);
    }
    let turned = [&single[..360], &[!5; 8], &single[368..376], &[!5; 40], &[!7; 12]].concat();
    checks.equal("its payloads and voxels turned", twin(&single), Some(turned));
}

/// SEQ_INC, SEQ_DEC, ALT_INC, ALT_DEC, ALT_INC2, ALT_DEC2 of slices 1 to 5, ten times the times of document 004's table.
const TIMING_TABLE: [[i64; 6]; 5] =
    [[0, 4, 0, 2, 2, 4], [1, 3, 3, 4, 0, 1], [2, 2, 1, 1, 3, 3], [3, 1, 4, 3, 1, 0], [4, 0, 2, 0, 4, 2]];
/// 0.0, 0.1, 0.2, 0.3, 0.4 in binary32.
const TIMES: [u32; 5] = [0, 0x3dcc_cccd, 0x3e4c_cccd, 0x3e99_999a, 0x3ecc_cccd];

fn timed_file(order: Order, code: u8, duration: u32) -> Vec<u8> {
    Header::new(order, true).dims(&[1, 1, 7]).datatype(2).timed(0x39, [1, 5], code, duration).bytes
}

fn slices(checks: &mut Checks) {
    for (row, ranks) in TIMING_TABLE.iter().enumerate() {
        for (column, &rank) in ranks.iter().enumerate() {
            let file = timed_file(if row % 2 == 0 { BIG } else { LITTLE }, column as u8 + 1, 0x3dcc_cccd);
            let seconds = f32::from_bits(TIMES[rank as usize]);
            checks.equal("timing table", slice_at(&file, row as u64 + 1), Ok(Slice::Timed { rank: rank as u32, seconds }));
        }
    }
    let ranks = |code, n: i64| (1..=n).map(|s| rank(code, 1, n, s)).collect::<Vec<_>>();
    let rows: [(u8, &[i64]); 14] = [
        (1, &[0, 1, 2, 3]),
        (2, &[3, 2, 1, 0]),
        (3, &[0, 2, 1, 3]),
        (4, &[3, 1, 2, 0]),
        (5, &[2, 0, 3, 1]),
        (6, &[1, 3, 0, 2]),
        (3, &[0, 3, 1, 4, 2, 5]),
        (4, &[5, 2, 4, 1, 3, 0]),
        (5, &[3, 0, 4, 1, 5, 2]),
        (6, &[2, 5, 1, 4, 0, 3]),
        (5, &[1, 0]),
        (6, &[0, 1]),
        (3, &[0, 1]),
        (4, &[1, 0]),
    ];
    for (code, row) in rows {
        checks.equal("ranks of an even number of slices", ranks(code, row.len() as i64), row.to_vec());
    }
    let file = timed_file(BIG, 3, 0x3dcc_cccd);
    checks.equal("slice 0", slice_at(&file, 0), Ok(Slice::Padding));
    checks.equal("slice 6", slice_at(&file, 6), Ok(Slice::Padding));
    checks.refused("slice 7", slice_at(&file, 7), 17, 0);
    checks.equal("code 0, slice 7", slice_at(&timed_file(BIG, 0, 0x3dcc_cccd), 7), Ok(Slice::Unstated));
    checks.equal("code 7", slice_at(&timed_file(BIG, 7, 0x3dcc_cccd), 1), Ok(Slice::Unstated));
    for duration in [0, 0x8000_0000, 0xbdcc_cccd, 0x7f80_0000, 0x7fc0_0000] {
        checks.equal("duration", slice_at(&timed_file(BIG, 1, duration), 1), Ok(Slice::Unstated));
    }
    let least = Slice::Timed { rank: 4, seconds: f32::from_bits(4) };
    checks.equal("least duration", slice_at(&timed_file(BIG, 1, 1), 5), Ok(least));
    let longest = timed_file(BIG, 1, 0x7f7f_ffff);
    checks.equal("infinite time", slice_at(&longest, 3), Ok(Slice::Unstated));
    checks.equal("padding beside infinite times", slice_at(&longest, 6), Ok(Slice::Padding));
    checks.equal("rank 0 of the longest", slice_at(&longest, 1), Ok(Slice::Timed { rank: 0, seconds: 0.0 }));
    checks.equal("spiral", slice_at(&changed(file.clone(), 39, &[0x30]), 0), Ok(Slice::Padding));
    checks.equal("slice_dim 0", slice_at(&changed(file.clone(), 39, &[0xcf]), 0), Ok(Slice::Unstated));
    checks.equal("slice_end 7", slice_at(&changed(file.clone(), 120, &[0, 7]), 1), Ok(Slice::Unstated));
    checks.equal("slice_end 1", slice_at(&changed(file.clone(), 120, &[0, 1]), 1), Ok(Slice::Unstated));
    checks.equal("slice_start -1", slice_at(&changed(file.clone(), 74, &[255, 255]), 1), Ok(Slice::Unstated));
    checks.equal("slice_dim past dim[0]", slice_at(&changed(file, 40, &[0, 2]), 1), Ok(Slice::Unstated));
}

/// The table of document 004 the other way: slices of ranks 0 to 4 by SEQ_INC, SEQ_DEC, ALT_INC, ALT_DEC, ALT_INC2 and ALT_DEC2.
const RANK_TABLE: [[u32; 5]; 6] =
    [[1, 2, 3, 4, 5], [5, 4, 3, 2, 1], [1, 3, 5, 2, 4], [5, 3, 1, 4, 2], [2, 4, 1, 3, 5], [4, 2, 5, 3, 1]];

/// Numbers that are no rank of five slices.
const NO_RANKS: [u64; 10] =
    [5, 6, 7, 256, 65_536, 65_537, 4_294_967_296, 4_294_967_297, 9_223_372_036_854_775_808, 18_446_744_073_709_551_615];

/// The slice of a rank (02-change-requests.md, P8), with what is refused first.
fn slices_of_ranks(checks: &mut Checks) {
    for (column, slices) in RANK_TABLE.iter().enumerate() {
        let code = column as u8 + 1;
        for (order, duration) in [(BIG, 0x3dcc_cccd), (LITTLE, 1), (BIG, 0x7f7f_ffff)] {
            let file = timed_file(order, code, duration);
            let found: Vec<Ranked> = (0..5).map(|rank| slice_of_rank(&file, rank)).collect();
            checks.equal("the table, backwards", found, slices.map(|slice| Ok(Some(slice))).to_vec());
            NO_RANKS.iter().for_each(|&rank| checks.refused("a rank of N or more", slice_of_rank(&file, rank), 17, 0));
        }
    }
    let even: [(u8, &[u32]); 12] = [
        (1, &[1, 2, 3, 4]),
        (2, &[4, 3, 2, 1]),
        (3, &[1, 3, 2, 4]),
        (4, &[4, 2, 3, 1]),
        (5, &[2, 4, 1, 3]),
        (6, &[3, 1, 4, 2]),
        (1, &[1, 2]),
        (2, &[2, 1]),
        (3, &[1, 2]),
        (4, &[2, 1]),
        (5, &[2, 1]),
        (6, &[1, 2]),
    ];
    for (code, slices) in even {
        let file = changed(timed_file(BIG, code, 0x3dcc_cccd), 120, &[0, slices.len() as u8]);
        let found: Vec<Ranked> = (0..slices.len() as u64).map(|rank| slice_of_rank(&file, rank)).collect();
        checks.equal("an even number of slices", found, slices.iter().map(|&slice| Ok(Some(slice))).collect());
        checks.refused("and no more", slice_of_rank(&file, slices.len() as u64), 17, 0);
    }
    unstated_ranks(checks);
}

fn unstated_ranks(checks: &mut Checks) {
    let file = timed_file(BIG, 3, 0x3dcc_cccd);
    let unstated = [(39, vec![0xcf]), (40, vec![0, 2]), (74, vec![255, 255]), (74, vec![0, 5]), (120, vec![0, 7]), (122, vec![0])];
    let durations = [0, 0x8000_0000, 0xbdcc_cccd, 0x7f80_0000, 0x7fc0_0000_u32].map(|bits| (132, bits.to_be_bytes().to_vec()));
    for (at, bytes) in unstated.into_iter().chain([(122, vec![7])]).chain(durations) {
        for rank in [0, 4].into_iter().chain(NO_RANKS) {
            checks.equal("unstated before 17", slice_of_rank(&changed(file.clone(), at, &bytes), rank), Ok(None));
        }
    }
    checks.refused("reading first", slice_of_rank(&file[..347], u64::MAX), 1, 0);
    checks.refused("with its place", slice_of_rank(&changed(file, 344, b"nil\0"), 0), 4, 344);
    for number in 0..rank_cases::TOGETHER {
        let (case, holds) = rank_cases::together(number);
        if let Call::SliceOfRank { rank } = case.call {
            let faults = ranks::faults(&case.main, rank);
            checks.equal("which refusals hold together", faults.iter().map(|no| no.number).collect::<Vec<_>>(), holds);
        }
    }
}

/// The laws of ranks (02-change-requests.md, P8), over even and odd N: slices start to end have the ranks 0 to N - 1, each once;
/// the slice of a rank has that rank; a slice's rank is in the other direction that of the slice at start + end - s.
fn rank_laws(checks: &mut Checks) {
    for (n, start, code) in (2..=40).flat_map(|n| (0..4).flat_map(move |start| (1..=6).map(move |code| (n, start, code)))) {
        let end = start + n - 1;
        let timing = Timing { axis: 3, slices: end + 1 + n % 3, start, end, code, duration: 0.1 };
        let ranks: Vec<i64> = (start..=end).map(|s| timing.rank(s)).collect();
        let mut sorted = ranks.clone();
        sorted.sort();
        checks.equal("ranks 0 to N - 1, each once", sorted, (0..n).collect());
        let back: Vec<Ranked> = ranks.iter().map(|&rank| timing.slice_of_rank(rank as u64)).collect();
        checks.equal("the slice of its rank", back, (start..=end).map(|s| Ok(Some(s as u32))).collect());
        let other = timing.mirrored();
        checks.equal("the other direction", other.code, [2, 1, 4, 3, 6, 5][code as usize - 1]);
        checks.equal("the mirror", (start..=end).map(|s| other.rank(start + end - s)).collect(), ranks);
    }
}

/// A pair of 300 x 300 x 300 with these srow numbers.
fn placed_file(order: Order, sform_code: i16, srow: [u32; 12]) -> Vec<u8> {
    let mut header = Header::new(order, true).dims(&[300, 300, 300]).datatype(2);
    header.set16(254, sform_code);
    srow.iter().enumerate().for_each(|(i, &bits)| header.set32(280 + 4 * i, bits));
    header.bytes
}

fn bits(position: Result<[f32; 3], Refusal>) -> Result<[u32; 3], Refusal> {
    position.map(|position| position.map(f32::to_bits))
}

fn positions(checks: &mut Checks) {
    let f = f32::to_bits;
    let mirrored = [1.0, 0.0, 0.0, -90.0, 0.0, -1.0, 0.0, 126.0, 0.0, 0.0, -1.0, 72.0].map(f);
    let file = placed_file(BIG, 1, mirrored);
    checks.equal("diag(1,-1,-1)", position_of(&file, [100, 200, 299]), Ok([10.0, -74.0, -227.0]));
    checks.refused("index 300", position_of(&file, [0, 300, 0]), 17, 0);
    checks.refused("17 before 23", position_of(&placed_file(BIG, 0, mirrored), [0, 300, 0]), 17, 0);
    checks.refused("sform_code 0", position_of(&placed_file(BIG, 0, mirrored), [0; 3]), 23, 0);
    checks.refused("sform_code -1", position_of(&placed_file(LITTLE, -1, mirrored), [0; 3]), 23, 0);
    let row = [0xbf09_b16b, 0x4006_4993, 0xc07e_ebf5, 0xbedf_b1ad];
    let rounded = placed_file(LITTLE, 2, [row, [0; 4], row].concat().try_into().unwrap());
    checks.equal("rounding order", bits(position_of(&rounded, [185, 206, 59])), Ok([0x42c2_947a, 0, 0x42c2_947a]));
    for bad in [f32::NAN, f32::INFINITY, f32::NEG_INFINITY] {
        let mut srow = mirrored;
        srow[6] = f(bad);
        checks.refused("a number that is not finite", position_of(&placed_file(BIG, 1, srow), [0; 3]), 23, 0);
    }
    let mut srow = mirrored;
    srow[4] = f(f32::MAX);
    checks.refused("a result that is not finite", position_of(&placed_file(BIG, 1, srow), [2, 0, 0]), 23, 0);
    checks.holds("the same at index 1", position_of(&placed_file(BIG, 1, srow), [1, 0, 0]).is_ok());
    let minus = placed_file(BIG, 1, [0x8000_0000; 12]);
    checks.equal("all terms -0", bits(position_of(&minus, [0; 3])), Ok([0x8000_0000; 3]));
    let widest = [-64.0, -64.0, -64.0, -8_388_608.0].map(f);
    let file = placed_file(LITTLE, 1, [widest, widest, widest].concat().try_into().unwrap());
    checks.equal("whole numbers", position_of(&file, [299, 298, 297]), Ok([-(64.0 * 894.0 + 8_388_608.0); 3]));
}

fn swaps(checks: &mut Checks) {
    let count = |width| NUMBERS.iter().filter(|row| row.1 == width).map(|row| row.2).sum::<usize>();
    checks.equal("numbers of the header", (count(2), count(4)), (16, 40));
    let mut header = single(LITTLE).offset(368_f32.to_bits());
    header.set32(32, 16384);
    header.bytes[38] = b'r';
    header.bytes[123] = 10;
    let payload = b"as it is";
    let image = [1, 2, 3, 4, 5, 6, 7, 8, 9, 10, 11, 12];
    let file = header.file(&[&EXTENSIONS, &note(16, 6)[..8], payload, &image, b"after"]);
    let (swapped, _) = swap(&file, &[]).unwrap();
    let mut big = single(BIG).offset(368_f32.to_bits());
    big.set32(32, 16384);
    big.bytes[38] = b'r';
    big.bytes[123] = 10;
    let turned = [2, 1, 4, 3, 6, 5, 8, 7, 10, 9, 12, 11];
    let expected = big.file(&[&EXTENSIONS, &extension(BIG, 16, 6, payload), &turned, b"after"]);
    checks.equal("extents", swapped[32..36].to_vec(), vec![0, 0, 0x40, 0]);
    checks.equal("swapped single file", swapped, expected);
    let image: Vec<u8> = (1..=40).collect();
    let units: [(i16, usize); 6] = [(32, 4), (128, 1), (1536, 16), (1792, 8), (2048, 16), (2304, 1)];
    for (datatype, unit) in units {
        let file = Header::new(BIG, true).dims(&[1]).datatype(datatype).offset(0x3f80_0000).bytes;
        let bytes = read(&file).unwrap().voxel_bytes() as usize;
        let mut turned = image.clone();
        turned[1..1 + bytes].chunks_mut(unit).for_each(|unit| unit.reverse());
        checks.equal("unit", swap(&file, &image).map(|both| both.1), Ok(turned));
    }
}

fn edits(checks: &mut Checks) {
    for (payload, size) in [(0, 16), (8, 16), (9, 32), (24, 32), (25, 48)] {
        checks.equal("stored size", stored_size(payload), size);
    }
    let a = file_a();
    let buffer = [&a[..], &[0xaa; 20]].concat();
    let five = Edit::Append { code: 6, payload: b"hello" };
    let (whole, length) = edit(&buffer, 364, &five).unwrap();
    let note = [&[16, 0, 0, 0, 6, 0, 0, 0][..], b"hello\0\0\0"].concat();
    let mut header = a[..348].to_vec();
    header[108..112].copy_from_slice(&[0, 0, 0xb8, 0x43]);
    checks.equal("appending to A", whole.clone(), [&header[..], &[1, 0, 0, 0], &note, &a[352..], &[0xaa; 4]].concat());
    checks.equal("its length", length, 380);
    checks.equal("its voxel (2,1)", voxel(&whole[..380], 0, [2, 1, 0, 0, 0, 0, 0]), Ok((378, 2)));
    checks.equal("exact fit", edit(&buffer[..380], 364, &five).map(|done| done.1), Ok(380));
    checks.refused("one byte too long", edit(&buffer[..379], 364, &five), 22, 0);
    checks.refused("stated length above the buffer", edit(&[], 1, &five), 24, 0);
    let (back, length) = edit(&whole, 380, &Edit::Remove { number: 0 }).unwrap();
    checks.equal("removing it", (back, length), ([&a[..], &[0; 16], &[0xaa; 4]].concat(), 364));
    checks.refused("nothing to remove", edit(&a, 364, &Edit::Remove { number: 0 }), 18, 0);
    checks.refused("18 before 19", edit(&a, 364, &Edit::Replace { number: 0, code: -1, payload: &[] }), 18, 0);
    checks.refused("negative code", edit(&a, 364, &Edit::Append { code: -1, payload: &[] }), 19, 0);
    let private = pair(BIG).file(&[&NO_EXTENSIONS, &[7]]);
    checks.refused("private bytes", edit(&private, 353, &five), 20, 0);
    let bare = pair(BIG).offset(0x8000_0000).file(&[&[0x55; 30]]);
    let grown = pair(BIG).offset(0x8000_0000).file(&[&EXTENSIONS, &extension(BIG, 16, 6, b"hello\0\0\0"), &[0x55; 10]]);
    checks.equal("pair of 348 bytes", edit(&bare, 348, &five), Ok((grown.clone(), 368)));
    let emptied = pair(BIG).offset(0x8000_0000).file(&[&NO_EXTENSIONS, &[0; 16], &[0x55; 10]]);
    checks.equal("its only extension removed", edit(&grown, 368, &Edit::Remove { number: 0 }), Ok((emptied, 352)));
    let full = pair_with(&vec![extension(LITTLE, 16, 0, &[0; 8]); 64]);
    checks.refused("a 65th", edit(&full, full.len() as u64, &five), 21, 0);
    let mut list = [extension(LITTLE, 16, 0, &[1; 8]), extension(LITTLE, 32, 2, &[2; 24]), extension(LITTLE, 16, 4, &[3; 8])];
    let three = pair_with(&list);
    list[1] = extension(LITTLE, 16, 6, b"hello\0\0\0");
    let replaced = [pair_with(&list), vec![0; 16]].concat();
    let middle = Edit::Replace { number: 1, code: 6, payload: b"hello" };
    checks.equal("the middle replaced", edit(&three, 416, &middle), Ok((replaced, 400)));
}

/// Axes 2 1 3 with old axis 2 reversed, which is a quarter of a turn about axis 3, and that turn back.
const QUARTER: Turn = Turn { axes: [2, 1, 3], reversed: [false, true, false] };
const QUARTER_BACK: Turn = Turn { axes: [2, 1, 3], reversed: [true, false, false] };
const SAME: Turn = Turn { axes: [1, 2, 3], reversed: [false; 3] };

/// The volume of 3 x 2 x 2 bytes that examples/turn.c turns, with dim_info, slice_code and pixdim 0 and 4 too. Voxel (i, j, k)
/// holds 100 i + 10 j + k.
fn volume(order: Order, pair: bool) -> Header {
    let mut header = Header::new(order, pair).dims(&[3, 2, 2]).datatype(2).offset(if pair { 0x4040_0000 } else { OFFSET_352 });
    header.bytes[39] = 0x39;
    header.bytes[122] = 3;
    header.set16(252, 1);
    header.set16(254, 1);
    (0..5).for_each(|i| header.set32(76 + 4 * i, [-1.0_f32, 3.0, 6.0, 9.0, 0.5][i].to_bits()));
    with_rows(header, [[2.0, 4.0, -3.0, -10.0], [-1.0, 4.0, 6.0, -20.0], [2.0, -2.0, 6.0, -30.0]])
}

fn with_rows(mut header: Header, rows: [[f32; 4]; 3]) -> Header {
    rows.iter().flatten().enumerate().for_each(|(i, number)| header.set32(280 + 4 * i, number.to_bits()));
    header
}

const VOXELS: [u8; 12] = [0, 100, 200, 10, 110, 210, 1, 101, 201, 11, 111, 211];
const TURNED: [u8; 12] = [10, 0, 110, 100, 210, 200, 11, 1, 111, 101, 211, 201];

/// The volume's header after the quarter turn.
fn turned_volume(order: Order, pair: bool) -> Header {
    let mut header = volume(order, pair).dims(&[2, 3, 2]);
    header.bytes[39] = 0;
    header.bytes[122] = 0;
    header.set16(252, 0);
    header.set32(80, 6_f32.to_bits());
    header.set32(84, 3_f32.to_bits());
    with_rows(header, [[-4.0, 2.0, -3.0, -6.0], [-4.0, -1.0, 6.0, -16.0], [2.0, 2.0, 6.0, -32.0]])
}

/// Into buffers that are long enough.
fn turned(file: &[u8], image: &[u8], by: &Turn) -> Result<Both, Refusal> {
    turn(file, image, by, [file.len() as u64, image.len() as u64])
}

fn turns(checks: &mut Checks) {
    for order in [BIG, LITTLE] {
        let note = extension(order, 32, 6, &[0x2e; 24]);
        let single = |header: Header, voxels: &[u8]| {
            header.offset(384_f32.to_bits()).file(&[&EXTENSIONS, &note, voxels, b"after the image"])
        };
        let (file, after) = (single(volume(order, false), &VOXELS), single(turned_volume(order, false), &TURNED));
        checks.equal("a quarter turn", turned(&file, &[], &QUARTER), Ok((after.clone(), Vec::new())));
        checks.equal("its image argument", turned(&file, b"unused", &QUARTER), Ok((after.clone(), Vec::new())));
        let mut back = file.clone();
        [39, 122, 252, 253].iter().for_each(|&at| back[at] = 0);
        checks.equal("turned back", turned(&after, &[], &QUARTER_BACK), Ok((back.clone(), Vec::new())));
        checks.equal("a turn that changes nothing", turned(&file, &[], &SAME), Ok((back, Vec::new())));
        let pair = |header: Header| header.file(&[&NO_EXTENSIONS, b"private"]);
        let image = |voxels: &[u8]| [b"at3", voxels, b"tail"].concat();
        let both = (pair(turned_volume(order, true)), image(&TURNED));
        checks.equal("a pair's quarter turn", turned(&pair(volume(order, true)), &image(&VOXELS), &QUARTER), Ok(both));
    }
    let half = Turn { axes: [1, 2, 3], reversed: [true, true, false] };
    checks.equal("two quarters", QUARTER.then(&QUARTER), half);
    checks.equal("a quarter and its inverse", [QUARTER.then(&QUARTER_BACK), QUARTER_BACK.then(&QUARTER)], [SAME; 2]);
    checks.equal("the inverse", QUARTER.back(), QUARTER_BACK);
    let round = Turn { axes: [2, 3, 1], reversed: [true, false, false] };
    let round_back = Turn { axes: [3, 1, 2], reversed: [false, false, true] };
    checks.equal("the inverse of three axes", (round.back(), round_back.back()), (round_back, round));
    let lengths = [5, 6, 7, 2, 3, 1, 1];
    checks.equal("where a voxel came from", came_from(&round, lengths, [1, 2, 3, 1, 2, 0, 0]), [1, 1, 2, 1, 2, 0, 0]);
    turned_rows(checks);
    turn_refusals(checks);
}

fn turned_rows(checks: &mut Checks) {
    let bits = |row: [f32; 4]| row.map(f32::to_bits);
    let row = |row, lengths, reversed| bits(reversed_row(row, lengths, reversed));
    let first = [true, false, false];
    checks.equal("no axis", row([1.0, -0.0, 3.0, -0.0], [4, 4, 4], [false; 3]), bits([1.0, -0.0, 3.0, -0.0]));
    checks.equal("one voxel", row([5.0, 0.0, 3.0, -0.0], [1, 1, 1], [true, true, false]), bits([-5.0, -0.0, 3.0, 0.0]));
    checks.equal("-0 stays", row([-5.0, 2.0, 3.0, -0.0], [1, 1, 1], first), bits([5.0, 2.0, 3.0, -0.0]));
    // 3 x (1 + 2^-23) is rounded to 3 + 2^-21 before 3 is taken away
    let rounded = [-f32::from_bits(0x3f80_0001), 0.0, 0.0, f32::from_bits(0x3500_0000)];
    checks.equal("the product is rounded", row([f32::from_bits(0x3f80_0001), 0.0, 0.0, -3.0], [4, 1, 1], first), bits(rounded));
    // 2^24 + 1 is rounded to 2^24
    let sum = [-1.0, -2.0, 0.0, 16_777_218.0];
    checks.equal("the sum is rounded", row([1.0, 2.0, 0.0, 16_777_216.0], [2, 2, 1], [true, true, false]), bits(sum));
    let other_sum = [-2.0, -1.0, 0.0, 16_777_220.0];
    checks.equal("in the old order", row([2.0, 1.0, 0.0, 16_777_216.0], [2, 2, 1], [true, true, false]), bits(other_sum));
}

fn turn_refusals(checks: &mut Checks) {
    let image = &[7; 15];
    let rows = |row| with_rows(volume(LITTLE, true), [[1.0, 2.0, 3.0, 4.0], row, [1.0, 2.0, 3.0, 4.0]]).bytes;
    let file = volume(LITTLE, true).bytes;
    let by = |file: &[u8], by: Turn| turned(file, image, &by);
    for axes in [[1, 2, 2], [3, 2, 3], [0, 1, 2], [2, 3, 4], [1, 2, 257], [1, 2, u64::MAX]] {
        checks.refused("not a permutation", by(&file, Turn { axes, ..QUARTER }), 30, 0);
    }
    checks.refused("two dims", by(&volume(BIG, true).dims(&[3, 2]).bytes, QUARTER), 29, 0);
    checks.holds("three dims", by(&file, QUARTER).is_ok());
    let most = f32::MAX;
    checks.holds("the most", by(&rows([0.0, most, 0.0, 0.0]), QUARTER).is_ok());
    checks.holds("the most is not passed", by(&rows([0.0, most, 0.0, -most]), QUARTER).is_ok());
    checks.holds("another axis", by(&rows([most, 0.0, 0.0, most]), QUARTER).is_ok());
    checks.refused("an infinite sum", by(&rows([0.0, most, 0.0, most]), QUARTER), 23, 0);
    let first = Turn { reversed: [true, false, false], ..SAME };
    checks.refused("an infinite product", by(&rows([most, 0.0, 0.0, 0.0]), first), 23, 0);
    let both = Turn { reversed: [true, true, false], ..SAME };
    checks.refused("infinite on the way", by(&rows([most / 2.0, -most, 0.0, most]), both), 23, 0);
    for bad in [f32::NAN, f32::INFINITY, f32::NEG_INFINITY] {
        let file = rows([1.0, 2.0, 3.0, bad]);
        checks.refused("not finite before", by(&file, SAME), 23, 0);
        for code in [[0, 0], [0xff, 0xff], [0, 0x80]] {
            let file = changed(file.clone(), 254, &code);
            let kept = by(&file, both).map(|new| new.0[280..328] == file[280..328]);
            checks.equal("rows that no sform uses stay", kept, Ok(true));
        }
    }
    checks.refused("image file one short", turned(&file, &image[..14], &QUARTER), 16, 0);
    checks.refused("file one short", turn(&file, image, &QUARTER, [347, 15]), 22, 0);
    checks.refused("image one short", turn(&file, image, &QUARTER, [348, 14]), 22, 0);
    checks.refused("tail one short", turn(&file, &[7; 16], &QUARTER, [348, 15]), 22, 0);
    let single = volume(BIG, false).file(&[&NO_EXTENSIONS, &VOXELS]);
    checks.holds("a single file needs no second buffer", turn(&single, image, &QUARTER, [364, 0]).is_ok());
    let every = with_rows(volume(LITTLE, true).dims(&[3, 2]), [[f32::NAN; 4]; 3]).bytes;
    let numbers: Vec<u64> = faults(&every, 8, &Turn { axes: [1, 1, 3], ..SAME }, [0, 0]).iter().map(|no| no.number).collect();
    checks.equal("all at once, in order", numbers, vec![16, 29, 30, 23, 22]);
    checks.refused("reading first", turn(&every[..347], &[], &Turn { axes: [1, 1, 3], ..SAME }, [0, 0]), 1, 0);
    checks.refused("with its place", turn(&changed(file, 344, b"nil\0"), &[], &QUARTER, [0, 0]), 4, 344);
}

/// The second implementation as the laws of a turn ask it.
const RULES: Engine = Engine { turn: |file, image, by| turned(file, image, by).ok(), swap: |file, image| swap(file, image).ok() };

/// The laws of a turn on random files, and the wrong programs on cases of the comparison.
fn turn_laws(checks: &mut Checks) {
    let mut tried = Tried::default();
    for number in 0..1500 {
        let random = &mut cases::Random::new(8, number);
        let file = turn_cases::file(random);
        let Some(known) = read(&file).ok().filter(|known| known.offset + known.image_bytes <= 1 << 14) else {
            continue;
        };
        let length = if known.pair { known.offset + known.image_bytes + number % 3 } else { 0 };
        let old = (file, random.bytes(length as usize));
        let [first, next] = [0, 0].map(|_| turn_cases::numbered(random.below(turn_cases::TURNS)));
        checks.equal("laws of a turn", broken(&RULES, &old, &first, &next, &mut tried), None);
    }
    checks.holds("enough turns", [tried.back, tried.composed, tried.swapped].iter().all(|&count| count > 500));
    let zeros = memory::zeros(cases::ZEROS);
    let random = cases::FIXED..cases::FIXED + 20_000;
    let fixed = cases::FIXED - turn_cases::FIXED..cases::FIXED - turn_cases::LARGE;
    for (name, count) in wrong_turns::noticed(fixed.step_by(5).chain(random).map(|number| case(1, number, zeros))) {
        checks.holds(name, count > 0);
    }
}

/// Wrong programs on cases of the comparison: on those of these numbers, and on random ones alone.
fn all_noticed(checks: &mut Checks, fixed: Range<u64>, noticed: fn(&mut dyn Iterator<Item = Case>, &[u8]) -> Noticed) {
    let zeros = memory::zeros(cases::ZEROS);
    let random = cases::FIXED..cases::FIXED + 20_000;
    for numbers in [fixed, random] {
        for (name, count) in noticed(&mut numbers.map(|number| case(1, number, zeros)), zeros) {
            checks.holds(name, count > 0);
        }
    }
}

/// Each on the cases made for it; the steps on all that hang on no seed but the large ones and the turns.
fn wrong_programs(checks: &mut Checks) {
    let turns = cases::FIXED - turn_cases::FIXED;
    let extenders = turns - extender_cases::FIXED;
    all_noticed(checks, extenders..turns, |cases, zeros| wrong_extenders::noticed(cases, zeros));
    all_noticed(checks, cases::LARGE..turns, |cases, _| wrong_steps::noticed(cases));
    all_noticed(checks, cases::SWAPS..cases::LINES, |cases, zeros| wrong_swaps::noticed(cases, zeros));
    all_noticed(checks, cases::LINES..cases::RANKS, |cases, _| wrong_lines::noticed(cases));
    all_noticed(checks, cases::RANKS..cases::RANKS + rank_cases::FIXED, |cases, _| wrong_ranks::noticed(cases));
    let alignments = extenders - record_cases::ALIGNMENTS..extenders;
    all_noticed(checks, alignments, |cases, zeros| wrong_alignment::noticed(cases, zeros));
}

/// Laws on random files: bytes that a state may not keep change nothing that is read, a voxel by the record is that by the file, a
/// swap twice restores, an edit's result is accepted and keeps every voxel, every step and whether the offset is aligned, removing
/// the extension just appended restores the file but for a first extender byte above 1, the voxels' ranges fill the image, the
/// lines along the first axis are the image, a line is the same through each of its voxels, and the reserved bytes change nothing
/// but themselves.
fn laws(checks: &mut Checks) {
    let mut accepted = 0;
    for number in 0..2000 {
        let file = &cases::file(&mut cases::Random::new(7, number));
        checks.holds("a twin is read alike", twin(file).map_or(true, |twin| read(&twin) == read(file)));
        record_law(checks, file, number as usize % 7);
        let Ok(known) = read(file) else {
            continue;
        };
        checks.equal("aligned by the whole number", known.aligned, known.offset % 16 == 0);
        if known.offset + known.image_bytes > 1 << 16 {
            continue;
        }
        accepted += 1;
        let image = vec![number as u8; (known.offset + known.image_bytes) as usize];
        let (other, other_image) = swap(file, &image).unwrap();
        let turned = read(&other).unwrap();
        checks.holds(
            "a swap keeps all but the order",
            turned.order != known.order && Known { order: known.order, ..turned } == known,
        );
        checks.holds("a swap twice restores", swap(&other, &other_image) == Ok((file.clone(), image.clone())));
        reserved_law(checks, file, &image, &other);
        checks.holds("the voxels fill the image", voxels_fill(&known, file, &image));
        line_law(checks, &known, file, number);
        let buffer = [file.clone(), vec![0; 64]].concat();
        let Ok((whole, length)) = edit(&buffer, file.len() as u64, &Edit::Append { code: 4, payload: b"a note of 18 bytes" })
        else {
            continue;
        };
        let edited = &whole[..length as usize];
        let moved = read(edited).unwrap();
        checks.equal("one more extension", moved.spans.len(), known.spans.len() + 1);
        checks.equal("and the same steps", moved.steps, known.steps);
        checks.equal("and the same alignment", moved.aligned, known.aligned);
        let last: [u64; 7] = std::array::from_fn(|i| known.axis(i + 1) - 1);
        let (before, after) = (voxel(file, image.len() as u64, last).unwrap(), voxel(edited, image.len() as u64, last).unwrap());
        checks.equal("voxels move with vox_offset", after.0 - before.0, moved.offset - known.offset);
        let (back, length) = edit(&whole, length, &Edit::Remove { number: known.spans.len() as u64 }).unwrap();
        let mut restored = file.clone();
        restored.resize(file.len().max(352), 0);
        restored[348] = restored[348].min(1);
        checks.holds("removing it restores the file", back[..length as usize] == restored);
    }
    checks.holds("enough random files", accepted > 500);
}

/// The first voxel, the last and one past this axis, by the record and by the file; with the whole image file and one byte less.
fn record_law(checks: &mut Checks, file: &[u8], past: usize) {
    let read = read(file);
    let record = file_answer(&read);
    let last: [u64; 7] = std::array::from_fn(|i| read.as_ref().map_or(0, |known| known.axis(i + 1) - 1));
    let mut outside = last;
    outside[past] += 1;
    let end = record.data_offset + record.data_bytes;
    for image_len in [end, end.saturating_sub(1)] {
        for index in [[0; 7], last, outside] {
            checks.equal("a voxel by the record", Asked { record, image_len, index }.voxel(), voxel(file, image_len, index));
        }
    }
}

/// Other reserved bytes, and another first byte above 0, change nothing but themselves: of a file, that swapped, and edits.
fn reserved_law(checks: &mut Checks, file: &[u8], image: &[u8], swapped: &[u8]) {
    let Some(&[first, a, b, c]) = file.get(348..352) else {
        return;
    };
    let first = if first == 0 { 0 } else { first % 255 + 1 };
    let twin = changed(file.to_vec(), 348, &[first, !a, !b, !c]);
    checks.holds("reserved bytes are not read", read(&twin) == read(file));
    let expected = changed(swapped.to_vec(), 348, &[first, !a, !b, !c]);
    checks.holds("reserved bytes are not swapped", swap(&twin, image).map(|both| both.0) == Ok(expected));
    let with_room = |file: &[u8]| [file, &[0xee; 64]].concat();
    let note = b"a note of 19 bytes.";
    let edits =
        [Edit::Append { code: 4, payload: note }, Edit::Replace { number: 0, code: 4, payload: note }, Edit::Remove { number: 0 }];
    for one in edits {
        let done = edit(&with_room(file), file.len() as u64, &one);
        let expected = done.map(|(whole, length)| (changed(whole, 349, &[!a, !b, !c]), length));
        checks.holds("reserved bytes are kept by an edit", edit(&with_room(&twin), file.len() as u64, &one) == expected);
    }
}

/// The lines along the first axis, one after the other, and a line through each of its voxels.
fn line_law(checks: &mut Checks, known: &Known, file: &[u8], number: u64) {
    let end = (known.offset + known.image_bytes) as usize;
    let image = cases::Random::new(9, number).bytes(end);
    let along = |axis, index| line::line(file, &image, &Line { axis, index }, known.image_bytes);
    let voxels = known.image_bytes / known.voxel_bytes();
    let holder = if known.pair { &image } else { file };
    let lines = (0..voxels).step_by(known.axis(1) as usize).map(|number| along(1, index_of(known, number)).unwrap());
    checks.holds("the lines are the image", lines.collect::<Vec<_>>().concat() == holder[known.offset as usize..end]);
    let index = index_of(known, number * 7919 % voxels);
    let (place, bytes) = voxel(file, end as u64, index).unwrap();
    for axis in 1..=known.axes() {
        let line = Line { axis: axis as u64, index };
        let through = |number| along(line.axis, line.through(number).index).unwrap();
        let first = through(0);
        checks.holds("a line through each of its voxels", (1..known.axis(axis)).all(|number| through(number) == first));
        let own = first.chunks_exact(bytes as usize).nth(index[axis - 1] as usize);
        checks.holds("the voxel is in its line", own == Some(&holder[place as usize..(place + bytes) as usize]));
    }
}

/// The indexes of the voxel with this number, the first varying fastest.
fn index_of(known: &Known, number: u64) -> [u64; 7] {
    let mut rest = number;
    std::array::from_fn(|i| {
        let here = rest % known.axis(i + 1);
        rest /= known.axis(i + 1);
        here
    })
}

fn voxels_fill(known: &Known, file: &[u8], image: &[u8]) -> bool {
    let voxels = known.image_bytes / known.voxel_bytes();
    (0..voxels).all(|number| {
        let index = index_of(known, number);
        voxel(file, image.len() as u64, index) == Ok((known.offset + number * known.voxel_bytes(), known.voxel_bytes()))
    })
}

pub fn run() {
    let mut checks = Checks::default();
    let values = [
        file_a_numbers, offsets, alignment, images, steps_read, voxels_by_record, lines, headers, reserved_bytes, extensions,
        pieces, slices, slices_of_ranks, positions, swaps, edits, turns,
    ];
    for part in values.into_iter().chain([laws as fn(&mut Checks), rank_laws, turn_laws, wrong_programs]) {
        part(&mut checks);
    }
    println!("self-check: {} checks, {} failed", checks.done, checks.failed);
    std::process::exit((checks.failed > 0) as i32);
}
