//! The record that reading answers, in the comparison (02-change-requests.md, P4): a voxel by it beside the voxel by the file, the
//! record of what a call that writes has left, and which refusals, borders and conflicts of order voxel_in has met.

use crate::cases::{Call, Case};
use crate::library::*;
use crate::record::{Asked, TRIED};
use crate::rules::{self, IMAGE_LIMIT, REGION, REGION_LIMIT};
use crate::{by_record, file_answer, reply, Counts, Outcome, VOXEL_IN};

type Met = fn(&Asked) -> bool;

/// No refusal holds, or this one alone.
fn located(asked: &Asked) -> bool {
    asked.voxel().is_ok()
}

fn alone(asked: &Asked, number: &str) -> bool {
    asked.faults().iter().zip(TRIED).all(|(fault, name)| fault.is_some() == (name == number))
}

fn first(asked: &Asked, number: &str) -> bool {
    asked.faults().iter().zip(TRIED).find(|(fault, _)| fault.is_some()).is_some_and(|(_, name)| name == number)
}

/// Where 64 bits put the voxel's end, which is past them.
fn comes_back(asked: &Asked) -> bool {
    let Asked { record, index, .. } = asked;
    let products = index.iter().zip(&record.step).map(|(&i, &step)| i.wrapping_mul(step));
    let end = products.fold(record.step[0], u64::wrapping_add);
    asked.end() > u64::MAX as u128 && end <= record.data_bytes
}

fn product_passes(asked: &Asked) -> bool {
    asked.index.iter().zip(&asked.record.step).any(|(&i, &step)| i as u128 * step as u128 > u64::MAX as u128)
}

/// On each side of every limit, with nothing else wrong.
const BORDERS: [(&str, Met); 31] = [
    ("a voxel that ends with the image", |asked| located(asked) && asked.end() == asked.record.data_bytes as u128),
    ("one byte past it", |asked| alone(asked, "26") && asked.end() == asked.record.data_bytes as u128 + 1),
    ("the most image bytes", |asked| located(asked) && asked.record.data_bytes == IMAGE_LIMIT),
    ("their last voxel", |asked| located(asked) && asked.end() == IMAGE_LIMIT as u128),
    ("one more than these", |asked| {
        alone(asked, "26") && asked.record.data_bytes == IMAGE_LIMIT + 1 && asked.end() <= IMAGE_LIMIT as u128
    }),
    ("no image bytes", |asked| alone(asked, "26") && asked.record.data_bytes == 0),
    ("a first step of 0", |asked| alone(asked, "26") && asked.record.step[0] == 0),
    ("a later step of 0", |asked| located(asked) && asked.record.step[1..].contains(&0)),
    ("a step of 2^64 - 1 that nothing multiplies", |asked| located(asked) && asked.record.step.contains(&u64::MAX)),
    ("one that 1 does", |asked| {
        alone(asked, "26") && asked.index.iter().zip(&asked.record.step).any(|pair| pair == (&1, &u64::MAX))
    }),
    ("a product of 65 bits that comes back", |asked| alone(asked, "26") && comes_back(asked) && product_passes(asked)),
    ("a sum of 65 bits that comes back", |asked| alone(asked, "26") && comes_back(asked) && !product_passes(asked)),
    ("an image file that ends with the image", |asked| {
        located(asked) && asked.record.pair != 0 && asked.image_len as u128 == asked.image_end()
    }),
    ("one byte less", |asked| alone(asked, "16") && asked.image_len as u128 + 1 == asked.image_end()),
    ("an image that ends past 2^64", |asked| first(asked, "16") && asked.image_end() > u64::MAX as u128),
    ("no image file for a single file", |asked| located(asked) && asked.record.pair == 0 && asked.image_len == 0),
    ("a pair by another number than 1", |asked| located(asked) && asked.record.pair > 1),
    ("16 by such a one", |asked| alone(asked, "16") && asked.record.pair > 1),
    ("a single file at 352", |asked| located(asked) && asked.record.pair == 0 && asked.record.data_offset == REGION),
    ("one at 351", |asked| alone(asked, "9") && asked.record.data_offset == REGION - 1),
    ("a pair at 0", |asked| located(asked) && asked.record.pair != 0 && asked.record.data_offset == 0),
    ("a single file at 2^27", |asked| located(asked) && asked.record.pair == 0 && asked.record.data_offset == REGION_LIMIT),
    ("one past it", |asked| alone(asked, "9") && asked.record.pair == 0 && asked.record.data_offset == REGION_LIMIT + 1),
    ("a pair at 2^27", |asked| located(asked) && asked.record.pair != 0 && asked.record.data_offset == REGION_LIMIT),
    ("one past 2^27", |asked| alone(asked, "9") && asked.record.pair != 0 && asked.record.data_offset == REGION_LIMIT + 1),
    ("seven axes", |asked| located(asked) && asked.index.iter().all(|&index| index > 0)),
    ("0 or 8 axes", |asked| alone(asked, "2") && matches!(asked.record.dim[0], 0 | 8)),
    ("fewer than no axes", |asked| alone(asked, "2") && asked.record.dim[0] < 0),
    ("an axis of less than no voxel", |asked| {
        alone(asked, "17") && asked.index == [0; 7] && (1..=7).any(|axis| asked.axis(axis) == 0 && asked.record.dim[axis] < 0)
    }),
    ("an index after dim[0]", |asked| {
        alone(asked, "17") && (1..=7).all(|axis| asked.index[axis - 1] < asked.axis(axis) || asked.record.dim[0] < axis as i16)
    }),
    ("an index of 2^64 - 1", |asked| first(asked, "17") && asked.index.contains(&u64::MAX)),
];

/// How often each was met.
#[derive(Default)]
pub struct Reached {
    /// Which of those tried was given, and last none.
    given: [u64; TRIED.len() + 1],
    /// Two that held together, the one tried first before the other.
    together: [[u64; TRIED.len()]; TRIED.len()],
    borders: [u64; BORDERS.len()],
    /// Records of files that were read, whole and in one piece: located, and refused by that file's own refusal, 16 and 17.
    read: [u64; 2],
    /// Records of files that a swap, an edit and a turn left.
    left: [u64; 3],
}

const LEFT: [&str; 3] = ["a swap", "an edit", "a turn"];

impl Reached {
    pub fn count(&mut self, asked: &Asked) {
        let held: Vec<usize> = (0..TRIED.len()).filter(|&tried| asked.faults()[tried].is_some()).collect();
        self.given[held.first().copied().unwrap_or(TRIED.len())] += 1;
        for (i, &first) in held.iter().enumerate() {
            held[i + 1..].iter().for_each(|&second| self.together[first][second] += 1);
        }
        BORDERS.iter().zip(&mut self.borders).for_each(|((_, met), count)| *count += met(asked) as u64);
    }

    pub fn print(&self) {
        let given = TRIED.iter().chain(&["none"]).zip(self.given).map(|(name, count)| format!("{name}: {count}"));
        println!("by a record, the first that holds: {}", given.collect::<Vec<_>>().join(", "));
        let together = pairs().map(|(i, j)| format!("{} {}: {}", TRIED[i], TRIED[j], self.together[i][j]));
        println!("two refusals of a record, the first given: {}", together.collect::<Vec<_>>().join(", "));
        let borders = BORDERS.iter().zip(self.borders).map(|((name, _), count)| format!("{name}: {count}"));
        println!("borders of a record: {}", borders.collect::<Vec<_>>().join(", "));
        let left = LEFT.iter().zip(self.left).map(|(name, count)| format!("{count} after {name}"));
        let [located, refused] = self.read;
        println!("by a record as by the file: {located} voxels, {refused} refusals; {}", left.collect::<Vec<_>>().join(", "));
    }

    /// What was never met.
    pub fn missing(&self) -> Vec<String> {
        let given =
            TRIED.iter().chain(&["none"]).zip(self.given).filter(|row| row.1 == 0).map(|row| format!("{} by a record", row.0));
        let together = pairs().filter(|&(i, j)| self.together[i][j] == 0);
        let together = together.map(|(i, j)| format!("{} before {} by voxel_in", TRIED[i], TRIED[j]));
        let borders = BORDERS.iter().zip(self.borders).filter(|row| row.1 == 0).map(|row| row.0 .0.to_string());
        let read = self.read.contains(&0).then(|| "a voxel and a refusal by a record as by the file".to_string());
        let left = LEFT.iter().zip(self.left).filter(|row| row.1 == 0).map(|row| format!("a record after {}", row.0));
        given.chain(together).chain(borders).chain(read).chain(left).collect()
    }
}

/// Two of those tried, the one that is tried first before the other.
fn pairs() -> impl Iterator<Item = (usize, usize)> {
    (0..TRIED.len()).flat_map(|i| (i + 1..TRIED.len()).map(move |j| (i, j)))
}

/// The library's answer by a record, beside what the rules say of the file.
fn voxel_difference(name: &str, record: FileAnswer, image_len: u64, index: [u64; 7], expected: Answer) -> Option<String> {
    let answer = unsafe { by_record(&Asked { record, image_len, index }) };
    (answer != expected).then(|| {
        format!(
            "voxel_in {index:?} of {name}, image file of {image_len}\n  rules   {expected:?}\n  library {answer:?}\n  {record:?}"
        )
    })
}

/// The voxel of a case by the record of its file, which is read whole and in one piece.
fn as_by_file(file: &[u8], image_len: u64, index: [u64; 7], expected: &Outcome, counts: &mut Counts) -> Option<String> {
    let (from, length) = (file.as_ptr(), file.len());
    let whole = unsafe { vestumbral_read(from, length) };
    let piece = unsafe { vestumbral_pieces_file(vestumbral_pieces_take(vestumbral_pieces_start(), from, length).pieces) };
    let refusal = expected.answer.refusal();
    counts.add(VOXEL_IN, refusal);
    counts.records.read[(refusal != 0) as usize] += 1;
    voxel_difference("the file", whole, image_len, index, expected.answer)
        .or_else(|| voxel_difference("the file in one piece", piece, image_len, index, expected.answer))
}

/// The record of the file that a call left, and voxels by it: the first, the last, one past each axis in turn, and the last with an
/// image file that is one byte short.
fn after(file: &[u8], counts: &mut Counts) -> Option<String> {
    let read = rules::read(file);
    let (expected, record) = (file_answer(&read), unsafe { vestumbral_read(file.as_ptr(), file.len()) });
    if record != expected {
        return Some(format!("the file that is left is read\n  rules   {expected:?}\n  library {record:?}"));
    }
    let known = read.ok()?;
    let end = known.offset + known.image_bytes;
    let last: [u64; 7] = std::array::from_fn(|i| known.axis(i + 1) - 1);
    let past = (0..7).map(|past| std::array::from_fn(|i| last[i] + (i == past) as u64));
    let voxels = [[0; 7], last].into_iter().chain(past).map(|index| (index, end)).chain([(last, end - 1)]);
    voxels.into_iter().find_map(|(index, image_len)| {
        let expected = reply(rules::voxel(file, image_len, index));
        counts.add(VOXEL_IN, expected.refusal());
        voxel_difference("the file that is left", record, image_len, index, expected)
    })
}

/// How the library differs on the record of the file that the case is about, or that it leaves. The file lies in memory as the call
/// was given it, and what the call left is what was expected.
pub fn difference(case: &Case, file: &[u8], expected: &Outcome, counts: &mut Counts) -> Option<String> {
    let length = match expected.answer {
        Answer::Reply(Reply { refusal: 0, length, .. }) | Answer::Turned(TurnedAnswer { refusal: 0, length, .. }) => {
            length as usize
        }
        _ => 0,
    };
    let (kind, left) = match case.call {
        Call::Voxel { index } => return as_by_file(file, case.other.length() as u64, index, expected, counts),
        Call::VoxelIn(asked) => {
            counts.records.count(&asked);
            return None;
        }
        _ if expected.answer.refusal() != 0 => return None,
        Call::Swap | Call::SwapByUnit => (0, &expected.main[..]),
        Call::Append { .. } | Call::Replace { .. } | Call::Remove { .. } => (1, &expected.main[..length]),
        Call::Turn { .. } => (2, &expected.rooms[0][..length]),
        _ => return None,
    };
    counts.records.left[kind] += 1;
    after(left, counts)
}
