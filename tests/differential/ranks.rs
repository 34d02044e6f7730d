//! The slice of a rank in the comparison (02-change-requests.md, P8): which refusals of reading held together with 17, which
//! borders were met, and the laws of ranks, asked of the library.

use crate::cases::{Call, Case};
use crate::library::*;
use crate::line::NO_INDEX;
use crate::rules::{self, Known, Order, Refusal, Timing};
use crate::together::Together;
use crate::{ranked_answer, Outcome};
use std::fmt::Debug;

/// A rank of a file that reading accepts.
struct Asked<'a> {
    known: &'a Known,
    timing: Timing,
    rank: u64,
}

impl Asked<'_> {
    fn answered(&self) -> bool {
        self.timing.stated() && self.rank < self.timing.count()
    }

    /// N slices, of which one is answered.
    fn of(&self, count: u64) -> bool {
        self.answered() && self.timing.count() == count
    }

    /// This rank, which 17 refuses.
    fn past(&self, rank: u64) -> bool {
        self.timing.stated() && self.rank >= self.timing.count() && self.rank == rank
    }

    /// This rank, which nothing refuses as timing is not stated.
    fn unstated(&self, rank: u64) -> bool {
        !self.timing.stated() && self.rank == rank
    }

    fn infinite(&self) -> bool {
        self.answered() && self.timing.seconds(self.rank as i64).is_infinite()
    }
}

type Met = fn(&Asked) -> bool;

const BORDERS: [(&str, Met); 29] = [
    ("N 2", |asked| asked.of(2)),
    ("N 3", |asked| asked.of(3)),
    ("N 32766", |asked| asked.of(32766)),
    ("N 32767", |asked| asked.of(32767)),
    ("rank 0", |asked| asked.answered() && asked.rank == 0),
    ("rank N - 1", |asked| asked.answered() && asked.rank + 1 == asked.timing.count()),
    ("rank N", |asked| asked.past(asked.timing.count())),
    ("rank 2^16", |asked| asked.past(1 << 16)),
    ("rank 2^32", |asked| asked.past(1 << 32)),
    ("rank 2^32 + 1", |asked| asked.past((1 << 32) + 1)),
    ("rank 2^64 - 1", |asked| asked.past(u64::MAX)),
    ("rank 0, unstated", |asked| asked.unstated(0)),
    ("rank end - start + 1, unstated", |asked| asked.timing.start < asked.timing.end && asked.unstated(asked.timing.count())),
    ("rank 2^16, unstated", |asked| asked.unstated(1 << 16)),
    ("rank 2^32, unstated", |asked| asked.unstated(1 << 32)),
    ("rank 2^32 + 1, unstated", |asked| asked.unstated((1 << 32) + 1)),
    ("rank 2^64 - 1, unstated", |asked| asked.unstated(u64::MAX)),
    ("start above 0", |asked| asked.answered() && asked.timing.start > 0),
    ("end below the last slice", |asked| asked.answered() && asked.timing.end + 1 < asked.timing.slices),
    ("no padding", |asked| asked.answered() && asked.timing.count() == asked.timing.slices as u64),
    ("slices on axis 1", |asked| asked.answered() && asked.timing.axis == 1),
    ("slices on axis 2", |asked| asked.answered() && asked.timing.axis == 2),
    ("slices on axis 3", |asked| asked.answered() && asked.timing.axis == 3),
    ("little-endian", |asked| asked.answered() && asked.known.order == Order::Little),
    ("big-endian", |asked| asked.answered() && asked.known.order == Order::Big),
    ("a single file", |asked| asked.answered() && !asked.known.pair),
    ("a pair", |asked| asked.answered() && asked.known.pair),
    ("an infinite time", |asked| asked.infinite()),
    ("the least duration", |asked| asked.answered() && asked.timing.duration.to_bits() == 1),
];

const CODES: [&str; 6] = ["SEQ_INC", "SEQ_DEC", "ALT_INC", "ALT_DEC", "ALT_INC2", "ALT_DEC2"];

const LAWS: [&str; 4] = [
    "the slice of a rank has that rank",
    "it is unstated where its time is infinite",
    "the rank of a slice has that slice",
    "in the other direction it has the slice at start + end - s",
];

#[derive(Default)]
pub struct Reached {
    together: Together,
    borders: [u64; BORDERS.len()],
    /// A slice answered by each code, of even and of odd N.
    codes: [[u64; 2]; CODES.len()],
    /// How often each law was tried.
    laws: [u64; LAWS.len()],
}

/// Every refusal that holds: that of reading, then 17. Of a file that reading refuses, 17 is judged of a rank that is past every N.
pub fn faults(file: &[u8], rank: u64) -> Vec<Refusal> {
    let read = rules::read(file);
    let past = match &read {
        Ok(known) => {
            let timing = Timing::of(file, known);
            timing.stated() && rank >= timing.count()
        }
        Err(_) => rank >= NO_INDEX,
    };
    read.err().into_iter().chain(past.then_some(Refusal { number: 17, place: 0 })).collect()
}

impl Reached {
    pub fn count(&mut self, case: &Case) {
        let Call::SliceOfRank { rank } = case.call else {
            return;
        };
        self.together.count(&faults(&case.main, rank));
        let Ok(known) = &rules::read(&case.main) else {
            return;
        };
        let asked = Asked { known, timing: Timing::of(&case.main, known), rank };
        BORDERS.iter().zip(&mut self.borders).for_each(|((_, met), count)| *count += met(&asked) as u64);
        if asked.answered() {
            self.codes[asked.timing.code as usize - 1][asked.timing.count() as usize % 2] += 1;
        }
    }

    /// What has to be met, and how often it was.
    fn met(&self) -> Vec<(String, u64)> {
        let by_code = |(code, [even, odd]): (&&str, [u64; 2])| [(format!("{code}, N even"), even), (format!("{code}, N odd"), odd)];
        let codes = CODES.iter().zip(self.codes).flat_map(by_code);
        let borders = BORDERS.iter().zip(self.borders).map(|((name, _), count)| (name.to_string(), count));
        codes.chain(borders).chain(LAWS.iter().zip(self.laws).map(|(law, count)| (law.to_string(), count))).collect()
    }

    pub fn print(&self) {
        self.together.print("rank");
        let met: Vec<String> = self.met().iter().map(|(name, count)| format!("{name}: {count}")).collect();
        println!("borders and laws of a rank: {}", met.join(", "));
    }

    /// What was never met.
    pub fn missing(&self) -> Vec<String> {
        let together = self.together.missing("rank", (1..=15).map(|first| (first, 17)).collect());
        let met = self.met().into_iter().filter(|row| row.1 == 0).map(|row| format!("{} by rank", row.0));
        together.into_iter().chain(met).collect()
    }

    fn tried<T: PartialEq + Debug>(&mut self, law: usize, rules: T, library: T) -> Option<String> {
        self.laws[law] += 1;
        (library != rules).then(|| format!("{}\n  rules   {rules:?}\n  library {library:?}", LAWS[law]))
    }

    /// When the slice of a rank was acquired, by the library; then the slice of that rank in the file with the code of the other
    /// direction.
    fn back_and_mirrored(&mut self, file: &[u8], timing: &Timing, rank: u64, slice: u32) -> Option<String> {
        let seconds = timing.seconds(rank as i64);
        let timed = SliceAnswer { state: 2, rank: rank as u32, seconds: Float(seconds), ..SliceAnswer::default() };
        let expected = if seconds.is_infinite() { SliceAnswer::default() } else { timed };
        let back = unsafe { vestumbral_slice_at(file.as_ptr(), file.len(), slice as u64) };
        let mut other = file.to_vec();
        other[122] = timing.mirrored().code;
        let mirrored = unsafe { vestumbral_slice_of_rank(other.as_ptr(), other.len(), rank) };
        let mirror = (timing.start + timing.end) as u32 - slice;
        self.tried(seconds.is_infinite() as usize, expected, back)
            .or_else(|| self.tried(3, ranked_answer(Ok(Some(mirror))), mirrored))
    }
}

/// How the library breaks a law of ranks on the file of the case, which lies in memory as the call was given it. What the call
/// answered is what was expected.
pub fn difference(case: &Case, file: &[u8], expected: &Outcome, reached: &mut Reached) -> Option<String> {
    match (case.call, expected.answer) {
        (Call::SliceOfRank { rank }, Answer::Ranked(RankedAnswer { stated: 1, slice, .. })) => {
            let timing = Timing::of(file, &rules::read(file).ok()?);
            reached.back_and_mirrored(file, &timing, rank, slice)
        }
        (Call::SliceAt { slice }, Answer::Slice(SliceAnswer { state: 2, rank, .. })) => {
            let found = unsafe { vestumbral_slice_of_rank(file.as_ptr(), file.len(), rank as u64) };
            reached.tried(2, ranked_answer(Ok(Some(slice as u32))), found)
        }
        _ => None,
    }
}
