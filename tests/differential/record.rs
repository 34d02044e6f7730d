//! "Keep the sizes in the record" (02-change-requests.md, P4) a second time, written from the papers and include/vestumbral.h alone,
//! as rules.rs is: a voxel by the record that reading answers, whatever that record holds. Whether it says that its offset is
//! aligned (P6) plays no part. The numbers are those of mathematics: 128 bits hold a product of two, and a sum that they do not
//! hold is past every limit.

use crate::library::FileAnswer;
use crate::rules::{Refusal, IMAGE_LIMIT, REGION, REGION_LIMIT};

/// What is tried, in this order: the record's own refusal, and these numbers.
pub const TRIED: [&str; 6] = ["own", "2", "9", "16", "17", "26"];

/// What voxel_in is given.
#[derive(Clone, Copy, PartialEq, Debug)]
pub struct Asked {
    pub record: FileAnswer,
    pub image_len: u64,
    pub index: [u64; 7],
}

impl Asked {
    /// The length of axis 1..7: 1 after dim[0], and 0 where dim is below 0.
    pub fn axis(&self, axis: usize) -> u64 {
        let dim = &self.record.dim;
        if axis as i64 <= dim[0] as i64 {
            dim[axis].max(0) as u64
        } else {
            1
        }
    }

    /// How many bytes after the first voxel this one begins.
    pub fn distance(&self) -> u128 {
        self.index.iter().zip(&self.record.step).fold(0, |sum: u128, (&i, &step)| sum.saturating_add(i as u128 * step as u128))
    }

    /// Where this voxel ends, from the first one's beginning.
    pub fn end(&self) -> u128 {
        self.distance().saturating_add(self.record.step[0] as u128)
    }

    /// Where the image ends in its file.
    pub fn image_end(&self) -> u128 {
        self.record.data_offset as u128 + self.record.data_bytes as u128
    }

    /// Those tried that hold, each judged by itself.
    pub fn faults(&self) -> [Option<Refusal>; TRIED.len()] {
        let FileAnswer { refusal, place, data_offset, data_bytes, pair, dim, step, .. } = self.record;
        let rows = [
            (refusal, place, refusal != 0),
            (2, 40, !(1..=7).contains(&dim[0])),
            (9, 108, data_offset > REGION_LIMIT || pair == 0 && data_offset < REGION),
            (16, 0, pair != 0 && (self.image_len as u128) < self.image_end()),
            (17, 0, (1..=7).any(|axis| self.index[axis - 1] >= self.axis(axis))),
            (26, 0, step[0] == 0 || data_bytes > IMAGE_LIMIT || self.end() > data_bytes as u128),
        ];
        rows.map(|(number, place, holds)| holds.then_some(Refusal { number, place }))
    }

    /// The voxel's place and length, or the first refusal that holds.
    pub fn voxel(&self) -> Result<(u64, u64), Refusal> {
        match self.faults().into_iter().flatten().next() {
            Some(first) => Err(first),
            None => Ok((self.record.data_offset + self.distance() as u64, self.record.step[0])),
        }
    }
}
