//! Wrong programs that tell whether the offset is a multiple of 16 (02-change-requests.md, P6), of the kind that a hurried
//! colleague would write. The cases of the comparison must notice each. None is here that tells it of the file before an edit: an
//! edit that is done never changes it.

use crate::cases::{Call, Case};
use crate::library::{Answer, FileAnswer, Reply};
use crate::noticed::{self, Noticed};
use crate::rules::{f32_at, walked, Order, Refusal, RESERVED};
use crate::{by_rules, reply};

/// What such a program answers, by the case and the right answer.
type Wrong = fn(&Case, Answer) -> Answer;

/// The right program but for what is told of a file that is read and accepted, by its vox_offset.
fn reading(case: &Case, right: Answer, aligned: fn(f32) -> bool) -> Answer {
    match right {
        Answer::File(file) if file.refusal == 0 => {
            let order = if file.big_endian == 1 { Order::Big } else { Order::Little };
            Answer::File(FileAnswer { aligned: aligned(f32_at(&case.main, 108, order)) as u32, ..file })
        }
        _ => right,
    }
}

/// The right program but for what is told in the replies that this picks.
fn replying(case: &Case, right: Answer, picked: fn(&Case, &Reply) -> bool, aligned: fn(&Reply) -> u64) -> Answer {
    match right {
        Answer::Reply(reply) if picked(case, &reply) => Answer::Reply(Reply { aligned: aligned(&reply), ..reply }),
        _ => right,
    }
}

/// An edit that is done.
fn edited(case: &Case, reply: &Reply) -> bool {
    reply.refusal == 0 && matches!(case.call, Call::Append { .. } | Call::Replace { .. } | Call::Remove { .. })
}

/// The right program but for a voxel that is located by a record, which is refused where this says.
fn judging(case: &Case, right: Answer, refused: fn(&FileAnswer) -> bool, number: u64, place: u64) -> Answer {
    match case.call {
        Call::VoxelIn(asked) if right.refusal() == 0 && refused(&asked.record) => reply(Err(Refusal { number, place })),
        _ => right,
    }
}

const WRONG: [(&str, Wrong); 21] = [
    ("multiples of 8 are aligned", |case, right| reading(case, right, |at| at % 8.0 == 0.0)),
    ("multiples of 32 alone are aligned", |case, right| reading(case, right, |at| at % 32.0 == 0.0)),
    ("0 is not aligned", |case, right| reading(case, right, |at| at != 0.0 && at % 16.0 == 0.0)),
    ("-0 is not aligned", |case, right| reading(case, right, |at| at.is_sign_positive() && at % 16.0 == 0.0)),
    ("every file is aligned", |case, right| reading(case, right, |_| true)),
    ("no file is aligned", |case, right| reading(case, right, |_| false)),
    ("the bits of the binary32 are tested", |case, right| reading(case, right, |at| at.to_bits() % 16 == 0)),
    ("every offset from 2^24 on is aligned", |case, right| reading(case, right, |at| at >= 16_777_216.0 || at % 16.0 == 0.0)),
    ("a refused file is aligned", |_, right| match right {
        Answer::File(file) if file.refusal != 0 => Answer::File(FileAnswer { aligned: 1, ..file }),
        _ => right,
    }),
    ("a file that its extensions refuse is told aligned or not", |case, right| match (walked(&case.main), right) {
        (Ok((known, Some(_))), Answer::File(file)) => Answer::File(FileAnswer { aligned: known.aligned as u32, ..file }),
        _ => right,
    }),
    ("a file that is not aligned is refused by 9", |_, right| match right {
        Answer::File(FileAnswer { refusal: 0, aligned: 0, .. }) => {
            Answer::File(FileAnswer { refusal: 9, place: 108, ..FileAnswer::default() })
        }
        _ => right,
    }),
    ("an edit of a pair is always aligned", |case, right| {
        replying(case, right, |case, reply| edited(case, reply) && case.main[344..348] == *b"ni1\0", |_| 1)
    }),
    ("an edit is never aligned", |case, right| replying(case, right, edited, |_| 0)),
    ("an edit tests the new length", |case, right| replying(case, right, edited, |reply| (reply.length % 16 == 0) as u64)),
    ("every reply is aligned", |case, right| replying(case, right, |_, _| true, |_| 1)),
    ("a refused reply is aligned", |case, right| replying(case, right, |_, reply| reply.refusal != 0, |_| 1)),
    ("a swap is aligned", |case, right| {
        replying(case, right, |case, reply| reply.refusal == 0 && matches!(case.call, Call::Swap), |_| 1)
    }),
    ("a voxel is aligned", |case, right| {
        replying(case, right, |case, reply| reply.refusal == 0 && matches!(case.call, Call::Voxel { .. }), |_| 1)
    }),
    ("a voxel by a record answers what the record says", |case, right| match (case.call, right) {
        (Call::VoxelIn(asked), Answer::Reply(located)) if located.refusal == 0 => {
            Answer::Reply(Reply { aligned: asked.record.aligned as u64, ..located })
        }
        _ => right,
    }),
    ("26 is given for a record that says it wrongly", |case, right| {
        judging(case, right, |record| record.aligned != (record.data_offset % 16 == 0) as u32, 26, 0)
    }),
    ("9 is given for a record that is not aligned", |case, right| judging(case, right, |record| record.aligned == 0, 9, 108)),
];

/// The wrong programs by their names, and how many of these cases notice each. A turn's answer has nothing of it.
pub fn noticed(cases: impl Iterator<Item = Case>, zeros: &[u8]) -> Noticed {
    let mut noticed = noticed::none(&WRONG);
    for case in cases.filter(|case| !matches!(case.call, Call::Turn { .. })) {
        let right = by_rules(&RESERVED, &case, zeros).answer;
        noticed::count(&mut noticed, &WRONG, |wrong| wrong(&case, right) != right);
    }
    noticed
}
