//! Wrong programs that read, edit or swap a file whose extender has reserved bytes (02-change-requests.md, P2), of the kind that a
//! hurried colleague would write. The cases of the comparison must notice each.

use crate::cases::{Call, Case};
use crate::noticed::{self, Noticed};
use crate::rules::{self, Edit, Extender, Refusal, BASE, RESERVED};
use crate::{by_rules, edit_reply, reply, Outcome};

const REFUSED: Result<bool, Refusal> = Err(Refusal { number: 12, place: 348 });

/// The four bytes of a file that has them.
fn four(file: &[u8]) -> Option<[u8; 4]> {
    file.get(348..352).map(|four| four.try_into().unwrap())
}

/// The right rule but for what some extenders are read as.
fn reading(case: &Case, zeros: &[u8], read: fn(&[u8]) -> Result<bool, Refusal>) -> Outcome {
    by_rules(&Extender { read, ..RESERVED }, case, zeros)
}

/// The right rule but for what an edit writes, by the buffer, the file's length and whether the edited list has an extension.
fn writing(case: &Case, zeros: &[u8], written: fn(&[u8], usize, bool) -> [u8; 4]) -> Outcome {
    by_rules(&Extender { written, ..RESERVED }, case, zeros)
}

fn right(case: &Case, zeros: &[u8]) -> Outcome {
    by_rules(&RESERVED, case, zeros)
}

type Wrong = fn(&Case, &[u8]) -> Outcome;

const WRONG: [(&str, Wrong); 17] = [
    ("the base's rule is left as it was", |case, zeros| by_rules(&BASE, case, zeros)),
    ("1,0,0,7 is refused", |case, zeros| {
        reading(case, zeros, |file| match four(file) {
            Some([1, 0, 0, 7]) => REFUSED,
            _ => (RESERVED.read)(file),
        })
    }),
    ("reserved bytes are refused where there are extensions", |case, zeros| {
        reading(case, zeros, |file| match four(file) {
            Some([first, a, b, c]) if first != 0 && [a, b, c] != [0; 3] => REFUSED,
            _ => (RESERVED.read)(file),
        })
    }),
    ("reserved bytes are refused where there are none", |case, zeros| {
        reading(case, zeros, |file| match four(file) {
            Some([0, a, b, c]) if [a, b, c] != [0; 3] => REFUSED,
            _ => (RESERVED.read)(file),
        })
    }),
    ("a first byte above 1 is refused", |case, zeros| {
        reading(case, zeros, |file| match four(file) {
            Some([2..=255, ..]) => REFUSED,
            _ => (RESERVED.read)(file),
        })
    }),
    ("the first byte is tested for 1", |case, zeros| {
        reading(case, zeros, |file| four(file).map_or_else(|| (RESERVED.read)(file), |[first, ..]| Ok(first == 1)))
    }),
    ("the lowest bit of the first byte is tested", |case, zeros| {
        reading(case, zeros, |file| four(file).map_or_else(|| (RESERVED.read)(file), |[first, ..]| Ok(first & 1 == 1)))
    }),
    ("any of the four bytes means extensions", |case, zeros| {
        reading(case, zeros, |file| four(file).map_or_else(|| (RESERVED.read)(file), |four| Ok(four != [0; 4])))
    }),
    ("12 is given by no length", |case, zeros| reading(case, zeros, |file| Ok(four(file).is_some_and(|[first, ..]| first != 0)))),
    ("a file of 349 bytes is judged by its last", |case, zeros| {
        reading(case, zeros, |file| match file[348..] {
            [0] => Ok(false),
            [_] => Err(Refusal { number: 13, place: 352 }),
            _ => (RESERVED.read)(file),
        })
    }),
    ("an edit clears the reserved bytes", |case, zeros| writing(case, zeros, BASE.written)),
    ("the last extension takes the reserved bytes along", |case, zeros| {
        writing(case, zeros, |buffer, length, some| if some { (RESERVED.written)(buffer, length, some) } else { [0; 4] })
    }),
    ("an edit leaves a first byte of 2", |case, zeros| {
        writing(case, zeros, |buffer, length, some| match (RESERVED.written)(buffer, length, some) {
            [1, a, b, c] if length > 348 && buffer[348] == 2 => [2, a, b, c],
            four => four,
        })
    }),
    ("a first byte above 1 is left where the list is emptied", |case, zeros| {
        writing(case, zeros, |buffer, length, some| match (RESERVED.written)(buffer, length, some) {
            [_, a, b, c] if length > 348 && buffer[348] > 1 => [if some { 1 } else { buffer[348] }, a, b, c],
            four => four,
        })
    }),
    ("a pair of 348 bytes is given old bytes", |case, zeros| {
        writing(case, zeros, |buffer, _, some| {
            let kept: [u8; 3] = std::array::from_fn(|i| buffer.get(349 + i).copied().unwrap_or(0));
            [some as u8, kept[0], kept[1], kept[2]]
        })
    }),
    ("20 is given after four zeros alone", |case, zeros| match (case.call, right(case, zeros)) {
        (Call::Append { file_len, code }, denied) if denied.answer.refusal() == 20 => {
            let file = &case.main[..file_len as usize];
            let known = rules::read(file).unwrap();
            match (four(file), known.pair) {
                // the private bytes are written over
                (Some([0, 0, 0, 0]), _) | (_, false) => denied,
                _ => match rules::edit(&case.main, 352, &Edit::Append { code, payload: case.other(zeros) }) {
                    Ok((main, length)) => Outcome { answer: edit_reply(&RESERVED, &main, length), main, ..denied },
                    Err(no) => Outcome { answer: reply(Err(no)), ..denied },
                },
            }
        }
        (_, right) => right,
    }),
    ("a swap turns the extender round", |case, zeros| match (case.call, right(case, zeros)) {
        (Call::Swap, mut swapped) if swapped.answer.refusal() == 0 && case.main.len() > 348 => {
            swapped.main[348..352].reverse();
            swapped
        }
        (_, right) => right,
    }),
];

/// The wrong programs by their names, and how many of these cases notice each.
pub fn noticed(cases: impl Iterator<Item = Case>, zeros: &[u8]) -> Noticed {
    let mut noticed = noticed::none(&WRONG);
    for case in cases {
        let right = right(&case, zeros);
        noticed::count(&mut noticed, &WRONG, |wrong| wrong(&case, zeros) != right);
    }
    noticed
}
