//! Wrong programs that turn several units of an image round together (02-change-requests.md, P3), of the kind that a hurried colleague
//! would write. The cases of the comparison must notice each.

use crate::cases::{Call, Case};
use crate::noticed::{self, Noticed};
use crate::rules::{self, RESERVED};
use crate::{by_rules, Outcome};

/// Turns round the units of the image, the first so many of these bytes; a wrong program may reach those after it.
type Turns = fn(&mut [u8], usize, usize);

fn singly(bytes: &mut [u8], unit: usize) {
    bytes.chunks_exact_mut(unit).for_each(|unit| unit.reverse());
}

/// Each word by this, and the bytes that are left by that; a unit that is wider than a word goes singly.
fn by_words(bytes: &mut [u8], image: usize, unit: usize, word: fn(&mut [u8], usize), left: fn(&mut [u8], usize)) {
    if unit > 8 {
        return singly(&mut bytes[..image], unit);
    }
    let whole = image / 8 * 8;
    bytes[..whole].chunks_exact_mut(8).for_each(|eight| word(eight, unit));
    left(&mut bytes[whole..image], unit);
}

fn units_exchanged(word: &mut [u8], unit: usize) {
    word.reverse();
    singly(word, unit);
}

/// While at least so many bytes are left, a word is turned round, which may reach past the image.
fn while_left(bytes: &mut [u8], image: usize, unit: usize, least: usize) {
    let mut at = 0;
    while image >= at + least && bytes.len() >= at + 8 && unit <= 8 {
        singly(&mut bytes[at..at + 8], unit);
        at += 8;
    }
    if at < image {
        singly(&mut bytes[at..image], unit);
    }
}

const WRONG: [(&str, Turns); 10] = [
    ("the last units are left out", |bytes, image, unit| by_words(bytes, image, unit, singly, |_, _| ())),
    ("a word is turned round whole", |bytes, image, unit| by_words(bytes, image, unit, |word, _| word.reverse(), singly)),
    ("the units of a word are exchanged and not turned", |bytes, image, unit| {
        by_words(bytes, image, unit, units_exchanged, singly)
    }),
    ("a word is turned while four bytes are left", |bytes, image, unit| while_left(bytes, image, unit, 4)),
    ("a word is turned while any byte is left", |bytes, image, unit| while_left(bytes, image, unit, 1)),
    ("the odd units are turned twice", |bytes, image, unit| {
        by_words(bytes, image, unit, singly, |left, unit| {
            singly(left, unit);
            singly(left, unit);
        })
    }),
    ("the last word is turned once more with the odd units", |bytes, image, unit| {
        singly(&mut bytes[..image], unit);
        if image % 8 != 0 && image >= 8 {
            singly(&mut bytes[image - 8..image], unit);
        }
    }),
    ("every unit is turned by pairs", |bytes, image, unit| singly(&mut bytes[..image / 2 * 2], unit.min(2))),
    ("the halves of a unit of sixteen stay", |bytes, image, unit| singly(&mut bytes[..image], unit.min(8))),
    ("a unit of four is turned as one of eight", |bytes, image, unit| {
        singly(&mut bytes[..image], if unit == 4 && image % 8 == 0 { 8 } else { unit })
    }),
];

/// What such a program leaves of a case whose swap is done.
fn wrong_outcome(case: &Case, right: &Outcome, turns: Turns) -> Option<(Vec<u8>, Vec<u8>)> {
    let known = rules::read(&case.main).ok()?;
    let (mut main, mut other) = (right.main.clone(), right.other.clone());
    let (before, holder) = if known.pair { (case.other.own(), &mut other) } else { (&case.main[..], &mut main) };
    let from = known.offset as usize;
    let mut bytes = before[from..].to_vec();
    turns(&mut bytes, known.image_bytes as usize, known.unit);
    holder[from..].copy_from_slice(&bytes);
    Some((main, other))
}

/// The wrong programs by their names, and how many of these cases notice each.
pub fn noticed(cases: impl Iterator<Item = Case>, zeros: &[u8]) -> Noticed {
    let mut noticed = noticed::none(&WRONG);
    for case in cases.filter(|case| case.call == Call::Swap) {
        let right = by_rules(&RESERVED, &case, zeros);
        if right.answer.refusal() != 0 {
            continue;
        }
        noticed::count(&mut noticed, &WRONG, |turns| {
            let left = wrong_outcome(&case, &right, *turns);
            left.is_some_and(|(main, other)| main != right.main || other != right.other)
        });
    }
    noticed
}
