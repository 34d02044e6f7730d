//! Images of every number of units up to some blocks of them, so that each number is left behind the last word or block that a swap
//! turns round together (02-change-requests.md, P3): of each datatype, in both orders and kinds, at places of any remainder.

use crate::cases::{Call, Case, Other};
use crate::extender_cases::digits;
use crate::files::{Header, NO_EXTENSIONS};
use crate::rules::{Order, DATATYPES};

const COUNTS: u64 = 70;

pub const FIXED: u64 = COUNTS * 2 * 2 * DATATYPES.len() as u64;

/// Bytes of which no two that stand within thirty-two of one another are equal.
fn distinct(length: usize) -> Vec<u8> {
    (0..length).map(|i| (31 * i + i / 256) as u8).collect()
}

/// A front and a tail stand around the image: private bytes, or those of a pair's image file.
pub fn fixed(number: u64) -> Case {
    let [pair, big, count, datatype] = digits(number, [2, 2, COUNTS, DATATYPES.len() as u64]);
    let order = if big == 1 { Order::Big } else { Order::Little };
    let (code, bits, _) = DATATYPES[datatype];
    let image = distinct((count + 1) * bits as usize / 8);
    let (front, tail) = (vec![0x2e; count % 17], distinct(count % 3 * 5));
    let start = front.len() + if pair == 1 { 0 } else { 352 };
    let header = Header::new(order, pair == 1).dims(&[count as i16 + 1]).datatype(code).offset((start as f32).to_bits());
    let held = [&front[..], &image, &tail].concat();
    if pair == 1 {
        Case::at(Call::Swap, header.bytes, Other::Own(held))
    } else {
        Case::at(Call::Swap, header.file(&[&NO_EXTENSIONS, &held]), Other::none())
    }
}
