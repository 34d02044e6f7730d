//! Laws of a turn (02-change-requests.md, P10), of the library or of the second implementation: one turn followed by another gives
//! the dims, pixdims and image bytes of the composed turn, a turn and its inverse restore them, where none is refused. By the same
//! rules a turned file reads as the old one with its axes permuted and their steps made anew, and a turn and a swap give the same
//! bytes in either order.

use crate::rules::{self, Known};
use crate::turn::Turn;

/// A file and its image file, which is empty for a single file.
pub type Both = (Vec<u8>, Vec<u8>);

/// What turns and swaps; none where it refuses.
pub struct Engine {
    pub turn: fn(&[u8], &[u8], &Turn) -> Option<Both>,
    pub swap: fn(&[u8], &[u8]) -> Option<Both>,
}

/// How often each law was tried, none of the turns in it refused.
#[derive(Default)]
pub struct Tried {
    pub back: u64,
    pub composed: u64,
    pub swapped: u64,
}

/// Dims, pixdims and image bytes.
fn in_law<'a>(known: &Known, both: &'a Both) -> [&'a [u8]; 3] {
    let holder = if known.pair { &both.1 } else { &both.0 };
    [&both.0[40..56], &both.0[76..108], &holder[known.offset as usize..(known.offset + known.image_bytes) as usize]]
}

/// The law that is broken by the turn of this file and the one that follows, in words.
pub fn broken(engine: &Engine, old: &Both, first: &Turn, next: &Turn, tried: &mut Tried) -> Option<&'static str> {
    let Engine { turn, swap } = engine;
    let mut known = rules::read(&old.0).ok()?;
    let turned = turn(&old.0, &old.1, first)?;
    if let Some(back) = turn(&turned.0, &turned.1, &first.back()) {
        tried.back += 1;
        if in_law(&known, &back) != in_law(&known, old) {
            return Some("a turn and its inverse do not restore");
        }
    }
    if let (Some(twice), Some(once)) = (turn(&turned.0, &turned.1, next), turn(&old.0, &old.1, &first.then(next))) {
        tried.composed += 1;
        if in_law(&known, &twice) != in_law(&known, &once) {
            return Some("two turns are not the composed one");
        }
    }
    tried.swapped += 1;
    let turned_first = swap(&turned.0, &turned.1);
    let swapped_first = swap(&old.0, &old.1).and_then(|swapped| turn(&swapped.0, &swapped.1, first));
    if turned_first.is_none() || turned_first != swapped_first {
        return Some("a turn and a swap differ by their order");
    }
    let [l, m, n] = first.shown([known.dim[1], known.dim[2], known.dim[3]]);
    known.dim[1..4].copy_from_slice(&[l, m, n]);
    known.steps = rules::steps(&known.dim, known.bitpix, known.image_bytes);
    (rules::read(&turned.0) != Ok(known)).then_some("the turned file reads as another")
}
