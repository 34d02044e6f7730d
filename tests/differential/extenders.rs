//! The extender in the comparison (02-change-requests.md, P2): which kinds of it each call was done with, and the base's rule
//! beside the new one.

use crate::cases::{Call, Case};
use crate::rules::{self, Known, Refusal, BASE};
use crate::{by_rules, call_number, Outcome, CALLS};

/// What the four bytes at 348 are and, after a first byte of 0, whether private bytes follow: x stands for reserved bytes that are
/// not all zero, n for a first byte above 1.
const EXTENDERS: [&str; 8] =
    ["0,0,0,0", "0,0,0,0 private", "0,x,x,x", "0,x,x,x private", "1,0,0,0", "1,x,x,x", "n,0,0,0", "n,x,x,x"];
/// The pair's header file that has no extender.
const BARE: usize = 2 * EXTENDERS.len();

/// How a call ended: done, by its number; an append that 20 refuses; a removal that leaves no extension.
const DENIED: usize = CALLS.len();
const EMPTIED: usize = CALLS.len() + 1;
const ENDS: usize = CALLS.len() + 2;

fn end_name(end: usize) -> &'static str {
    match end {
        DENIED => "append 20",
        EMPTIED => "last out",
        _ => CALLS[end],
    }
}

fn class(file: &[u8], known: &Known) -> usize {
    let Some(&[first, a, b, c]) = file.get(348..352) else {
        return BARE;
    };
    let (reserved, private) = ([a, b, c] != [0; 3], known.region_end > rules::REGION);
    let extender = match first {
        0 => 2 * reserved as usize + private as usize,
        1 => 4 + reserved as usize,
        _ => 6 + reserved as usize,
    };
    EXTENDERS.len() * known.pair as usize + extender
}

fn name(class: usize) -> String {
    match class {
        BARE => "pair of 348".to_string(),
        _ => format!("{} {}", if class < EXTENDERS.len() { "single" } else { "pair" }, EXTENDERS[class % EXTENDERS.len()]),
    }
}

fn possible(end: usize, class: usize) -> bool {
    let extended = class != BARE && class % EXTENDERS.len() >= 4;
    let private = class != BARE && matches!(class % EXTENDERS.len(), 1 | 3);
    match end_name(end) {
        // a piece and a record have no extender
        "take" | "voxel_in" => false,
        "extension" | "replace" | "remove" | "last out" | "pieces_ext" => extended,
        "append" => !private,
        "append 20" => private,
        _ => true,
    }
}

/// The file that a call is about; none where more bytes are stated than the buffer has.
fn file_of(case: &Case) -> Option<&[u8]> {
    match case.call {
        Call::Append { file_len, .. } | Call::Replace { file_len, .. } | Call::Remove { file_len, .. } => {
            case.main.get(..usize::try_from(file_len).ok()?)
        }
        _ => Some(&case.main),
    }
}

/// How often each was reached.
#[derive(Default)]
pub struct Reached {
    done: [[u64; ENDS]; BARE + 1],
    /// Rule 12 for 349, 350 and 351 bytes: those after 348 are zeros, or not.
    cut: [[u64; 2]; 3],
    /// An append to 348 bytes where the buffer had other bytes than zeros for the reserved ones.
    over_old: u64,
    /// Files that the base's rule judges alike: accepted, and edited.
    as_before: [u64; 2],
}

impl Reached {
    pub fn add(&mut self, end: usize, file: &[u8], known: &Known) {
        self.done[class(file, known)][end] += 1;
    }

    /// Counts the case by the refusal that the rules give, 0 for done.
    pub fn count(&mut self, case: &Case, refusal: u64) {
        let Some(file) = file_of(case) else {
            return;
        };
        let known = match rules::read(file) {
            Ok(known) => known,
            Err(Refusal { number: 12, .. }) => {
                self.cut[file.len() - 349][file[348..].iter().any(|&byte| byte != 0) as usize] += 1;
                return;
            }
            Err(_) => return,
        };
        let end = match case.call {
            Call::Append { .. } if refusal == 20 => DENIED,
            Call::Remove { .. } if known.spans.len() == 1 => EMPTIED,
            call => call_number(&call),
        };
        if refusal == 0 || end == DENIED {
            self.add(end, file, &known);
        }
        if refusal == 0 && matches!(case.call, Call::Append { .. }) && file.len() == 348 && case.main[349..352] != [0; 3] {
            self.over_old += 1;
        }
    }

    /// How a case whose extender is 0,0,0,0 or 1,0,0,0, or that has none, is answered otherwise than by the base's rule: its file
    /// is read as another, or an edit leaves other bytes. What is expected is what the library did.
    pub fn base_difference(&mut self, case: &Case, zeros: &[u8], expected: &Outcome) -> Option<String> {
        let file = file_of(case)?;
        if !matches!(file.get(348..352), None | Some([0 | 1, 0, 0, 0])) {
            return None;
        }
        let (before, now) = (rules::read_by(&BASE, file), rules::read(file));
        if before != now {
            return Some(format!("the base reads {before:?}, and now it is {now:?}"));
        }
        self.as_before[0] += now.is_ok() as u64;
        if matches!(case.call, Call::Append { .. } | Call::Replace { .. } | Call::Remove { .. }) {
            let before = by_rules(&BASE, case, zeros);
            if before != *expected {
                return Some(format!("an edit is not as by the base, which answers {:?}", before.answer));
            }
            self.as_before[1] += (expected.answer.refusal() == 0) as u64;
        }
        None
    }

    pub fn print(&self) {
        println!("{:>22}  done by: {}", "extender", (0..ENDS).map(|end| format!("{:>11}", end_name(end))).collect::<String>());
        for (class, row) in self.done.iter().enumerate() {
            let cell = |end: usize| if possible(end, class) { format!("{:>11}", row[end]) } else { format!("{:>11}", "-") };
            println!("{:>22}           {}", name(class), (0..ENDS).map(cell).collect::<String>());
        }
        println!("12 of 349, 350 and 351 bytes, the last of them zeros or not: {:?}", self.cut);
        println!("348 bytes appended to, with other bytes after them in the buffer: {}", self.over_old);
        println!("as by the base: {} files read, {} edits", self.as_before[0], self.as_before[1]);
    }

    /// What was never reached.
    pub fn missing(&self) -> Vec<String> {
        let cells = (0..=BARE).flat_map(|class| (0..ENDS).map(move |end| (class, end)));
        let done = cells.filter(|&(class, end)| possible(end, class) && self.done[class][end] == 0);
        let others = [
            (self.cut.as_flattened().contains(&0), "12 of a length, with zeros and with others"),
            (self.over_old == 0, "348 bytes appended to over others"),
            (self.as_before.contains(&0), "a file or an edit as by the base"),
        ];
        let others = others.into_iter().filter(|other| other.0).map(|other| other.1.to_string());
        done.map(|(class, end)| format!("{} by {}", name(class), end_name(end))).chain(others).collect()
    }
}
