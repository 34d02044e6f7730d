//! Compares the library, called through its C interface, with the rules of 01-scope.md and 02-change-requests.md written a second
//! time in rules.rs, line.rs, turn.rs and record.rs: the whole answer, the whole of every lent buffer, and the bytes beside it. A
//! file that is read is fed in pieces too, a voxel is located by the record of its file too, a line is copied voxel by voxel too,
//! what is swapped is swapped unit by unit too, what a call that writes leaves is read again, what an edit's reply says of the new
//! offset is held to that reading, a turn that is not refused is held to the laws of turns, a slice and its rank are held to those
//! of ranks, and a file whose extender is one of the base's is held to the base's rule.
//!
//!     differential [--cases N] [--seed S] [--only CASE] [--self-check]
//!
//! It fails on any difference, and where a refusal that a call can give was never reached, two of a line, of a rank, of a turn or
//! of voxel_in never held together, a line, a rank or voxel_in never met a border of its rules, a law was never tried, or a call
//! was never done with some kind of extender.

mod cases;
mod extender_cases;
mod extenders;
mod files;
mod library;
mod line;
mod line_cases;
mod lines;
mod memory;
mod noticed;
mod pieces;
mod rank_cases;
mod ranks;
mod record;
mod record_cases;
mod records;
mod rules;
mod self_check;
mod swap_cases;
mod together;
mod turn;
mod turn_cases;
mod turn_laws;
mod wrong_alignment;
mod wrong_extenders;
mod wrong_lines;
mod wrong_ranks;
mod wrong_steps;
mod wrong_swaps;
mod wrong_turns;

use cases::{Call, Case, Feeding, Other, Piece};
use library::*;
use line::Line;
use memory::{Area, Lent, Tall, Where};
use record::Asked;
use rules::{Edit, Extender, Known, Order, Ranked, Refusal, Slice, Span, RESERVED};
use std::sync::atomic::Ordering;
use together::Together;
use turn::Turn;
use turn_laws::{Both, Engine, Tried};

/// What a call leaves behind: its answer and the content of the two buffers, and of the two that a turn or a line fills.
#[derive(PartialEq)]
struct Outcome {
    answer: Answer,
    main: Vec<u8>,
    other: Vec<u8>,
    rooms: [Vec<u8>; 2],
}

/// The reply of a voxel, of a line, of a swap, and of any refusal: what an edit says of its new file is in none of them.
fn reply(done: Result<(u64, u64), Refusal>) -> Answer {
    Answer::Reply(match done {
        Ok((place, length)) => Reply { place, length, ..Reply::default() },
        Err(no) => Reply { refusal: no.number, place: no.place, ..Reply::default() },
    })
}

/// The reply of an edit that is done, which left a file of this length. Whether its offset is aligned, reading it again says.
fn edit_reply(extender: &Extender, whole: &[u8], length: u64) -> Answer {
    let aligned = rules::read_by(extender, &whole[..length as usize]).is_ok_and(|known| known.aligned);
    Answer::Reply(Reply { length, aligned: aligned as u64, ..Reply::default() })
}

fn file_answer(read: &Result<Known, Refusal>) -> FileAnswer {
    match read {
        Ok(known) => FileAnswer {
            data_offset: known.offset,
            data_bytes: known.image_bytes,
            big_endian: (known.order == Order::Big) as u32,
            pair: known.pair as u32,
            dim: known.dim,
            datatype: known.datatype,
            bitpix: known.bitpix,
            extensions: known.spans.len() as u32,
            step: known.steps,
            aligned: known.aligned as u32,
            ..FileAnswer::default()
        },
        Err(no) => FileAnswer { refusal: no.number, place: no.place, ..FileAnswer::default() },
    }
}

fn extension_answer(found: Result<Span, Refusal>) -> ExtensionAnswer {
    match found {
        Ok(span) => ExtensionAnswer { start: span.start, size: span.size, code: span.code, ..ExtensionAnswer::default() },
        Err(no) => ExtensionAnswer { refusal: no.number, place: no.place, ..ExtensionAnswer::default() },
    }
}

fn slice_answer(file: &[u8], slice: u64) -> Answer {
    Answer::Slice(match rules::slice_at(file, slice) {
        Ok(Slice::Unstated) => SliceAnswer::default(),
        Ok(Slice::Padding) => SliceAnswer { state: 1, ..SliceAnswer::default() },
        Ok(Slice::Timed { rank, seconds }) => SliceAnswer { state: 2, rank, seconds: Float(seconds), ..SliceAnswer::default() },
        Err(no) => SliceAnswer { refusal: no.number, place: no.place, ..SliceAnswer::default() },
    })
}

fn ranked_answer(found: Ranked) -> RankedAnswer {
    match found {
        Ok(Some(slice)) => RankedAnswer { stated: 1, slice, ..RankedAnswer::default() },
        Ok(None) => RankedAnswer::default(),
        Err(no) => RankedAnswer { refusal: no.number, place: no.place, ..RankedAnswer::default() },
    }
}

fn position_answer(file: &[u8], index: [u64; 3]) -> Answer {
    Answer::Position(match rules::position_of(file, index) {
        Ok([x, y, z]) => PositionAnswer { x: Float(x), y: Float(y), z: Float(z), ..PositionAnswer::default() },
        Err(no) => PositionAnswer { refusal: no.number, place: no.place, ..PositionAnswer::default() },
    })
}

fn turned_answer(done: &Result<Both, Refusal>) -> Answer {
    Answer::Turned(match done {
        Ok((file, image)) => {
            TurnedAnswer { length: file.len() as u64, image_length: image.len() as u64, ..TurnedAnswer::default() }
        }
        Err(no) => TurnedAnswer { refusal: no.number, place: no.place, ..TurnedAnswer::default() },
    })
}

/// The buffer with its first bytes replaced.
fn over(buffer: &[u8], first: &[u8]) -> Vec<u8> {
    [first, &buffer[first.len()..]].concat()
}

/// What the rules say of the case, with this one of the extender where a file is read or edited.
fn by_rules(extender: &Extender, case: &Case, zeros: &[u8]) -> Outcome {
    let main = &case.main;
    let other = case.other(zeros);
    let own = case.other.own();
    let kept = |answer| {
        let rooms = [0, 1].map(|i: usize| case.rooms[i].own().to_vec());
        Outcome { answer, main: main.clone(), other: own.to_vec(), rooms }
    };
    let read = || rules::read_by(extender, main);
    let edited = |file_len, edit| match rules::edit_by(extender, main, file_len, &edit) {
        Ok((whole, length)) => {
            let answer = edit_reply(extender, &whole, length);
            Outcome { main: whole, ..kept(answer) }
        }
        Err(no) => kept(reply(Err(no))),
    };
    match case.call {
        Call::Read => kept(Answer::File(file_answer(&read()))),
        Call::ExtensionAt { number } => {
            kept(Answer::Extension(extension_answer(read().and_then(|known| rules::numbered(&known, number)))))
        }
        Call::Voxel { index } => kept(reply(rules::voxel(main, other.len() as u64, index))),
        Call::VoxelIn(asked) => kept(reply(asked.voxel())),
        Call::Line(line) | Call::LineByVoxel(line) => match line::line(main, other, &line, case.room()[0]) {
            Ok(bytes) => {
                let [out, unused] = [0, 1].map(|i: usize| case.rooms[i].own());
                Outcome { rooms: [over(out, &bytes), unused.to_vec()], ..kept(reply(Ok((0, bytes.len() as u64)))) }
            }
            Err(no) => kept(reply(Err(no))),
        },
        Call::SliceAt { slice } => kept(slice_answer(main, slice)),
        Call::SliceOfRank { rank } => kept(Answer::Ranked(ranked_answer(rules::slice_of_rank(main, rank)))),
        Call::PositionOf { index } => kept(position_answer(main, index)),
        Call::Swap | Call::SwapByUnit => match rules::swap(main, other) {
            Ok((main, other)) => Outcome { main, other, ..kept(reply(Ok((0, 0)))) },
            Err(no) => kept(reply(Err(no))),
        },
        Call::Turn { axes, reverse, .. } => {
            let done = turn::turn(main, other, &Turn::named(axes, reverse), case.room());
            let answer = turned_answer(&done);
            match done {
                Ok((file, image)) => {
                    let rooms = [over(case.rooms[0].own(), &file), over(case.rooms[1].own(), &image)];
                    Outcome { answer, main: main.clone(), other: own.to_vec(), rooms }
                }
                Err(_) => kept(answer),
            }
        }
        Call::Append { file_len, code } => edited(file_len, Edit::Append { code, payload: other }),
        Call::Replace { file_len, number, code } => edited(file_len, Edit::Replace { number, code, payload: other }),
        Call::Remove { file_len, number } => edited(file_len, Edit::Remove { number }),
    }
}

/// The memory that is lent, made once.
struct Memory {
    main: Area,
    other: Area,
    rooms: [Area; 2],
    zeros: &'static [u8],
    closed: *mut u8,
    tall: Tall,
}

/// A pointer and a length for the call.
type Buffer = (*mut u8, usize);

/// Lends a buffer; own bytes lie in the area.
fn lend(area: &mut Area, other: &Other, at: Where, zeros: &[u8], closed: *mut u8) -> (Lent, Buffer) {
    let own = other.own();
    let lent = area.lend(own, if own.is_empty() && at != Where::Null { Where::Back } else { at });
    let buffer = match *other {
        Other::Own(_) => (lent.pointer, lent.length),
        Other::Zeros(length) => (zeros.as_ptr() as *mut u8, length),
        Other::Closed(length) => (closed, length),
    };
    (lent, buffer)
}

/// The library's answer by a record.
unsafe fn by_record(asked: &Asked) -> Answer {
    let [a, b, c, d, e, f, g] = asked.index;
    Answer::Reply(vestumbral_voxel_in(asked.record, asked.image_len, a, b, c, d, e, f, g))
}

/// Calls the library.
///
/// # Safety
/// Each pointer has as many bytes as the length beside it.
unsafe fn call(call: Call, (main, length): Buffer, (other, other_len): Buffer, rooms: [Buffer; 2]) -> Answer {
    match call {
        Call::Read => Answer::File(vestumbral_read(main, length)),
        Call::ExtensionAt { number } => Answer::Extension(vestumbral_extension_at(main, length, number)),
        Call::Voxel { index: [a, b, c, d, e, f, g] } => {
            Answer::Reply(vestumbral_voxel(main, length, other, other_len, a, b, c, d, e, f, g))
        }
        Call::VoxelIn(asked) => by_record(&asked),
        Call::Line(Line { axis, index: [a, b, c, d, e, f, g] }) => {
            let (out, out_len) = rooms[0];
            Answer::Reply(vestumbral_line(main, length, other, other_len, axis, a, b, c, d, e, f, g, out, out_len))
        }
        Call::LineByVoxel(Line { axis, index: [a, b, c, d, e, f, g] }) => {
            let (out, out_len) = rooms[0];
            Answer::Reply(vestumbral_line_by_voxel(main, length, other, other_len, axis, a, b, c, d, e, f, g, out, out_len))
        }
        Call::SliceAt { slice } => Answer::Slice(vestumbral_slice_at(main, length, slice)),
        Call::SliceOfRank { rank } => Answer::Ranked(vestumbral_slice_of_rank(main, length, rank)),
        Call::PositionOf { index: [i, j, k] } => Answer::Position(vestumbral_position_of(main, length, i, j, k)),
        Call::Swap => Answer::Reply(vestumbral_swap(main, length, other, other_len)),
        Call::SwapByUnit => Answer::Reply(vestumbral_swap_by_unit(main, length, other, other_len)),
        Call::Append { file_len, code } => Answer::Reply(vestumbral_append(main, length, file_len, code, other, other_len)),
        Call::Replace { file_len, number, code } => {
            Answer::Reply(vestumbral_replace(main, length, file_len, number, code, other, other_len))
        }
        Call::Remove { file_len, number } => Answer::Reply(vestumbral_remove(main, length, file_len, number)),
        Call::Turn { axes: [a, b, c], reverse: [p, q, r], .. } => {
            let [(out, out_len), (out_image, out_image_len)] = rooms;
            Answer::Turned(vestumbral_turn(
                main, length, other, other_len, a, b, c, p, q, r, out, out_len, out_image, out_image_len,
            ))
        }
    }
}

/// The library as the laws of a turn ask it.
const LIBRARY: Engine = Engine {
    turn: |file, image, turn| {
        let (mut out, mut out_image) = (vec![0; file.len()], vec![0; image.len()]);
        let buffer = |bytes: &[u8]| (bytes.as_ptr() as *mut u8, bytes.len());
        let rooms = [(out.as_mut_ptr(), out.len()), (out_image.as_mut_ptr(), out_image.len())];
        let asked = Call::Turn { axes: turn.axes, reverse: turn.reversed.map(u64::from), next: *turn };
        let answer = unsafe { call(asked, buffer(file), buffer(image), rooms) };
        (answer.refusal() == 0).then_some((out, out_image))
    },
    swap: |file, image| {
        let (mut file, mut image) = (file.to_vec(), image.to_vec());
        let answer = unsafe { vestumbral_swap(file.as_mut_ptr(), file.len(), image.as_mut_ptr(), image.len()) };
        (answer.refusal == 0).then_some((file, image))
    },
};

/// Counts which of a turn's refusals hold together, and tries the laws where none does.
fn turn_difference(case: &Case, counts: &mut Counts) -> Option<String> {
    let Call::Turn { axes, reverse, next } = case.call else {
        return None;
    };
    let turn = Turn::named(axes, reverse);
    let faults = turn::faults(&case.main, case.other.length() as u64, &turn, case.room());
    counts.together.count(&faults);
    if !faults.is_empty() {
        return None;
    }
    let pair = rules::read(&case.main).is_ok_and(|known| known.pair);
    let old = (case.main.clone(), if pair { case.other.own().to_vec() } else { Vec::new() });
    turn_laws::broken(&LIBRARY, &old, &turn, &next, &mut counts.tried).map(|law| format!("{law}; the next turn is {next:?}"))
}

/// How the two buffers differ, in words; none where they are equal.
fn buffer_difference(name: &str, rules: &[u8], library: &[u8], guards_kept: bool) -> Option<String> {
    if let Some(at) = (0..rules.len()).find(|&at| rules[at] != library[at]) {
        return Some(format!("{name} at {at}: rules {:02x}, library {:02x}", rules[at], library[at]));
    }
    (!guards_kept).then(|| format!("{name}: bytes beside it were changed"))
}

/// How the library differs from the rules. What is swapped is swapped unit by unit too, and a line is copied voxel by voxel too.
fn compare(case: &Case, memory: &mut Memory, counts: &mut Counts) -> Option<String> {
    let plain = match case.call {
        Call::Swap => Some(Call::SwapByUnit),
        Call::Line(line) => Some(Call::LineByVoxel(line)),
        _ => None,
    };
    let plain = plain.map(|call| Case { call, ..case.clone() });
    std::iter::once(case).chain(&plain).find_map(|case| {
        let difference = call_difference(case, memory, counts)?;
        Some(format!("by {}: {difference}", CALLS[call_number(&case.call)]))
    })
}

/// How one call differs.
fn call_difference(case: &Case, memory: &mut Memory, counts: &mut Counts) -> Option<String> {
    let expected = by_rules(&RESERVED, case, memory.zeros);
    let (zeros, closed) = (memory.zeros, memory.closed);
    let main = memory.main.lend(&case.main, case.main_at);
    let (lent, other) = lend(&mut memory.other, &case.other, case.other_at, zeros, closed);
    let [(out, out_buffer), (out_image, out_image_buffer)] =
        [0, 1].map(|i: usize| lend(&mut memory.rooms[i], &case.rooms[i], case.rooms_at[i], zeros, closed));
    let answer = unsafe { call(case.call, (main.pointer, main.length), other, [out_buffer, out_image_buffer]) };
    counts.add(call_number(&case.call), expected.answer.refusal());
    counts.extenders.count(case, expected.answer.refusal());
    counts.lines.count(case);
    counts.ranks.count(case);
    if answer != expected.answer {
        return Some(format!("\n  rules   {:?}\n  library {:?}", expected.answer, answer));
    }
    let lent = [
        ("buffer", &expected.main, &memory.main, main),
        ("other buffer", &expected.other, &memory.other, lent),
        ("out", &expected.rooms[0], &memory.rooms[0], out),
        ("out_image", &expected.rooms[1], &memory.rooms[1], out_image),
    ];
    lent.iter()
        .find_map(|(name, rules, area, lent)| buffer_difference(name, rules, area.content(lent), area.guards_kept(lent)))
        .or_else(|| counts.extenders.base_difference(case, zeros, &expected))
        .or_else(|| turn_difference(case, counts))
        .or_else(|| records::difference(case, memory.main.content(&main), &expected, counts))
        .or_else(|| ranks::difference(case, memory.main.content(&main), &expected, &mut counts.ranks))
        .or_else(|| pieces::difference(memory.main.content(&main), &case.feeding, &mut memory.other, &mut memory.tall, counts))
}

/// Bytes as hexadecimal runs after their places; zeros are left out, and so is all past 65,536.
fn hex(bytes: &[u8]) -> String {
    let mut text = format!("{} bytes, zero but for", bytes.len());
    let mut previous_zero = true;
    for (at, &byte) in bytes.iter().enumerate().take(65_536) {
        if byte != 0 {
            text += &if previous_zero { format!(" {at}:{byte:02x}") } else { format!("{byte:02x}") };
        }
        previous_zero = byte == 0;
    }
    text
}

fn show(case: &Case) -> String {
    let content = |other: &Other| match other {
        Other::Own(bytes) => hex(bytes),
        Other::Zeros(length) => format!("{length} zero bytes"),
        Other::Closed(length) => format!("{length} bytes that can't be read"),
    };
    let mut text = format!(
        "  {:?}\n  file or buffer ({:?}): {}\n  image or payload ({:?}): {}\n  in pieces: {:?}",
        case.call,
        case.main_at,
        hex(&case.main),
        case.other_at,
        content(&case.other),
        case.feeding
    );
    if matches!(case.call, Call::Turn { .. } | Call::Line(_)) {
        let [out, out_image] = &case.rooms;
        text += &format!("\n  out {:?}: {}\n  out_image: {}", case.rooms_at, content(out), content(out_image));
    }
    text
}

/// The case with its pieces joined and its bytes cleared, wherever a difference stays.
fn reduce(case: &Case, memory: &mut Memory) -> Case {
    let mut differs = |case: &Case| compare(case, memory, &mut Counts::default()).is_some();
    let mut least = case.clone();
    let mut place = 0;
    while let Feeding::Pieces { mut pieces, words } = least.feeding.clone() {
        if place + 1 >= pieces.len() {
            break;
        }
        let next = pieces.remove(place + 1);
        let joined = &mut pieces[place];
        let at = if joined.length == 0 { next.at } else { joined.at };
        *joined = Piece { length: joined.length + next.length, at, asked: next.asked };
        let smaller = Case { feeding: Feeding::Pieces { pieces, words }, ..least.clone() };
        if differs(&smaller) {
            least = smaller;
        } else {
            place += 1;
        }
    }
    let mut step = least.main.len().next_power_of_two();
    while step > 0 {
        for from in (0..least.main.len()).step_by(step) {
            let mut smaller = least.clone();
            let to = (from + step).min(smaller.main.len());
            smaller.main[from..to].fill(0);
            if smaller.main != least.main && differs(&smaller) {
                least = smaller;
            }
        }
        step /= 2;
    }
    if let Other::Own(bytes) = &mut least.other.clone() {
        bytes.fill(0);
        let smaller = Case { other: Other::Own(bytes.clone()), ..least.clone() };
        if differs(&smaller) {
            least = smaller;
        }
    }
    least
}

const CALLS: [&str; 18] = [
    "read", "extension", "voxel", "slice", "position", "swap", "append", "replace", "remove", "take", "pieces", "pieces_ext",
    "turn", "voxel_in", "by_unit", "line", "by_voxel", "rank",
];
const PIECES_TAKE: usize = 9;
const PIECES_FILE: usize = 10;
const PIECES_EXTENSION: usize = 11;
const VOXEL_IN: usize = 13;
const SWAP_BY_UNIT: usize = 14;
const LINE: usize = 15;
const LINE_BY_VOXEL: usize = 16;
const SLICE_OF_RANK: usize = 17;

/// The refusals that each call can give.
fn possible(call: usize) -> Vec<usize> {
    let more: &[usize] = match CALLS[call] {
        "take" => return vec![25],
        "extension" | "pieces_ext" => &[18],
        "voxel" => &[16, 17],
        "voxel_in" => &[16, 17, 26],
        "line" | "by_voxel" => &[16, 17, 22],
        "slice" | "rank" => &[17],
        "position" => &[17, 23],
        "swap" | "by_unit" => &[16],
        "append" => &[19, 20, 21, 22, 24],
        "replace" => &[18, 19, 21, 22, 24],
        "remove" => &[18, 24],
        "turn" => &[16, 22, 23, 29, 30],
        _ => &[],
    };
    (1..=15).chain(more.iter().copied()).collect()
}

fn call_number(call: &Call) -> usize {
    match call {
        Call::Read => 0,
        Call::ExtensionAt { .. } => 1,
        Call::Voxel { .. } => 2,
        Call::SliceAt { .. } => 3,
        Call::PositionOf { .. } => 4,
        Call::Swap => 5,
        Call::Append { .. } => 6,
        Call::Replace { .. } => 7,
        Call::Remove { .. } => 8,
        Call::Turn { .. } => 12,
        Call::VoxelIn(_) => VOXEL_IN,
        Call::SwapByUnit => SWAP_BY_UNIT,
        Call::Line(_) => LINE,
        Call::LineByVoxel(_) => LINE_BY_VOXEL,
        Call::SliceOfRank { .. } => SLICE_OF_RANK,
    }
}

const REFUSALS: usize = 30;

/// What was reached.
#[derive(Default)]
struct Counts {
    /// How often each refusal, 0 for done, was given by each call.
    given: [[u64; REFUSALS + 1]; CALLS.len()],
    /// Two refusals of a turn.
    together: Together,
    /// How often the laws of a turn were tried.
    tried: Tried,
    extenders: extenders::Reached,
    records: records::Reached,
    lines: lines::Reached,
    ranks: ranks::Reached,
}

/// The refusals of a turn that may hold together: of two the one that is tried first, and the other.
fn conflicts() -> Vec<(u64, u64)> {
    let order = [16, 29, 30, 23, 22];
    let own = order.iter().enumerate().flat_map(|(i, &first)| order[i + 1..].iter().map(move |&second| (first, second)));
    own.chain((1..=15).flat_map(|first| [(first, 30), (first, 22)])).collect()
}

impl Counts {
    /// A record's own refusal may be any number; one that is not in the table is counted elsewhere.
    fn add(&mut self, call: usize, refusal: u64) {
        if let Some(count) = usize::try_from(refusal).ok().and_then(|number| self.given[call].get_mut(number)) {
            *count += 1;
        }
    }

    fn print(&self) {
        println!("{:>9} {:>10}  by call: {}", "refusal", "answers", CALLS.map(|call| format!("{call:>11}")).concat());
        for number in (0..=REFUSALS).filter(|&number| number == 0 || (0..CALLS.len()).any(|call| possible(call).contains(&number)))
        {
            let name = if number == 0 { "none".to_string() } else { number.to_string() };
            let by_call = self.given.map(|row| format!("{:>11}", row[number])).concat();
            println!("{name:>9} {:>10}           {by_call}", self.given.iter().map(|row| row[number]).sum::<u64>());
        }
        self.together.print("turn");
        let Tried { back, composed, swapped } = self.tried;
        println!("laws of a turn: {back} turned back, {composed} composed, {swapped} swapped");
        self.extenders.print();
        self.records.print();
        self.lines.print();
        self.ranks.print();
    }

    /// Which refusals were never reached, alone or before another, which laws were never tried, and which extenders and borders
    /// never met.
    fn missing(&self) -> Vec<String> {
        let all = (0..CALLS.len()).flat_map(|call| possible(call).into_iter().map(move |number| (call, number)));
        let given = all
            .filter(|&(call, number)| self.given[call][number] == 0)
            .map(|(call, number)| format!("{number} by {}", CALLS[call]));
        let together = self.together.missing("turn", conflicts());
        let Tried { back, composed, swapped } = self.tried;
        let laws = [(back, "a turn back"), (composed, "a composed turn"), (swapped, "a turn and a swap")];
        let tried = laws.into_iter().filter(|law| law.0 == 0).map(|law| law.1.to_string());
        let others = [self.extenders.missing(), self.records.missing(), self.lines.missing(), self.ranks.missing()].concat();
        given.chain(together).chain(tried).chain(others).collect()
    }
}

struct Options {
    cases: u64,
    seed: u64,
    only: Option<u64>,
    self_check: bool,
}

fn options() -> Options {
    let mut options = Options { cases: 100_000, seed: 1, only: None, self_check: false };
    let mut words = std::env::args().skip(1);
    while let Some(word) = words.next() {
        let mut number = || words.next().and_then(|word| word.parse().ok()).unwrap_or_else(|| panic!("{word} takes a number"));
        match word.as_str() {
            "--cases" => options.cases = number(),
            "--seed" => options.seed = number(),
            "--only" => options.only = Some(number()),
            "--self-check" => options.self_check = true,
            _ => panic!("unknown word {word}"),
        }
    }
    options
}

/// The case of this number.
fn case(seed: u64, number: u64, zeros: &[u8]) -> Case {
    if number < cases::FIXED {
        cases::fixed(number)
    } else {
        Case::new(seed, number, zeros)
    }
}

fn main() {
    let options = options();
    if options.self_check {
        self_check::run();
        return;
    }
    memory::watch();
    let area = || Area::new(cases::LARGEST);
    let (zeros, closed) = (memory::zeros(cases::ZEROS), memory::closed(cases::CLOSED));
    let rooms = [area(), area()];
    let mut memory = Memory { main: area(), other: area(), rooms, zeros, closed, tall: Tall::new(cases::TALLEST) };
    let mut counts = Counts::default();
    let mut differences = 0;
    let numbers = options.only.map_or(0..options.cases, |only| only..only + 1);
    for number in numbers {
        memory::RUNNING.store(number, Ordering::Relaxed);
        let case = case(options.seed, number, memory.zeros);
        if options.only.is_some() {
            println!("case {number} of seed {}\n{}", options.seed, show(&case));
        }
        if compare(&case, &mut memory, &mut counts).is_some() {
            differences += 1;
            if differences <= 5 {
                let least = if number < cases::FIXED { case } else { reduce(&case, &mut memory) };
                let difference = compare(&least, &mut memory, &mut Counts::default()).unwrap_or_default();
                println!("DIFFERENT: case {number} of seed {}, reduced\n{}\n  {difference}", options.seed, show(&least));
            }
        }
    }
    if options.only.is_none() {
        counts.print();
        let missing = counts.missing();
        if !missing.is_empty() {
            println!("never reached: {}", missing.join(", "));
        }
        println!("differential: {} cases, {differences} differences", options.cases);
        std::process::exit((differences > 0 || !missing.is_empty()) as i32);
    }
    std::process::exit((differences > 0) as i32);
}
