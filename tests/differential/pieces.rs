//! Reading in pieces: a file is fed to the library as its pieces cut it, and the answers of each state that is asked are compared
//! with the rules and with the library's whole-file calls, both on the joined bytes of the pieces so far.

use crate::cases::{self, Feeding, Piece};
use crate::library::*;
use crate::memory::{Area, Tall, Where};
use crate::rules::{self, REGION, REGION_LIMIT, TOTAL};
use crate::{buffer_difference, extension_answer, file_answer, Counts, PIECES_EXTENSION, PIECES_FILE, PIECES_TAKE};
use std::fmt::Debug;

/// A state that comes from a start, and how many bytes the rules say were taken.
#[derive(Clone, Copy)]
struct Reader {
    state: Pieces,
    taken: usize,
}

fn same<T: PartialEq + Debug>(taken: usize, rules: T, whole: T, pieces: T) -> Result<(), String> {
    if whole == rules && pieces == rules {
        return Ok(());
    }
    Err(format!("after {taken} bytes in pieces\n  rules     {rules:?}\n  library   {whole:?}\n  in pieces {pieces:?}"))
}

/// Lends a piece and takes it.
fn take(state: Pieces, piece: &[u8], at: Where, area: &mut Area) -> Result<Taken, String> {
    let lent = area.lend(piece, at);
    let taken = unsafe { vestumbral_pieces_take(state, lent.pointer, lent.length) };
    buffer_difference("piece", piece, area.content(&lent), area.guards_kept(&lent)).map_or(Ok(taken), Err)
}

impl Reader {
    fn start() -> Reader {
        Reader { state: unsafe { vestumbral_pieces_start() }, taken: 0 }
    }

    /// Moves on by what the library answered to a piece of this length.
    fn took(&mut self, length: usize, answer: Taken, counts: &mut Counts) -> Result<(), String> {
        let expected = rules::take(self.taken as u64, length as u64);
        let refused = expected.map_or_else(|no| (no.number, no.place), |_| (0, 0));
        counts.add(PIECES_TAKE, refused.0);
        if (answer.refusal, answer.place) != refused {
            let got = (answer.refusal, answer.place);
            return Err(format!("a piece of {length} bytes after {}: rules {refused:?}, library {got:?}", self.taken));
        }
        if expected.is_err() && answer.pieces != self.state {
            return Err(format!("a refused piece of {length} bytes after {} changed the state", self.taken));
        }
        self.state = answer.pieces;
        self.taken = expected.map_or(self.taken, |taken| taken as usize);
        Ok(())
    }

    fn take(&mut self, piece: &[u8], at: Where, area: &mut Area, counts: &mut Counts) -> Result<(), String> {
        let answer = take(self.state, piece, at, area)?;
        self.took(piece.len(), answer, counts)
    }

    /// Takes the first bytes of these where they lie.
    fn take_there(&mut self, bytes: &[u8], length: usize, counts: &mut Counts) -> Result<(), String> {
        let answer = unsafe { vestumbral_pieces_take(self.state, bytes[..length].as_ptr(), length) };
        self.took(length, answer, counts)
    }

    /// Asks what the file is, and for extensions: every one, or the first and the last; and for some that it has not.
    fn ask(&self, whole: &[u8], every: bool, counts: &mut Counts) -> Result<(), String> {
        let joined = &whole[..self.taken];
        let (from, length) = (joined.as_ptr(), joined.len());
        let known = rules::read(joined);
        let file = file_answer(&known);
        counts.add(PIECES_FILE, file.refusal);
        known.iter().for_each(|known| counts.extenders.add(PIECES_FILE, joined, known));
        same(length, file, unsafe { vestumbral_read(from, length) }, unsafe { vestumbral_pieces_file(self.state) })?;
        let count = file.extensions as u64;
        let listed = if every { 0..count } else { count.saturating_sub(1)..count };
        for number in listed.chain([0, count, 1 << 32, u64::MAX]) {
            let extension = extension_answer(known.as_ref().map_err(|no| *no).and_then(|known| rules::numbered(known, number)));
            counts.add(PIECES_EXTENSION, extension.refusal);
            if let (Ok(known), 0) = (&known, extension.refusal) {
                counts.extenders.add(PIECES_EXTENSION, joined, known);
            }
            let by_file = unsafe { vestumbral_extension_at(from, length, number) };
            same(length, extension, by_file, unsafe { vestumbral_pieces_extension_at(self.state, number) })?;
        }
        Ok(())
    }
}

/// The file with every byte changed that a state may not keep: of the bytes from 352 on it keeps at most the sizes and the codes of
/// the extensions up to the first that is refused. None where rules 1 to 12 refuse, which leave open what the bytes from 352 on are.
pub fn twin(file: &[u8]) -> Option<Vec<u8>> {
    let (known, _) = rules::walked(file).ok()?;
    let mut twin = file.to_vec();
    twin.iter_mut().skip(REGION as usize).for_each(|byte| *byte = !*byte);
    if known.extended {
        for start in known.spans.iter().map(|span| span.end()).chain([REGION]) {
            let (from, to) = (start as usize, known.region_end.min(start + 8) as usize);
            twin[from..to].copy_from_slice(&file[from..to]);
        }
    }
    Some(twin)
}

/// Feeds the file in pieces, and its twin beside it, whose states must be the same. Answers the last state asked on the way and that
/// at the end.
fn feed(file: &[u8], pieces: &[Piece], area: &mut Area, counts: &mut Counts) -> Result<[Pieces; 2], String> {
    let twin = twin(file);
    let (mut reader, mut beside) = (Reader::start(), Reader::start());
    let mut kept = reader;
    for piece in pieces {
        let part = reader.taken..reader.taken + piece.length;
        reader.take(&file[part.clone()], piece.at, area, counts)?;
        if let Some(twin) = &twin {
            beside.take(&twin[part], piece.at, area, counts)?;
            if let Some(word) = (0..STATE_WORDS).find(|&word| reader.state.0[word] != beside.state.0[word]) {
                let taken = reader.taken;
                return Err(format!("after {taken} bytes in pieces word {word} of the state hangs on bytes that it may not keep"));
            }
        }
        if piece.asked {
            reader.ask(file, false, counts)?;
            kept = reader;
        }
    }
    reader.ask(file, true, counts)?;
    // a state is a value: the one that was kept takes what is left, though it was fed on before and another file came between
    let stranger: Vec<u8> = file.iter().map(|byte| !byte).collect();
    Reader::start().take(&stranger, Where::Back, area, counts)?;
    let mut again = kept;
    again.take(&file[kept.taken..], Where::Back, area, counts)?;
    again.ask(file, false, counts)?;
    Ok([kept.state, reader.state])
}

/// Feeds and asks a state that comes from no start. What it answers is the library's to say, but for the numbers that each call can
/// give, and that 25 leaves the state.
fn feed_odd(mut state: Pieces, file: &[u8], area: &mut Area) -> Result<(), String> {
    let (front, back) = (&file[..file.len().min(700)], &file[file.len() / 2..]);
    for piece in [&[], front, back, &file[..file.len().min(1)]] {
        let taken = take(state, piece, Where::Back, area)?;
        if !matches!(taken.refusal, 0 | 25) || taken.place != 0 {
            return Err(format!("a state from no start: refusal {} at {} for a piece", taken.refusal, taken.place));
        }
        if taken.refusal == 25 && taken.pieces != state {
            return Err("a refused piece changed a state from no start".to_string());
        }
        state = taken.pieces;
        let file = unsafe { vestumbral_pieces_file(state) };
        let extensions = [0, 1, 63, 64, u64::MAX].map(|number| unsafe { vestumbral_pieces_extension_at(state, number) }.refusal);
        if file.refusal > 15 || extensions.iter().any(|refusal| !matches!(refusal, 0..=15 | 18)) {
            return Err(format!("a state from no start: refusals {} and {extensions:?}", file.refusal));
        }
    }
    Ok(())
}

/// Byte by byte, asked after each, and in two pieces cut at every place.
fn cut_everywhere(file: &[u8], area: &mut Area, counts: &mut Counts) -> Result<(), String> {
    let piece = |length, asked| Piece { length, at: Where::Back, asked };
    feed(file, &vec![piece(1, true); file.len()], area, counts)?;
    for cut in 0..=file.len() {
        feed(file, &[piece(cut, false), piece(file.len() - cut, false)], area, counts)?;
    }
    Ok(())
}

/// Feeds the file, which is longer than the total, up to it: asked beside each border, where also pieces are refused that would
/// pass the total. Then at once.
fn to_total(file: &[u8], counts: &mut Counts) -> Result<(), String> {
    let total = TOTAL as usize;
    let limits = [1, 344, 360, 1 << 31, 1 << 32, REGION_LIMIT as usize, rules::IMAGE_LIMIT as usize, total];
    let accepted = [&file[..REGION_LIMIT as usize], &file[..total]].map(cases::borders);
    let mut borders: Vec<usize> =
        accepted.concat().into_iter().chain(limits).flat_map(|at| at.saturating_sub(1)..=at + 1).collect();
    borders.retain(|&at| at <= total);
    borders.sort_unstable();
    let mut reader = Reader::start();
    for border in borders {
        let rest = &file[reader.taken..];
        reader.take_there(rest, total + 1 - reader.taken, counts)?;
        reader.take_there(rest, rest.len(), counts)?;
        reader.take_there(rest, border - reader.taken, counts)?;
        reader.ask(file, true, counts)?;
    }
    let after = &file[total..];
    for length in [1, 0, after.len()] {
        reader.take_there(after, length, counts)?;
    }
    let null = unsafe { vestumbral_pieces_take(reader.state, std::ptr::null(), 0) };
    reader.took(0, null, counts)?;
    reader.ask(file, true, counts)?;
    let mut at_once = Reader::start();
    at_once.take_there(file, total + 1, counts)?;
    at_once.take_there(file, total, counts)?;
    at_once.ask(file, true, counts)
}

/// How the library differs on the file fed so, in words. The file lies in memory as the whole-file calls are given it.
pub fn difference(file: &[u8], feeding: &Feeding, area: &mut Area, tall: &mut Tall, counts: &mut Counts) -> Option<String> {
    let done = match feeding {
        Feeding::Not => Ok(()),
        Feeding::Pieces { pieces, words } => feed(file, pieces, area, counts).and_then(|states| {
            states.into_iter().try_for_each(|mut state| {
                words.iter().for_each(|&(word, value)| state.0[word] = value);
                feed_odd(state, file, area)
            })
        }),
        Feeding::EveryCut => cut_everywhere(file, area, counts),
        Feeding::ToTotal => to_total(tall.with(file), counts),
    };
    done.err()
}
