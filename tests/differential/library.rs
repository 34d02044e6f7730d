//! The library's nineteen calls as include/vestumbral.h declares them, and their answers. Nothing checks these declarations but the
//! comparison itself, so they are kept beside one another and in the header's order.

use std::fmt;

#[repr(C)]
#[derive(Clone, Copy, Default, PartialEq, Eq, Debug)]
pub struct Reply {
    pub refusal: u64,
    pub place: u64,
    pub length: u64,
    pub aligned: u64,
}

#[repr(C)]
#[derive(Clone, Copy, Default, PartialEq, Eq, Debug)]
pub struct FileAnswer {
    pub refusal: u64,
    pub place: u64,
    pub data_offset: u64,
    pub data_bytes: u64,
    pub big_endian: u32,
    pub pair: u32,
    pub dim: [i16; 8],
    pub datatype: i16,
    pub bitpix: i16,
    pub extensions: u32,
    pub step: [u64; 7],
    pub aligned: u32,
}

#[repr(C)]
#[derive(Clone, Copy, Default, PartialEq, Eq, Debug)]
pub struct ExtensionAnswer {
    pub refusal: u64,
    pub place: u64,
    pub start: u64,
    pub size: i32,
    pub code: i32,
}

/// A binary32 that is compared and shown by its bits, so that -0 and +0 differ.
#[repr(transparent)]
#[derive(Clone, Copy, Default)]
pub struct Float(pub f32);

impl PartialEq for Float {
    fn eq(&self, other: &Float) -> bool {
        self.0.to_bits() == other.0.to_bits()
    }
}

impl fmt::Debug for Float {
    fn fmt(&self, f: &mut fmt::Formatter) -> fmt::Result {
        write!(f, "{:08X} ({:?})", self.0.to_bits(), self.0)
    }
}

#[repr(C)]
#[derive(Clone, Copy, Default, PartialEq, Debug)]
pub struct SliceAnswer {
    pub refusal: u64,
    pub place: u64,
    pub state: u32,
    pub rank: u32,
    pub seconds: Float,
}

#[repr(C)]
#[derive(Clone, Copy, Default, PartialEq, Eq, Debug)]
pub struct RankedAnswer {
    pub refusal: u64,
    pub place: u64,
    pub stated: u32,
    pub slice: u32,
}

#[repr(C)]
#[derive(Clone, Copy, Default, PartialEq, Debug)]
pub struct PositionAnswer {
    pub refusal: u64,
    pub place: u64,
    pub x: Float,
    pub y: Float,
    pub z: Float,
}

/// The state of reading in pieces, by its words, of 8 bytes each: its members are the library's own.
#[repr(C)]
#[derive(Clone, Copy, PartialEq, Eq)]
pub struct Pieces(pub [u64; STATE_WORDS]);

pub const STATE_WORDS: usize = 112;

#[repr(C)]
#[derive(Clone, Copy)]
pub struct Taken {
    pub refusal: u64,
    pub place: u64,
    pub pieces: Pieces,
}

#[repr(C)]
#[derive(Clone, Copy, Default, PartialEq, Eq, Debug)]
pub struct TurnedAnswer {
    pub refusal: u64,
    pub place: u64,
    pub length: u64,
    pub image_length: u64,
}

#[link(name = "vestumbral", kind = "static")]
extern "C" {
    pub fn vestumbral_read(file: *const u8, file_len: usize) -> FileAnswer;
    pub fn vestumbral_extension_at(file: *const u8, file_len: usize, number: u64) -> ExtensionAnswer;
    pub fn vestumbral_voxel(
        file: *const u8,
        file_len: usize,
        image: *const u8,
        image_len: usize,
        i1: u64,
        i2: u64,
        i3: u64,
        i4: u64,
        i5: u64,
        i6: u64,
        i7: u64,
    ) -> Reply;
    pub fn vestumbral_voxel_in(
        file: FileAnswer,
        image_len: u64,
        i1: u64,
        i2: u64,
        i3: u64,
        i4: u64,
        i5: u64,
        i6: u64,
        i7: u64,
    ) -> Reply;
    pub fn vestumbral_line(
        file: *const u8,
        file_len: usize,
        image: *const u8,
        image_len: usize,
        axis: u64,
        i1: u64,
        i2: u64,
        i3: u64,
        i4: u64,
        i5: u64,
        i6: u64,
        i7: u64,
        out: *mut u8,
        out_len: usize,
    ) -> Reply;
    pub fn vestumbral_line_by_voxel(
        file: *const u8,
        file_len: usize,
        image: *const u8,
        image_len: usize,
        axis: u64,
        i1: u64,
        i2: u64,
        i3: u64,
        i4: u64,
        i5: u64,
        i6: u64,
        i7: u64,
        out: *mut u8,
        out_len: usize,
    ) -> Reply;
    pub fn vestumbral_slice_at(file: *const u8, file_len: usize, slice: u64) -> SliceAnswer;
    pub fn vestumbral_slice_of_rank(file: *const u8, file_len: usize, rank: u64) -> RankedAnswer;
    pub fn vestumbral_position_of(file: *const u8, file_len: usize, i: u64, j: u64, k: u64) -> PositionAnswer;
    pub fn vestumbral_swap(file: *mut u8, file_len: usize, image: *mut u8, image_len: usize) -> Reply;
    pub fn vestumbral_swap_by_unit(file: *mut u8, file_len: usize, image: *mut u8, image_len: usize) -> Reply;
    pub fn vestumbral_append(
        buffer: *mut u8,
        buffer_len: usize,
        file_len: u64,
        code: i32,
        payload: *const u8,
        payload_len: usize,
    ) -> Reply;
    pub fn vestumbral_replace(
        buffer: *mut u8,
        buffer_len: usize,
        file_len: u64,
        number: u64,
        code: i32,
        payload: *const u8,
        payload_len: usize,
    ) -> Reply;
    pub fn vestumbral_remove(buffer: *mut u8, buffer_len: usize, file_len: u64, number: u64) -> Reply;
    pub fn vestumbral_pieces_start() -> Pieces;
    pub fn vestumbral_pieces_take(pieces: Pieces, piece: *const u8, piece_len: usize) -> Taken;
    pub fn vestumbral_pieces_file(pieces: Pieces) -> FileAnswer;
    pub fn vestumbral_pieces_extension_at(pieces: Pieces, number: u64) -> ExtensionAnswer;
    pub fn vestumbral_turn(
        file: *const u8,
        file_len: usize,
        image: *const u8,
        image_len: usize,
        axis1: u64,
        axis2: u64,
        axis3: u64,
        reverse1: u64,
        reverse2: u64,
        reverse3: u64,
        out: *mut u8,
        out_len: usize,
        out_image: *mut u8,
        out_image_len: usize,
    ) -> TurnedAnswer;
}

/// The answer of any call.
#[derive(Clone, Copy, PartialEq, Debug)]
pub enum Answer {
    Reply(Reply),
    File(FileAnswer),
    Extension(ExtensionAnswer),
    Slice(SliceAnswer),
    Ranked(RankedAnswer),
    Position(PositionAnswer),
    Turned(TurnedAnswer),
}

impl Answer {
    pub fn refusal(&self) -> u64 {
        match self {
            Answer::Reply(answer) => answer.refusal,
            Answer::File(answer) => answer.refusal,
            Answer::Extension(answer) => answer.refusal,
            Answer::Slice(answer) => answer.refusal,
            Answer::Ranked(answer) => answer.refusal,
            Answer::Position(answer) => answer.refusal,
            Answer::Turned(answer) => answer.refusal,
        }
    }
}
