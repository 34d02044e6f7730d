//! NIfTI-1 files built field by field, for the comparison's inputs and the self-check.

use crate::rules::{bytes_of_u32, Order, DATATYPES, HEADER};

/// Extenders whose reserved bytes are zeros.
pub const NO_EXTENSIONS: [u8; 4] = [0, 0, 0, 0];
pub const EXTENSIONS: [u8; 4] = [1, 0, 0, 0];

/// The bits of the offset at which a single file's data begins where it has no extensions.
pub const OFFSET_352: u32 = 0x43b0_0000;

/// A header of 348 bytes in one byte order.
#[derive(Clone)]
pub struct Header {
    pub bytes: Vec<u8>,
    pub order: Order,
}

impl Header {
    /// sizeof_hdr and the magic set, the other bytes as given.
    pub fn over(mut bytes: Vec<u8>, order: Order, pair: bool) -> Header {
        bytes.resize(HEADER, 0);
        let mut header = Header { bytes, order };
        header.set32(0, 348);
        header.bytes[344..348].copy_from_slice(if pair { b"ni1\0" } else { b"n+1\0" });
        header
    }

    pub fn new(order: Order, pair: bool) -> Header {
        Header::over(Vec::new(), order, pair)
    }

    pub fn set16(&mut self, at: usize, value: i16) {
        let pair = if self.order == Order::Little { value.to_le_bytes() } else { value.to_be_bytes() };
        self.bytes[at..at + 2].copy_from_slice(&pair);
    }

    pub fn set32(&mut self, at: usize, bits: u32) {
        self.bytes[at..at + 4].copy_from_slice(&bytes_of_u32(bits, self.order));
    }

    /// dim[0] and the entries after it.
    pub fn dims(mut self, dims: &[i16]) -> Header {
        self.set16(40, dims.len() as i16);
        dims.iter().enumerate().for_each(|(i, &d)| self.set16(42 + 2 * i, d));
        self
    }

    /// The datatype and its bitpix.
    pub fn datatype(mut self, code: i16) -> Header {
        let bits = DATATYPES.iter().find(|row| row.0 == code).map_or(0, |row| row.1);
        self.set16(70, code);
        self.set16(72, bits);
        self
    }

    pub fn offset(mut self, bits: u32) -> Header {
        self.set32(108, bits);
        self
    }

    /// dim_info, slice_start and slice_end, slice_code, and slice_duration by its bits.
    pub fn timed(mut self, dim_info: u8, [start, end]: [i16; 2], code: u8, duration: u32) -> Header {
        self.bytes[39] = dim_info;
        self.set16(74, start);
        self.set16(120, end);
        self.bytes[122] = code;
        self.set32(132, duration);
        self
    }

    /// The header and what follows it.
    pub fn file(self, parts: &[&[u8]]) -> Vec<u8> {
        let mut bytes = self.bytes;
        parts.iter().for_each(|part| bytes.extend_from_slice(part));
        bytes
    }
}

/// An extension's bytes: size, code and the payload given, which the size is not held to.
pub fn extension(order: Order, size: i32, code: i32, payload: &[u8]) -> Vec<u8> {
    [&bytes_of_u32(size as u32, order), &bytes_of_u32(code as u32, order), payload].concat()
}

/// File A of 01-scope.md, "Numbers on each side"; the values of its six voxels are free, here 0 to 5.
pub fn file_a() -> Vec<u8> {
    let image = [0, 0, 1, 0, 2, 0, 3, 0, 4, 0, 5, 0];
    Header::new(Order::Little, false).dims(&[3, 2]).datatype(4).offset(OFFSET_352).file(&[&NO_EXTENSIONS, &image])
}
