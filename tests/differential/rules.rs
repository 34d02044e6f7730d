//! The rules of 01-scope.md and of the requests after it a second time, written from the papers alone, to compare the library with.
//! Nothing here is fast and nothing is in place: an edit builds its fresh file, a swap turns a copy. Field places are those of source
//! document 003.

/// The longest pair's header file, and the last place at which an extension region may end.
pub const REGION_LIMIT: u64 = 134_217_728;
pub const IMAGE_LIMIT: u64 = 1_099_511_627_776;
/// The most bytes that the pieces of a file come to.
pub const TOTAL: u64 = 2_199_023_255_552;
pub const MOST_EXTENSIONS: usize = 64;
pub const HEADER: usize = 348;
/// Where the extension region begins.
pub const REGION: u64 = 352;

/// A refusal of the table: its number and its place.
#[derive(Clone, Copy, PartialEq, Eq, Debug)]
pub struct Refusal {
    pub number: u64,
    pub place: u64,
}

fn refuse<T>(number: u64, place: u64) -> Result<T, Refusal> {
    Err(Refusal { number, place })
}

#[derive(Clone, Copy, PartialEq, Eq, Debug)]
pub enum Order {
    Little,
    Big,
}

pub fn u16_at(bytes: &[u8], at: usize, order: Order) -> u16 {
    let pair = [bytes[at], bytes[at + 1]];
    match order {
        Order::Little => u16::from_le_bytes(pair),
        Order::Big => u16::from_be_bytes(pair),
    }
}

pub fn u32_at(bytes: &[u8], at: usize, order: Order) -> u32 {
    let four = [bytes[at], bytes[at + 1], bytes[at + 2], bytes[at + 3]];
    match order {
        Order::Little => u32::from_le_bytes(four),
        Order::Big => u32::from_be_bytes(four),
    }
}

pub fn i16_at(bytes: &[u8], at: usize, order: Order) -> i16 {
    u16_at(bytes, at, order) as i16
}

pub fn i32_at(bytes: &[u8], at: usize, order: Order) -> i32 {
    u32_at(bytes, at, order) as i32
}

pub fn f32_at(bytes: &[u8], at: usize, order: Order) -> f32 {
    f32::from_bits(u32_at(bytes, at, order))
}

pub fn bytes_of_u32(value: u32, order: Order) -> [u8; 4] {
    match order {
        Order::Little => value.to_le_bytes(),
        Order::Big => value.to_be_bytes(),
    }
}

/// Datatype, bits, swap unit in bytes.
pub const DATATYPES: [(i16, i16, usize); 16] = [
    (2, 8, 1),
    (4, 16, 2),
    (8, 32, 4),
    (16, 32, 4),
    (32, 64, 4),
    (64, 64, 8),
    (128, 24, 1),
    (256, 8, 1),
    (512, 16, 2),
    (768, 32, 4),
    (1024, 64, 8),
    (1280, 64, 8),
    (1536, 128, 16),
    (1792, 128, 8),
    (2048, 256, 16),
    (2304, 32, 1),
];

/// The numbers of the header, which a swap turns round: place of the first, width, how many follow one another. The unused ones
/// (extents, session_error, glmax, glmin) are among them; texts and single bytes are not.
pub const NUMBERS: [(usize, usize, usize); 13] = [
    (0, 4, 1),    // sizeof_hdr
    (32, 4, 1),   // extents
    (36, 2, 1),   // session_error
    (40, 2, 8),   // dim
    (56, 4, 3),   // intent_p1, intent_p2, intent_p3
    (68, 2, 4),   // intent_code, datatype, bitpix, slice_start
    (76, 4, 8),   // pixdim
    (108, 4, 3),  // vox_offset, scl_slope, scl_inter
    (120, 2, 1),  // slice_end
    (124, 4, 6),  // cal_max, cal_min, slice_duration, toffset, glmax, glmin
    (252, 2, 2),  // qform_code, sform_code
    (256, 4, 6),  // quatern_b, _c, _d, qoffset_x, _y, _z
    (280, 4, 12), // srow_x, srow_y, srow_z
];

#[derive(Clone, Copy, PartialEq, Eq, Debug)]
pub struct Span {
    pub start: u64,
    pub size: i32,
    pub code: i32,
}

impl Span {
    pub fn end(&self) -> u64 {
        self.start + self.size as u64
    }
}

/// What reading tells of an accepted file.
#[derive(Clone, PartialEq, Eq, Debug)]
pub struct Known {
    pub order: Order,
    pub pair: bool,
    pub dim: [i16; 8],
    pub datatype: i16,
    pub bitpix: i16,
    pub unit: usize,
    pub offset: u64,
    /// vox_offset is a multiple of 16.
    pub aligned: bool,
    pub image_bytes: u64,
    /// The byte step of each axis.
    pub steps: [u64; 7],
    /// Where the extension region ends: vox_offset, or a pair's file length.
    pub region_end: u64,
    /// The first byte of the extender is not zero.
    pub extended: bool,
    pub spans: Vec<Span>,
}

impl Known {
    pub fn axes(&self) -> usize {
        self.dim[0] as usize
    }

    /// The length of axis 1..7; one after dim[0] has length 1.
    pub fn axis(&self, axis: usize) -> u64 {
        if axis <= self.axes() {
            self.dim[axis] as u64
        } else {
            1
        }
    }

    pub fn voxel_bytes(&self) -> u64 {
        self.bitpix as u64 / 8
    }

    /// Where an extension after those in `spans` begins.
    fn next_start(&self) -> u64 {
        self.spans.last().map_or(REGION, Span::end)
    }
}

/// The byte order in which dim[0] is in 1..7.
fn order_of(file: &[u8]) -> Option<Order> {
    [Order::Little, Order::Big].into_iter().find(|&order| (1..=7).contains(&i16_at(file, 40, order)))
}

/// The rule of the extender, the four bytes at 348.
#[derive(Clone, Copy)]
pub struct Extender {
    /// Whether extensions follow, of a file that rules 1 to 11 pass. Refusal 12.
    pub read: fn(&[u8]) -> Result<bool, Refusal>,
    /// What an edit writes, by the buffer, the length of the file in it, and whether the edited list has an extension.
    pub written: fn(&[u8], usize, bool) -> [u8; 4],
}

/// By "The three reserved bytes" (02-change-requests.md, P2). A single file that rules 1 to 11 pass has 352 bytes at least.
pub const RESERVED: Extender = Extender {
    read: |file| match file.len() {
        348 => Ok(false),
        349..=351 => refuse(12, 348),
        _ => Ok(file[348] != 0),
    },
    written: |buffer, file_len, some| {
        let [a, b, c] = if file_len == 348 { [0; 3] } else { [buffer[349], buffer[350], buffer[351]] };
        [some as u8, a, b, c]
    },
};

/// By 01-scope.md, as it was before P2.
pub const BASE: Extender = Extender {
    read: |file| match file.get(348..352) {
        None if file.len() == 348 => Ok(false),
        Some([0, 0, 0, 0]) => Ok(false),
        Some([1, 0, 0, 0]) => Ok(true),
        _ => refuse(12, 348),
    },
    written: |_, _, some| [some as u8, 0, 0, 0],
};

/// The seven byte steps (02-change-requests.md, P4), each how far apart two neighbours along an axis are: the bytes of all voxels
/// that the axes before it hold. "An axis after dim[0] has the image total as its step."
pub fn steps(dim: &[i16; 8], bitpix: i16, image_bytes: u64) -> [u64; 7] {
    std::array::from_fn(|before| {
        let voxels = dim[1..=before].iter().map(|&d| d as u128).product::<u128>();
        if before < dim[0] as usize {
            (voxels * (bitpix as u128 / 8)) as u64
        } else {
            image_bytes
        }
    })
}

/// What the header and the file's length tell, without the extensions. Refusals 1 to 12.
fn layout(rule: &Extender, file: &[u8]) -> Result<Known, Refusal> {
    let length = file.len() as u64;
    if file.len() < HEADER {
        return refuse(1, 0);
    }
    let Some(order) = order_of(file) else {
        return refuse(2, 40);
    };
    if i32_at(file, 0, order) != 348 {
        return refuse(3, 0);
    }
    let pair = match file[344..348] {
        [0x6e, 0x69, 0x31, 0x00] => true,
        [0x6e, 0x2b, 0x31, 0x00] => false,
        _ => return refuse(4, 344),
    };
    let dim: [i16; 8] = std::array::from_fn(|i| i16_at(file, 40 + 2 * i, order));
    let axes = dim[0] as usize;
    if let Some(i) = (1..=axes).find(|&i| dim[i] < 1) {
        return refuse(5, 40 + 2 * i as u64);
    }
    let datatype = i16_at(file, 70, order);
    let bitpix = i16_at(file, 72, order);
    let Some(&(_, bits, unit)) = DATATYPES.iter().find(|row| row.0 == datatype) else {
        return refuse(6, 70);
    };
    if bitpix != bits {
        return refuse(7, 72);
    }
    let offset = f32_at(file, 108, order);
    if !offset.is_finite() || offset < 0.0 || offset.fract() != 0.0 {
        return refuse(8, 108);
    }
    if offset > REGION_LIMIT as f32 || (if pair { length > REGION_LIMIT } else { offset < 352.0 }) {
        return refuse(9, 108);
    }
    // "Tell us when the offset isn't a multiple of 16" (02-change-requests.md, P6): a remainder of two binary32 is exact, and that
    // of -0 is -0, which equals 0
    let aligned = offset % 16.0 == 0.0;
    let offset = offset as u64;
    // seven axes of 15 bits and 32 bytes a voxel stay far below 128 bits
    let image_bytes = dim[1..=axes].iter().map(|&d| d as u128).product::<u128>() * (bits as u128 / 8);
    if image_bytes > IMAGE_LIMIT as u128 {
        return refuse(10, 40);
    }
    let image_bytes = image_bytes as u64;
    if !pair && length < offset + image_bytes {
        return refuse(11, 108);
    }
    let extended = (rule.read)(file)?;
    let region_end = if pair { length } else { offset };
    let steps = steps(&dim, bitpix, image_bytes);
    let spans = Vec::new();
    Ok(Known { order, pair, dim, datatype, bitpix, unit, offset, aligned, image_bytes, steps, region_end, extended, spans })
}

/// What is known of a file that rules 1 to 12 do not refuse, with its extensions up to the first that rules 13 to 15 refuse, and
/// that refusal. Refusals 1 to 12.
pub fn walked(file: &[u8]) -> Result<(Known, Option<Refusal>), Refusal> {
    walked_by(&RESERVED, file)
}

fn walked_by(rule: &Extender, file: &[u8]) -> Result<(Known, Option<Refusal>), Refusal> {
    let mut known = layout(rule, file)?;
    while known.extended && (known.spans.is_empty() || known.next_start() < known.region_end) {
        match next_extension(file, &known) {
            Ok(span) => known.spans.push(span),
            Err(no) => return Ok((known, Some(no))),
        }
    }
    Ok((known, None))
}

/// Refusals 1 to 15.
pub fn read(file: &[u8]) -> Result<Known, Refusal> {
    read_by(&RESERVED, file)
}

pub fn read_by(rule: &Extender, file: &[u8]) -> Result<Known, Refusal> {
    match walked_by(rule, file)? {
        (known, None) => Ok(known),
        (_, Some(no)) => Err(no),
    }
}

/// The extension after those that are known, where one must follow. Refusals 13 to 15.
fn next_extension(file: &[u8], known: &Known) -> Result<Span, Refusal> {
    let start = known.next_start();
    if known.spans.len() == MOST_EXTENSIONS {
        return refuse(15, start);
    }
    let left = known.region_end - start;
    if left < 16 {
        return refuse(13, start);
    }
    let size = i32_at(file, start as usize, known.order);
    if size <= 0 || size % 16 != 0 || size as u64 > left {
        return refuse(13, start);
    }
    let code = i32_at(file, start as usize + 4, known.order);
    if code < 0 {
        return refuse(14, start + 4);
    }
    Ok(Span { start, size, code })
}

/// Refusal 18.
pub fn numbered(known: &Known, number: u64) -> Result<Span, Refusal> {
    match known.spans.iter().enumerate().find(|(i, _)| *i as u64 == number) {
        Some((_, span)) => Ok(*span),
        None => refuse(18, 0),
    }
}

/// Refusals 1 to 15, then 18.
pub fn extension_at(file: &[u8], number: u64) -> Result<Span, Refusal> {
    numbered(&read(file)?, number)
}

/// How many bytes there are after a piece, of which the answers are those of the whole file that they make. Refusal 25.
pub fn take(taken: u64, piece: u64) -> Result<u64, Refusal> {
    match taken.checked_add(piece) {
        Some(sum) if sum <= TOTAL => Ok(sum),
        _ => refuse(25, 0),
    }
}

/// Reading for a call that looks at the image too: 1 to 15, then 16 for a pair.
fn read_with_image(file: &[u8], image_len: u64) -> Result<Known, Refusal> {
    let known = read(file)?;
    if known.pair && image_len < known.offset + known.image_bytes {
        return refuse(16, 0);
    }
    Ok(known)
}

/// A voxel's place and length. Refusals 1 to 17.
pub fn voxel(file: &[u8], image_len: u64, index: [u64; 7]) -> Result<(u64, u64), Refusal> {
    let known = read_with_image(file, image_len)?;
    if (1..=7).any(|axis| index[axis - 1] >= known.axis(axis)) {
        return refuse(17, 0);
    }
    // i1 + dim[1] x (i2 + dim[2] x (i3 + ..)), from the inside out
    let number = (1..=7).rev().fold(0, |inner, axis| index[axis - 1] + known.axis(axis) * inner);
    Ok((known.offset + known.voxel_bytes() * number, known.voxel_bytes()))
}

fn turn_units(bytes: &mut [u8], unit: usize) {
    for unit in bytes.chunks_exact_mut(unit) {
        unit.reverse();
    }
}

/// The file and the image file with their byte order turned. Refusals 1 to 16.
pub fn swap(file: &[u8], image: &[u8]) -> Result<(Vec<u8>, Vec<u8>), Refusal> {
    let known = read_with_image(file, image.len() as u64)?;
    let (mut file, mut image) = (file.to_vec(), image.to_vec());
    for (at, width, count) in NUMBERS {
        turn_units(&mut file[at..at + width * count], width);
    }
    for span in &known.spans {
        let start = span.start as usize;
        turn_units(&mut file[start..start + 8], 4);
    }
    let holder = if known.pair { &mut image } else { &mut file };
    let (from, to) = (known.offset as usize, (known.offset + known.image_bytes) as usize);
    turn_units(&mut holder[from..to], known.unit);
    Ok((file, image))
}

#[derive(Clone, Copy, PartialEq, Debug)]
pub enum Slice {
    Unstated,
    Padding,
    Timed { rank: u32, seconds: f32 },
}

/// The turn of slice s among start..end by slice_code 1..6.
pub fn rank(code: u8, start: i64, end: i64, s: i64) -> i64 {
    let n = end - start + 1;
    let o = if code % 2 == 1 { s - start } else { end - s };
    match code {
        1 | 2 => o,
        3 | 4 if o % 2 == 0 => o / 2,
        3 | 4 => (n + 1) / 2 + (o - 1) / 2,
        _ if o % 2 == 1 => (o - 1) / 2,
        _ => n / 2 + o / 2,
    }
}

/// What the header says of slice timing.
#[derive(Clone, Copy, Debug)]
pub struct Timing {
    /// slice_dim.
    pub axis: usize,
    /// The length of that axis; 0 where slice_dim is not in 1..3 or is above dim[0].
    pub slices: i64,
    pub start: i64,
    pub end: i64,
    pub code: u8,
    pub duration: f32,
}

impl Timing {
    pub fn of(file: &[u8], known: &Known) -> Timing {
        let axis = (file[39] >> 4 & 3) as usize;
        let has_axis = (1..=3).contains(&axis) && axis <= known.axes();
        Timing {
            axis,
            slices: if has_axis { known.dim[axis] as i64 } else { 0 },
            start: i16_at(file, 74, known.order) as i64,
            end: i16_at(file, 120, known.order) as i64,
            code: file[122],
            duration: f32_at(file, 132, known.order),
        }
    }

    pub fn stated(&self) -> bool {
        let Timing { slices, start, end, code, duration, .. } = *self;
        let time_stated = duration.is_finite() && duration > 0.0 && (1..=6).contains(&code);
        time_stated && 0 <= start && start < end && end < slices
    }

    /// N, where timing is stated.
    pub fn count(&self) -> u64 {
        (self.end - self.start + 1) as u64
    }

    pub fn rank(&self, s: i64) -> i64 {
        rank(self.code, self.start, self.end, s)
    }

    pub fn seconds(&self, rank: i64) -> f32 {
        rank as f32 * self.duration
    }

    /// The same order in the other direction, INC for DEC or DEC for INC.
    pub fn mirrored(&self) -> Timing {
        Timing { code: ((self.code - 1) ^ 1) + 1, ..*self }
    }

    /// Unstated, 17, padding, and unstated again where the time is infinite.
    pub fn slice_at(&self, slice: u64) -> Result<Slice, Refusal> {
        if !self.stated() {
            return Ok(Slice::Unstated);
        }
        if slice >= self.slices as u64 {
            return refuse(17, 0);
        }
        let s = slice as i64;
        if s < self.start || s > self.end {
            return Ok(Slice::Padding);
        }
        let rank = self.rank(s);
        let seconds = self.seconds(rank);
        Ok(if seconds.is_infinite() { Slice::Unstated } else { Slice::Timed { rank: rank as u32, seconds } })
    }

    /// Unstated, which is none, then 17; then the slice that has the rank, found by the rule of ranks alone.
    pub fn slice_of_rank(&self, rank: u64) -> Ranked {
        if !self.stated() {
            return Ok(None);
        }
        if rank >= self.count() {
            return refuse(17, 0);
        }
        let slice = (self.start..=self.end).find(|&s| self.rank(s) as u64 == rank);
        Ok(Some(slice.expect("a slice of each rank below N") as u32))
    }
}

/// The slice of a rank, or none where timing is not stated.
pub type Ranked = Result<Option<u32>, Refusal>;

/// Refusals 1 to 15, then 17.
pub fn slice_at(file: &[u8], slice: u64) -> Result<Slice, Refusal> {
    Timing::of(file, &read(file)?).slice_at(slice)
}

/// "Every acquired slice has its turn" (02-change-requests.md, P8). Refusals 1 to 15, then 17.
pub fn slice_of_rank(file: &[u8], rank: u64) -> Ranked {
    Timing::of(file, &read(file)?).slice_of_rank(rank)
}

/// ((s0 x i + s1 x j) + s2 x k) + s3, each operation rounded to binary32.
pub fn coordinate(row: [f32; 4], index: [u64; 3]) -> f32 {
    let [i, j, k] = index.map(|n| n as f32);
    let first = row[0] * i;
    let second = row[1] * j;
    let two = first + second;
    let third = row[2] * k;
    let three = two + third;
    three + row[3]
}

/// Refusals 1 to 15, 17, then 23.
pub fn position_of(file: &[u8], index: [u64; 3]) -> Result<[f32; 3], Refusal> {
    let known = read(file)?;
    if (1..=3).any(|axis| index[axis - 1] >= known.axis(axis)) {
        return refuse(17, 0);
    }
    let srow: [[f32; 4]; 3] =
        std::array::from_fn(|row| std::array::from_fn(|column| f32_at(file, 280 + 16 * row + 4 * column, known.order)));
    let position = srow.map(|row| coordinate(row, index));
    let sform_code = i16_at(file, 254, known.order);
    if sform_code <= 0 || !srow.iter().flatten().chain(&position).all(|value| value.is_finite()) {
        return refuse(23, 0);
    }
    Ok(position)
}

#[derive(Clone, Copy)]
pub enum Edit<'a> {
    Append { code: i32, payload: &'a [u8] },
    Replace { number: u64, code: i32, payload: &'a [u8] },
    Remove { number: u64 },
}

/// The bytes that an extension with such a payload takes: the least multiple of 16 that is at least L + 8.
pub fn stored_size(payload: u64) -> u64 {
    (payload + 8).next_multiple_of(16)
}

/// An extension of the edited file: one of the old file's, or the offered one.
enum Entry<'a> {
    Kept(&'a [u8]),
    Offered(i32, &'a [u8]),
}

impl Entry<'_> {
    fn size(&self) -> u64 {
        match self {
            Entry::Kept(bytes) => bytes.len() as u64,
            Entry::Offered(_, payload) => stored_size(payload.len() as u64),
        }
    }

    fn write(&self, order: Order, out: &mut Vec<u8>) {
        match self {
            Entry::Kept(bytes) => out.extend_from_slice(bytes),
            Entry::Offered(code, payload) => {
                let end = out.len() + self.size() as usize;
                out.extend(bytes_of_u32(self.size() as u32, order));
                out.extend(bytes_of_u32(*code as u32, order));
                out.extend_from_slice(payload);
                out.resize(end, 0);
            }
        }
    }
}

/// The refusals that hang on the edit's arguments and not on its result: 18, 19, 20.
fn check_arguments(known: &Known, edit: &Edit) -> Result<(), Refusal> {
    let number = match *edit {
        Edit::Replace { number, .. } | Edit::Remove { number } => Some(number),
        Edit::Append { .. } => None,
    };
    if number.is_some_and(|number| number >= known.spans.len() as u64) {
        return refuse(18, 0);
    }
    if matches!(*edit, Edit::Append { code, .. } | Edit::Replace { code, .. } if code < 0) {
        return refuse(19, 0);
    }
    if matches!(edit, Edit::Append { .. }) && !known.extended && known.region_end > REGION {
        return refuse(20, 0);
    }
    Ok(())
}

/// The list X with the edit.
fn edited_list<'a>(file: &'a [u8], known: &Known, edit: &Edit<'a>) -> Vec<Entry<'a>> {
    let kept = |span: &Span| Entry::Kept(&file[span.start as usize..span.start as usize + span.size as usize]);
    let mut entries: Vec<Entry> = known.spans.iter().map(kept).collect();
    match *edit {
        Edit::Append { code, payload } => entries.push(Entry::Offered(code, payload)),
        Edit::Replace { number, code, payload } => entries[number as usize] = Entry::Offered(code, payload),
        Edit::Remove { number } => drop(entries.remove(number as usize)),
    }
    entries
}

/// The whole buffer afterwards and the new file length. Refusals 24, 1 to 15, 18 to 22.
pub fn edit(buffer: &[u8], file_len: u64, edit: &Edit) -> Result<(Vec<u8>, u64), Refusal> {
    edit_by(&RESERVED, buffer, file_len, edit)
}

pub fn edit_by(rule: &Extender, buffer: &[u8], file_len: u64, edit: &Edit) -> Result<(Vec<u8>, u64), Refusal> {
    if file_len > buffer.len() as u64 {
        return refuse(24, 0);
    }
    let file = &buffer[..file_len as usize];
    let known = read_by(rule, file)?;
    check_arguments(&known, edit)?;
    let entries = edited_list(file, &known, edit);
    let region_end = REGION + entries.iter().map(Entry::size).sum::<u64>();
    if entries.len() > MOST_EXTENSIONS || region_end > REGION_LIMIT {
        return refuse(21, 0);
    }
    let tail = if known.pair { &[] } else { &file[known.offset as usize..] };
    let new_len = region_end + tail.len() as u64;
    if new_len > buffer.len() as u64 {
        return refuse(22, 0);
    }
    let mut whole = Vec::with_capacity(buffer.len());
    whole.extend_from_slice(&file[..HEADER]);
    if !known.pair {
        // a multiple of 16 up to 2^27, so exact in binary32
        whole[108..112].copy_from_slice(&bytes_of_u32((region_end as f32).to_bits(), known.order));
    }
    whole.extend((rule.written)(buffer, file.len(), !entries.is_empty()));
    entries.iter().for_each(|entry| entry.write(known.order, &mut whole));
    whole.extend_from_slice(tail);
    whole.resize(whole.len().max(file.len()), 0);
    whole.extend_from_slice(&buffer[whole.len()..]);
    Ok((whole, new_len))
}
