//! Wrong programs that keep the steps of a file or locate a voxel by them (02-change-requests.md, P4), of the kind that a hurried
//! colleague would write. The cases of the comparison must notice each.

use crate::cases::{Call, Case};
use crate::file_answer;
use crate::library::FileAnswer;
use crate::noticed::{self, Noticed};
use crate::record::{Asked, TRIED};
use crate::rules::{self, Known, Refusal, IMAGE_LIMIT, REGION, REGION_LIMIT};

type Reader = fn(&[u8]) -> FileAnswer;
type Located = Result<(u64, u64), Refusal>;
type Locator = fn(&Asked) -> Located;

fn right(file: &[u8]) -> FileAnswer {
    file_answer(&rules::read(file))
}

/// The right reader but for the steps of a file that is accepted.
fn keeping(file: &[u8], steps: impl Fn(&Known) -> [u64; 7]) -> FileAnswer {
    match rules::read(file) {
        Ok(known) => FileAnswer { step: steps(&known), ..right(file) },
        Err(_) => right(file),
    }
}

/// The right reader but for the steps of the axes after dim[0].
fn keeping_after(file: &[u8], after: impl Fn(&Known, usize) -> u64) -> FileAnswer {
    keeping(file, |known| std::array::from_fn(|i| if i < known.axes() { known.steps[i] } else { after(known, i) }))
}

const READERS: [(&str, Reader); 12] = [
    ("the steps of axes 1 and 2 are exchanged", |file| keeping(file, |known| exchanged(known, 0))),
    ("the last step is exchanged with the one after it", |file| keeping(file, |known| exchanged(known, known.axes().min(6) - 1))),
    ("a step has the length of its own axis in it", |file| {
        keeping(file, |known| std::array::from_fn(|i| known.steps.get(i + 1).copied().unwrap_or(known.image_bytes)))
    }),
    ("an axis after dim[0] has step 0", |file| keeping_after(file, |_, _| 0)),
    ("an axis after dim[0] has the last step", |file| keeping_after(file, |known, _| known.steps[known.axes() - 1])),
    ("an axis after dim[0] has a voxel's bytes", |file| keeping_after(file, |known, _| known.voxel_bytes())),
    ("the dims after dim[0] are multiplied too", |file| {
        keeping_after(file, |known, i| {
            known.dim[known.axes() + 1..=i].iter().fold(known.image_bytes, |total, &d| total.wrapping_mul(d as u64))
        })
    }),
    ("the total of the axes after dim[0] is where the image ends", |file| {
        keeping_after(file, |known, _| known.offset + known.image_bytes)
    }),
    ("the steps are counted in voxels", |file| keeping(file, |known| known.steps.map(|step| step / known.voxel_bytes()))),
    ("the steps are counted in bits", |file| keeping(file, |known| known.steps.map(|step| step * 8))),
    ("the steps are numbers of 32 bits", |file| keeping(file, |known| known.steps.map(|step| step & 0xffff_ffff))),
    ("a file that its extensions refuse has steps", |file| match rules::walked(file) {
        Ok((known, Some(_))) => FileAnswer { step: known.steps, ..right(file) },
        _ => right(file),
    }),
];

fn exchanged(known: &Known, axis: usize) -> [u64; 7] {
    let mut steps = known.steps;
    steps.swap(axis, axis + 1);
    steps
}

/// The voxel where these of those tried hold, in the order given; with numbers of 64 bits that wrap.
fn answered(asked: &Asked, faults: impl IntoIterator<Item = Option<Refusal>>) -> Located {
    match faults.into_iter().flatten().next() {
        Some(first) => Err(first),
        None => Ok((asked.record.data_offset.wrapping_add(asked.distance() as u64), asked.record.step[0])),
    }
}

fn tried(name: &str) -> usize {
    TRIED.iter().position(|&tried| tried == name).unwrap()
}

fn in_order(asked: &Asked, order: [&str; 6]) -> Located {
    answered(asked, order.map(|name| asked.faults()[tried(name)]))
}

/// The right program but for one of those tried, which holds where this says.
fn judging(asked: &Asked, name: &str, holds: impl Fn(&FileAnswer) -> bool) -> Located {
    let mut faults = asked.faults();
    let place = [("2", 40), ("9", 108)].iter().find(|row| row.0 == name).map_or(0, |row| row.1);
    faults[tried(name)] = holds(&asked.record).then(|| Refusal { number: name.parse().unwrap(), place });
    answered(asked, faults)
}

/// The right program but for the lengths of the axes, each by its number.
fn measuring(asked: &Asked, length: impl Fn(usize) -> u64) -> Located {
    judging(asked, "17", |_| (1..=7).any(|axis| asked.index[axis - 1] >= length(axis)))
}

/// The right program but for where the voxel ends, from the first one's beginning.
fn ending(asked: &Asked, end: u128) -> Located {
    judging(asked, "26", |record| record.step[0] == 0 || record.data_bytes > IMAGE_LIMIT || end > record.data_bytes as u128)
}

fn with(asked: &Asked, change: impl Fn(&mut Asked)) -> Located {
    let mut changed = *asked;
    change(&mut changed);
    changed.voxel()
}

const LOCATORS: [(&str, Locator); 39] = [
    ("26 is tried before 17", |asked| in_order(asked, ["own", "2", "9", "16", "26", "17"])),
    ("17 is tried before 16", |asked| in_order(asked, ["own", "2", "9", "17", "16", "26"])),
    ("16 is tried before 9", |asked| in_order(asked, ["own", "2", "16", "9", "17", "26"])),
    ("9 is tried before 2", |asked| in_order(asked, ["own", "9", "2", "16", "17", "26"])),
    ("2 is tried before the record's own refusal", |asked| in_order(asked, ["2", "own", "9", "16", "17", "26"])),
    ("26 is tried first", |asked| in_order(asked, ["26", "own", "2", "9", "16", "17"])),
    ("the record's own refusal is tried last", |asked| in_order(asked, ["2", "9", "16", "17", "26", "own"])),
    ("26 is given by the total alone", |asked| judging(asked, "26", |record| record.data_bytes > IMAGE_LIMIT)),
    ("26 is never given", |asked| judging(asked, "26", |_| false)),
    ("the total is not judged", |asked| {
        judging(asked, "26", |record| record.step[0] == 0 || asked.end() > record.data_bytes as u128)
    }),
    ("a total at the limit is too long", |asked| match asked.voxel() {
        Ok(_) if asked.record.data_bytes == IMAGE_LIMIT => Err(Refusal { number: 26, place: 0 }),
        right => right,
    }),
    ("a first step of 0 is not judged", |asked| {
        judging(asked, "26", |record| record.data_bytes > IMAGE_LIMIT || asked.end() > record.data_bytes as u128)
    }),
    ("any step of 0 is judged", |asked| match asked.voxel() {
        Ok(_) if asked.record.step.contains(&0) => Err(Refusal { number: 26, place: 0 }),
        right => right,
    }),
    ("every step is held to the total", |asked| match asked.voxel() {
        Ok(_) if asked.record.step.iter().any(|&step| step > asked.record.data_bytes) => Err(Refusal { number: 26, place: 0 }),
        right => right,
    }),
    ("the sums wrap", |asked| {
        let products = asked.index.iter().zip(&asked.record.step).map(|(&i, &step)| i as u128 * step as u128);
        let wrapped = products.fold(asked.record.step[0], |sum, product| sum.wrapping_add(product.min(u64::MAX as u128) as u64));
        ending(asked, wrapped as u128)
    }),
    ("the products wrap", |asked| {
        let products = asked.index.iter().zip(&asked.record.step).map(|(&i, &step)| i.wrapping_mul(step) as u128);
        ending(asked, products.sum::<u128>() + asked.record.step[0] as u128)
    }),
    ("the sums and the products wrap", |asked| ending(asked, asked.end() as u64 as u128)),
    ("only the end of the voxel wraps", |asked| {
        let distance = asked.distance();
        ending(asked, distance.max((distance as u64).wrapping_add(asked.record.step[0]) as u128))
    }),
    ("the voxel's own bytes are left out", |asked| ending(asked, asked.distance())),
    ("the voxel's first byte alone is in the image", |asked| ending(asked, asked.distance().saturating_add(1))),
    ("the voxel ends before the image does", |asked| ending(asked, asked.end().saturating_add(1))),
    ("the dims are multiplied", |asked| {
        with(asked, |asked| {
            let dim = asked.record.dim;
            if (1..=7).contains(&dim[0]) && dim[1..=dim[0] as usize].iter().all(|&d| d > 0) && asked.record.bitpix > 0 {
                asked.record.step = rules::steps(&dim, asked.record.bitpix, asked.record.data_bytes);
            }
        })
    }),
    ("a voxel has bitpix / 8 bytes", |asked| asked.voxel().map(|(place, _)| (place, asked.record.bitpix as u64 / 8))),
    ("1 alone is a pair", |asked| with(asked, |asked| asked.record.pair = (asked.record.pair == 1) as u32)),
    ("the lowest bit says whether it is a pair", |asked| with(asked, |asked| asked.record.pair &= 1)),
    ("the image file is not judged", |asked| judging(asked, "16", |_| false)),
    ("the image file of a single file is judged", |asked| judging(asked, "16", |_| (asked.image_len as u128) < asked.image_end())),
    ("the image file need only hold the voxel", |asked| {
        judging(asked, "16", |record| {
            record.pair != 0 && (asked.image_len as u128) < asked.end().saturating_add(record.data_offset as u128)
        })
    }),
    ("where the image ends wraps", |asked| {
        judging(asked, "16", |record| record.pair != 0 && asked.image_len < asked.image_end() as u64)
    }),
    ("the place of the record's own refusal is left out", |asked| match asked.record.refusal {
        0 => asked.voxel(),
        number => Err(Refusal { number, place: 0 }),
    }),
    ("the record's own refusal is a number of 32 bits", |asked| with(asked, |asked| asked.record.refusal &= 0xffff_ffff)),
    ("a pair begins at 352 too", |asked| {
        judging(asked, "9", |record| record.data_offset > REGION_LIMIT || record.data_offset < REGION)
    }),
    ("where an image begins is not judged", |asked| judging(asked, "9", |_| false)),
    ("a single file begins anywhere after 352", |asked| {
        judging(asked, "9", |record| if record.pair != 0 { record.data_offset > REGION_LIMIT } else { record.data_offset < REGION })
    }),
    ("an index after dim[0] is not judged", |asked| {
        measuring(asked, |axis| if axis as i64 <= asked.record.dim[0] as i64 { asked.axis(axis) } else { u64::MAX })
    }),
    ("the axes after dim[0] have their dims", |asked| measuring(asked, |axis| asked.record.dim[axis].max(0) as u64)),
    ("a dim below 0 is a long axis", |asked| {
        measuring(asked, |axis| match asked.axis(axis) {
            0 => asked.record.dim[axis] as u16 as u64,
            length => length,
        })
    }),
    ("an index is a number of 32 bits", |asked| with(asked, |asked| asked.index = asked.index.map(|index| index & 0xffff_ffff))),
    ("dim[0] is a byte", |asked| with(asked, |asked| asked.record.dim[0] &= 255)),
];

/// The wrong programs by their names, and how many of these cases notice each.
pub fn noticed(cases: impl Iterator<Item = Case>) -> Noticed {
    let (mut readers, mut locators) = (noticed::none(&READERS), noticed::none(&LOCATORS));
    for case in cases {
        match case.call {
            Call::VoxelIn(asked) => {
                let right = asked.voxel();
                noticed::count(&mut locators, &LOCATORS, |wrong| wrong(&asked) != right);
            }
            Call::Read => {
                let right = right(&case.main);
                noticed::count(&mut readers, &READERS, |wrong| wrong(&case.main) != right);
            }
            _ => {}
        }
    }
    [readers, locators].concat()
}
