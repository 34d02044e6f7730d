//! Wrong programs by their names, and how many cases of the comparison noticed each.

pub type Noticed = Vec<(&'static str, u64)>;

/// A wrong program that so many cases noticed is not run on more.
const ENOUGH: u64 = 10;

pub fn none<Wrong>(wrong: &[(&'static str, Wrong)]) -> Noticed {
    wrong.iter().map(|wrong| (wrong.0, 0)).collect()
}

/// Counts a case for each wrong program that differs from the right one on it.
pub fn count<Wrong>(noticed: &mut Noticed, wrong: &[(&'static str, Wrong)], differs: impl Fn(&Wrong) -> bool) {
    for ((_, wrong), (_, count)) in wrong.iter().zip(noticed).filter(|(_, (_, count))| *count < ENOUGH) {
        *count += differs(wrong) as u64;
    }
}
