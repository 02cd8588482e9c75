//! Document 01, "One crossing", step 2, read with believed codes (document 02, P1): a controller's members and their merge.

use crate::settings::{Settings, IGNORE_BAD, IGNORE_DISC, PART0};
use crate::steady::{Codes, ATTS0, GTFE};

/// Lowest first, so that the merge is the greatest class of all members.
#[rustfmt::skip]
#[derive(Clone, Copy, PartialEq, Eq, PartialOrd, Ord)]
pub enum Merged { None, Ready, Warning, Busy, OutOfSync, Error, Bad, Disconnected }

/// "Members: assigned partitions, own aTTS code, GTFE code", as inputs.
pub fn members(settings: &Settings, n: usize) -> impl Iterator<Item = usize> + '_ {
    (0..32).filter(move |&p| settings[PART0 + p] == n).chain([ATTS0 + n, GTFE])
}

/// "0 and 15 disconnected, ... 12 error; 11 from partitions 24–31 counts as busy; all else bad."
pub fn class(code: u8, input: usize) -> Merged {
    match code {
        0 | 15 => Merged::Disconnected,
        1 => Merged::Warning,
        2 => Merged::OutOfSync,
        4 => Merged::Busy,
        8 => Merged::Ready,
        12 => Merged::Error,
        11 if (24..=31).contains(&input) => Merged::Busy,
        _ => Merged::Bad,
    }
}

/// "Ignored disconnected or bad members are left out."
pub fn ignored(settings: &Settings, class: Merged) -> bool {
    (class == Merged::Disconnected && settings[IGNORE_DISC] == 1) || (class == Merged::Bad && settings[IGNORE_BAD] == 1)
}

/// "Highest first: disconnected, bad, error, out of sync, busy, warning, ready; no member: none."
pub fn merge(settings: &Settings, codes: &Codes, n: usize) -> Merged {
    let classes = members(settings, n).map(|input| class(codes[input], input));
    classes.filter(|&class| !ignored(settings, class)).max().unwrap_or(Merged::None)
}
