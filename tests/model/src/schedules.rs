//! Schedules from a seed (document 02, P2): eight good ones, different ones mostly.

use crate::edition::Edition;
use crate::generate::Random;
use crate::settings::*;

/// Eight schedules, those that are not the first drawn from any of the given sets of rising crossings. In edition 1, and now and
/// then in the later ones, they are all the same; else some controllers have their own, or all have, or all have the same eleven
/// crossings in another order, so that the calibration of one falls on the at_te or at_wte of another.
pub fn schedules(random: &mut Random, edition: Edition, sets: &[Vec<usize>]) -> [Schedule; 8] {
    let first = schedule(random, sets[0].clone());
    let mut same = first;
    same.sort();
    let manner = if edition == Edition::First { 0 } else { random.below(7) };
    std::array::from_fn(|n| match manner {
        _ if n == 0 || manner == 0 => first,
        1 if random.once_in(2) => first,
        1..=3 => {
            let set = random.below(sets.len());
            schedule(random, sets[set].clone())
        }
        _ => schedule(random, same.to_vec()),
    })
}

/// Eleven distinct crossings out of the rising ones given. Those of the calibration cycle rise, and often follow each other at
/// once, since only then rule 1 may refuse its trigger.
fn schedule(random: &mut Random, mut crossings: Vec<usize>) -> Schedule {
    let bound = crossings.len() - 2;
    let mut places = [random.below(bound), random.below(bound), random.below(bound)];
    places.sort();
    if random.once_in(2) {
        places = [places[0]; 3];
    }
    let mut at = [0; ELEVEN];
    for (line, place) in [AT_WTE, AT_TE, AT_CAL].into_iter().zip(places) {
        at[line] = crossings.remove(place);
    }
    for line in (AT_BC0..=AT_GAP).filter(|&line| line != AT_TE) {
        at[line] = crossings.swap_remove(random.below(crossings.len()));
    }
    at
}

/// at_resync at crossing 0 and no wait after it: in the second crossing of the log state 2 looks at the merge, when codes of the
/// fresh board are still believed. The number that was 0 takes the old place; at_wte cannot, since at_te follows it.
pub fn resync_first(settings: &mut Settings) {
    for at in &mut settings.at {
        let resync = at[AT_RESYNC];
        match at.iter().position(|&crossing| crossing == 0) {
            Some(AT_WTE) => continue,
            Some(place) => (at[place], at[AT_RESYNC]) = (resync, 0),
            None => at[AT_RESYNC] = 0,
        }
    }
    settings[RECOVER_RESYNC] = 0;
}

/// The standard settings, in the later editions mostly with other schedules for controllers 1 to 7: the standard one later by so
/// many crossings, or its eleven crossings in another order; and now and then with the slot at another controller.
pub fn standard(random: &mut Random, edition: Edition) -> Settings {
    let mut settings = Settings::standard();
    if edition == Edition::First || random.once_in(5) {
        return settings;
    }
    let mut same = settings.at[0];
    same.sort();
    for at in &mut settings.at[1..] {
        let later = random.below(70);
        *at = match random.below(3) {
            0 => schedule(random, same.to_vec()),
            _ => at.map(|crossing| crossing + later),
        };
    }
    if random.once_in(3) {
        settings.shared.swap(SLOT0, SLOT0 + 1 + random.below(7));
    }
    settings
}
