//! Several faults in one plan: the lowest number wins, and then the first border, place and tick.

use super::meant::meant;
use super::true_town::TrueTown;
use super::{Damage, Kind};
use crate::reference::Refusal;
use crate::rng::Rng;
use std::rc::Rc;

/// A fault and what has to come of it alone.
type Single = (Damage, Refusal);

/// Whether a kind takes these two.
type Takes = fn(&TrueTown, &Single, &Single) -> bool;

/// How many faults a pair is looked for in.
const POOL: usize = 10;

/// `singles` are the kinds of which several are made.
pub fn kinds(singles: Rc<Vec<Kind>>) -> Vec<Kind> {
    let all: [(&str, &'static [u32], Takes); 5] = [
        ("faults at two borders", &[21, 22, 23, 24], apart),
        ("faults at two places of one border", &[21, 22, 23], |town, one, other| !apart(town, one, other)),
        ("a lower number at a later place", &[21, 22, 23], lower_but_later),
        ("a number twice", &[21, 22, 23, 24], number_twice),
        ("a profile and flags", &[21, 22, 23], |_, one, other| one.1.number < 24 && other.1.number == 24),
    ];
    let pair = |(name, gives, takes): (&str, _, Takes)| {
        let singles = singles.clone();
        let make = move |rng: &mut Rng, town: &TrueTown| some_pair(rng, town, &singles, takes);
        Kind { name: name.to_string(), gives, one_tick: false, make: Box::new(make) }
    };
    let mut kinds: Vec<Kind> = all.into_iter().map(pair).collect();
    let of = singles.clone();
    kinds.push(Kind {
        name: "as many as go together".to_string(),
        gives: &[21, 22],
        one_tick: false,
        make: Box::new(move |rng, town| many(rng, town, &of)),
    });
    kinds.push(Kind {
        name: "a flag inside a cell and another fault".to_string(),
        gives: &[20],
        one_tick: false,
        make: Box::new(move |rng, town| inner_flag_too(rng, town, &singles)),
    });
    kinds
}

fn pool(rng: &mut Rng, town: &TrueTown, singles: &[Kind], count: usize) -> Vec<Single> {
    let single = |_| {
        let kind = &singles[rng.below(singles.len())];
        let damage = (kind.make)(rng, town)?;
        let refusal = meant(town, &damage)??;
        Some((damage, refusal))
    };
    (0..count).filter_map(single).collect()
}

fn some_pair(rng: &mut Rng, town: &TrueTown, singles: &[Kind], takes: Takes) -> Option<Damage> {
    let pool = pool(rng, town, singles, POOL);
    let pairs = pool.iter().flat_map(|one| pool.iter().map(move |other| (one, other)));
    pairs.filter(|(one, other)| takes(town, one, other)).find_map(|(one, other)| one.0.with(&other.0))
}

/// They change profiles to different borders, if any.
fn apart(town: &TrueTown, one: &Single, other: &Single) -> bool {
    let border = |single: &Single| single.0.profiles.first().map(|(profile, _)| town.place(*profile).0);
    border(one).is_none_or(|index| border(other) != Some(index))
}

fn lower_but_later(town: &TrueTown, one: &Single, other: &Single) -> bool {
    apart(town, one, other) && one.1.number < other.1.number && one.1.places > other.1.places
}

fn number_twice(town: &TrueTown, one: &Single, other: &Single) -> bool {
    apart(town, one, other) && one.1.number == other.1.number && one.1.places != other.1.places
}

fn many(rng: &mut Rng, town: &TrueTown, singles: &[Kind]) -> Option<Damage> {
    let count = rng.within(2, POOL);
    let together = |all: Damage, (one, _): Single| all.with(&one).unwrap_or(all);
    let all = pool(rng, town, singles, count).into_iter().fold(Damage::default(), together);
    (!all.profiles.is_empty()).then_some(all)
}

fn inner_flag_too(rng: &mut Rng, town: &TrueTown, singles: &[Kind]) -> Option<Damage> {
    let cell = |arc: usize| town.network.cell_of[town.network.arcs[arc].to];
    let inner: Vec<usize> = (0..town.network.arcs.len()).filter(|&arc| town.is_inner(arc, cell(arc))).collect();
    (!inner.is_empty()).then_some(())?;
    let arc = rng.pick(&inner);
    let mut flags = town.flags.clone();
    flags[arc] &= !(1 << cell(arc));
    let (other, _) = pool(rng, town, singles, POOL).pop()?;
    other.with(&Damage { flags: Some(flags), ..Damage::default() })
}
