//! How many finds document 02 allows the check: none beside 1 to 20; for each border, and here for all of 21 to 24 together, at most twice
//! the points of all roads, twice those of the border's profiles, and for each road those of its end's profile; on acceptance no fewer
//! than the points of all profiles.
use crate::plain::network::{validate, Network};
use crate::plain::plan::{validate_plan, Plan};
use crate::plain::Refusal;
use std::ops::RangeInclusive;

/// The points of all roads, of all profiles of border number i, and for each road of its end's profile.
fn points(network: &Network, plan: &Plan, i: usize) -> [u64; 3] {
    let profile = |u: usize| plan.count(i * network.nodes + u) as u64;
    let roads = network.each_arc().map(|arc| arc.count as u64).sum();
    let ends = network.each_arc().map(|arc| profile(arc.head)).sum();
    [roads, (0..network.nodes).map(profile).sum(), ends]
}

/// The counts of finds that are allowed beside a verdict.
pub fn bound(network: &[u8], plan: &[u8], verdict: Result<(), Refusal>) -> RangeInclusive<u64> {
    if verdict.is_err_and(|refusal| refusal.number <= 20) {
        return 0..=0;
    }
    let network = validate(network).expect("a network that opens");
    let plan = validate_plan(&network, plan).expect("a plan that is well-formed");
    let (mut least, mut most) = (0, 0);
    for i in 0..plan.border_marks.iter().filter(|&&mark| mark).count() {
        let [roads, profiles, ends] = points(&network, &plan, i);
        least += profiles;
        most += 2 * roads + 2 * profiles + ends;
    }
    match verdict {
        Ok(()) => least..=most,
        Err(_) => 0..=most,
    }
}
