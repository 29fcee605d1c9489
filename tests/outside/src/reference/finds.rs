//! Document 02's wish 4: between which bounds the count of a check's finds has to lie. How many it makes is
//! left free, so nothing is counted here.

use super::network::Network;
use super::plan::Plan;

#[derive(Clone, Copy, Debug, PartialEq, Eq)]
pub struct FindBounds {
    /// "on acceptance no lower than all profiles' points".
    pub least: u64,
    /// What one of the tests 21 to 24 may come to, over all borders: "at most twice the points of all roads,
    /// of all the border's profiles, and for each road once more of its end's profile".
    pub one_test: u64,
}

impl FindBounds {
    /// "For each border and each of 21 to 24".
    pub fn all_tests(&self) -> u64 {
        4 * self.one_test
    }
}

pub fn find_bounds(network: &Network, plan: &Plan) -> FindBounds {
    let profiles = |index: usize| &plan.profiles[index * network.nodes()..][..network.nodes()];
    let borders = 0..plan.borders.len();
    FindBounds {
        least: plan.profiles.iter().map(|profile| profile.len() as u64).sum(),
        one_test: borders.map(|index| one_test_of_a_border(network, profiles(index))).sum(),
    }
}

/// `profiles` are the border's, by node.
fn one_test_of_a_border<T>(network: &Network, profiles: &[Vec<T>]) -> u64 {
    let roads: usize = network.arcs.iter().map(|arc| arc.points.len()).sum();
    let of_profiles: usize = profiles.iter().map(Vec::len).sum();
    let of_ends: usize = network.arcs.iter().map(|arc| profiles[arc.to].len()).sum();
    (2 * roads + 2 * of_profiles + of_ends) as u64
}
