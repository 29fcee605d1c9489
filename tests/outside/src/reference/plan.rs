//! Document 01's plan: its borders, and a plan file opened for an opened network with refusals 11 to 19.

use super::blocks::{
    entries, first_block_holds, judge_later_blocks, judge_length_and_checks, read16, read32, read64, BLOCK, CHECK,
    COUNTS, FLAGS, PLAN_HEADER, PROFILE_POINTS,
};
use super::line::{travel_at, Point};
use super::network::Network;
use super::{refuse, Refusal};
use std::ops::Range;

pub const MOST_BLOCKS: usize = 13_718;
/// The bytes of the first block that no field uses, the 16 zero bits among them.
const FILL: &[Range<usize>] = &[22..24, 28..CHECK];
pub const MOST_POINTS: u32 = 1_048_576;

/// A well-formed plan. Profile number: border index × N + node.
#[derive(Clone)]
pub struct Plan {
    pub borders: Vec<usize>,
    pub flags: Vec<u64>,
    pub profiles: Vec<Vec<Point>>,
}

impl Plan {
    pub fn has_flag(&self, arc: usize, cell: usize) -> bool {
        self.flags[arc] >> cell & 1 == 1
    }
}

/// What a profile says at a tick; no points mean never.
pub fn profile_at(profile: &[Point], tick: u64, period: u32) -> Option<u64> {
    (!profile.is_empty()).then(|| travel_at(profile, tick, period))
}

/// "A border is a place with a road into it from another cell; borders are listed by rising place number."
pub fn borders(network: &Network) -> Vec<usize> {
    let mut is_border = vec![false; network.nodes()];
    for arc in &network.arcs {
        if network.cell_of[arc.from] != network.cell_of[arc.to] {
            is_border[arc.to] = true;
        }
    }
    (0..network.nodes()).filter(|&node| is_border[node]).collect()
}

pub fn open(network: &Network, file: &[u8]) -> Result<Plan, Refusal> {
    judge_length_and_checks(file, MOST_BLOCKS, 11)?;
    if !first_block_holds(&file[..BLOCK], PLAN_HEADER, FILL) {
        return refuse(13, 0);
    }
    let borders = borders(network);
    let points = read32(file, 24);
    if !header_is_the_networks(file, network, borders.len()) || points > MOST_POINTS {
        return refuse(14, 0);
    }
    let profile_count = borders.len() * network.nodes();
    let parts = [(FLAGS, network.arcs.len()), (COUNTS, profile_count), (PROFILE_POINTS, points as usize)];
    judge_later_blocks(file, &parts, 15)?;
    let flags = read_flags(file);
    judge_flags(network, &flags)?;
    let counts: Vec<u16> = entries(file, COUNTS).map(|entry| read16(entry, 0)).collect();
    judge_counts(network, &counts, points)?;
    let all_points = read_points(file);
    let profiles = cut_into_profiles(&counts, &all_points);
    judge_ticks(network, &profiles)?;
    Ok(Plan { borders, flags, profiles })
}

fn header_is_the_networks(file: &[u8], network: &Network, borders: usize) -> bool {
    let header = &network.header;
    read32(file, 8) == header.number
        && u32::from(read16(file, 12)) == header.period
        && u32::from(read16(file, 14)) == header.nodes
        && u32::from(read16(file, 16)) == header.arcs
        && u32::from(read16(file, 18)) == header.cells
        && usize::from(read16(file, 20)) == borders
}

fn read_flags(file: &[u8]) -> Vec<u64> {
    entries(file, FLAGS).map(|entry| read64(entry, 0)).collect()
}

fn read_points(file: &[u8]) -> Vec<Point> {
    entries(file, PROFILE_POINTS)
        .map(|entry| Point { tick: u32::from(read16(entry, 0)), travel: read32(entry, 2) })
        .collect()
}

fn cut_into_profiles(counts: &[u16], points: &[Point]) -> Vec<Vec<Point>> {
    let mut left = points;
    let mut profiles = Vec::new();
    for &count in counts {
        let (profile, rest) = left.split_at(usize::from(count));
        profiles.push(profile.to_vec());
        left = rest;
    }
    profiles
}

fn judge_flags(network: &Network, flags: &[u64]) -> Result<(), Refusal> {
    for (arc, &word) in flags.iter().enumerate() {
        if (network.header.cells..64).any(|cell| word >> cell & 1 == 1) {
            return refuse(17, arc);
        }
    }
    Ok(())
}

fn judge_counts(network: &Network, counts: &[u16], points: u32) -> Result<(), Refusal> {
    let mut sum = 0u64;
    for (profile, &count) in counts.iter().enumerate() {
        if u32::from(count) > network.header.period {
            return refuse(18, profile);
        }
        sum += u64::from(count);
    }
    if sum != u64::from(points) {
        return refuse(18, counts.len());
    }
    Ok(())
}

fn judge_ticks(network: &Network, profiles: &[Vec<Point>]) -> Result<(), Refusal> {
    let mut number = 0;
    for profile in profiles {
        for (place, point) in profile.iter().enumerate() {
            let tick_holds = if place == 0 { point.tick == 0 } else { point.tick > profile[place - 1].tick };
            if !tick_holds || point.tick >= network.header.period {
                return refuse(19, number);
            }
            number += 1;
        }
    }
    Ok(())
}
