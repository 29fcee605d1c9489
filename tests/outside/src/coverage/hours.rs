//! How arrivals lie to the hours of their targets: each way has to be met.

use crate::reference::network::Network;
use crate::reference::trips::{Arrived, TripCall};

const NAMES: [&str; 13] = [
    "before the open tick",
    "at the open tick",
    "between",
    "at the last open tick",
    "at the close tick",
    "after the close tick",
    "at the day's last tick, open",
    "at the day's last tick, shut",
    "shut, opens the same day",
    "shut, opens the next day",
    "a day or more after leaving, shut",
    "at its own place, shut",
    "no hours held",
];

#[derive(Default)]
pub struct Hours {
    met: [u64; NAMES.len()],
}

impl Hours {
    pub fn met(&mut self, network: &Network, call: TripCall, arrived: &Arrived) {
        let place = call.to as usize;
        let (open, close) = (u32::from(network.tables.opens[place]), u32::from(network.tables.closes[place]));
        let period = network.header.period;
        let tick = arrived.tick % period;
        let is_open = open <= tick && tick < close;
        let held = network.header.hours == 1;
        let ways = [
            tick < open,
            tick == open && open > 0,
            open < tick && tick + 1 < close,
            tick + 1 == close && close < period,
            tick == close,
            tick > close,
            tick + 1 == period && is_open,
            tick + 1 == period && !is_open,
            !is_open && arrived.open / period == arrived.tick / period,
            !is_open && arrived.open / period > arrived.tick / period,
            !is_open && arrived.tick >= call.departure + period,
            !is_open && call.from == call.to,
            !held,
        ];
        for (count, met) in self.met.iter_mut().zip(ways) {
            *count += u64::from(met);
        }
    }

    pub fn add(&mut self, other: &Hours) {
        for (count, more) in self.met.iter_mut().zip(other.met) {
            *count += more;
        }
    }

    pub fn print(&self) {
        println!("arrivals in towns with hours");
        for (count, name) in self.met.iter().zip(NAMES) {
            println!("{count:>8}  {name}");
        }
    }

    pub fn missing(&self) -> Vec<String> {
        let missing = self.met.iter().zip(NAMES).filter(|(count, _)| **count == 0);
        missing.map(|(_, name)| format!("no trip arrives {name}")).collect()
    }
}
