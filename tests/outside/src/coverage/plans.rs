//! Which verdicts the damaged plans got, by the kind of damage and by what their towns are like.

use crate::plans::features::NAMES;
use crate::plans::{kinds, Kind};

/// 0 for accepted.
const VERDICTS: [u32; 6] = [0, 20, 21, 22, 23, 24];

type Verdicts = [u64; VERDICTS.len()];

#[derive(Default)]
pub struct DamagedPlans {
    by_kind: Vec<Verdicts>,
    by_feature: [Verdicts; NAMES.len()],
}

fn place(verdict: u32) -> usize {
    VERDICTS.iter().position(|&known| known == verdict).expect("a well-formed plan gets 0 or 20 to 24")
}

impl DamagedPlans {
    /// A plan damaged in this way, or the true one.
    pub fn met(&mut self, kind: Option<usize>, features: [bool; NAMES.len()], verdict: u32) {
        if let Some(kind) = kind {
            self.by_kind.resize(self.by_kind.len().max(kind + 1), Verdicts::default());
            self.by_kind[kind][place(verdict)] += 1;
        }
        for (counts, _) in self.by_feature.iter_mut().zip(features).filter(|(_, has)| *has) {
            counts[place(verdict)] += 1;
        }
    }

    pub fn add(&mut self, other: &DamagedPlans) {
        let kinds = self.by_kind.len().max(other.by_kind.len());
        self.by_kind.resize(kinds, Verdicts::default());
        let rows = self.by_kind.iter_mut().chain(&mut self.by_feature);
        for (row, more) in rows.zip(other.rows(kinds)) {
            row.iter_mut().zip(more).for_each(|(count, more)| *count += more);
        }
    }

    /// The rows of so many kinds, then those of the features.
    fn rows(&self, kinds: usize) -> Vec<Verdicts> {
        let mut rows = self.by_kind.clone();
        rows.resize(kinds, Verdicts::default());
        rows.extend(self.by_feature);
        rows
    }

    pub fn print(&self) {
        println!("damaged plans by verdict: accepted, 20 to 24");
        let kinds = kinds();
        let names = kinds.iter().map(|kind| kind.name.as_str()).chain(NAMES);
        for (name, counts) in names.zip(self.rows(kinds.len())) {
            let counts = counts.map(|count| if count == 0 { "-".to_string() } else { count.to_string() });
            let counts = counts.map(|count| format!("{count:>8}")).concat();
            println!("{counts}  {name}");
        }
    }

    /// The verdicts that damage or towns should have led to and did not.
    pub fn missing(&self) -> Vec<String> {
        let kinds = kinds();
        let rows = self.rows(kinds.len());
        let named = |kind: &Kind| kind.gives.iter().map(|&verdict| (kind.name.clone(), verdict)).collect::<Vec<_>>();
        let of_features = NAMES.iter().map(|name| (21..=24).map(|verdict| (name.to_string(), verdict)).collect());
        let wanted = kinds.iter().map(named).chain(of_features);
        let missing = wanted
            .zip(&rows)
            .flat_map(|(wanted, counts)| wanted.into_iter().filter(|(_, verdict)| counts[place(*verdict)] == 0));
        missing.map(|(name, verdict)| format!("damaged plans: {name}: {verdict} never occurred")).collect()
    }
}
