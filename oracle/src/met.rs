//! What may happen in a comparison, and how often it did. A comparison that does not meet all of it has failed.

use std::fmt;

/// A case, with the list of all that can be met.
pub trait Listed: Copy + PartialEq + fmt::Debug + 'static {
    const ALL: &'static [Self];
}

/// How often each was met.
pub struct Met<C: Listed> {
    counts: Vec<u64>,
    all: &'static [C],
}

impl<C: Listed> Met<C> {
    pub fn new() -> Self {
        Met {
            counts: vec![0; C::ALL.len()],
            all: C::ALL,
        }
    }

    pub fn note(&mut self, case: C) {
        let place = self.all.iter().position(|&other| other == case);
        self.counts[place.unwrap_or_else(|| panic!("{case:?} is not listed"))] += 1;
    }

    pub fn listed(&self, case: C) -> bool {
        self.all.contains(&case)
    }

    /// Notes it where it is listed.
    pub fn note_listed(&mut self, case: C) {
        if self.listed(case) {
            self.note(case);
        }
    }

    /// How often this one was met.
    pub fn count(&self, case: C) -> u64 {
        let place = self.all.iter().position(|&other| other == case);
        self.counts[place.unwrap_or_else(|| panic!("{case:?} is not listed"))]
    }

    #[cfg(fuzz)]
    pub fn counts(&self) -> &[u64] {
        &self.counts
    }

    pub fn join(&mut self, other: &Met<C>) {
        for (count, more) in self.counts.iter_mut().zip(&other.counts) {
            *count += more;
        }
    }

    /// Prints the counts, then those that were not met, and gives the number of these.
    pub fn report(&self) -> u64 {
        println!("    met: {self}");
        let counts = self.all.iter().zip(&self.counts);
        let missing: Vec<_> = counts.filter(|(_, &count)| count == 0).collect();
        for (case, _) in &missing {
            println!("    not met: {case:?}");
        }
        missing.len() as u64
    }
}

impl<C: Listed> fmt::Display for Met<C> {
    fn fmt(&self, f: &mut fmt::Formatter) -> fmt::Result {
        for (place, (case, count)) in self.all.iter().zip(&self.counts).enumerate() {
            let before = if place == 0 { "" } else { ", " };
            write!(f, "{before}{case:?} {count}")?;
        }
        Ok(())
    }
}
