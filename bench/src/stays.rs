//! What stands on the board, and which bookings the port and the Rust do alike.
use std::collections::BTreeMap;

/// A stay: its first cell, the cell after its last, its train.
#[derive(Clone, Copy)]
pub struct Stay {
    pub from: u64,
    pub to: u64,
    pub train: u8,
}

/// Stays that share no cell, by their first cell: as the pieces of an index.
#[derive(Default)]
pub struct Stays(BTreeMap<u64, (u64, u8)>);

impl Stays {
    pub fn count(&self) -> u64 {
        self.0.len() as u64
    }

    pub fn first_cells(&self) -> Vec<u64> {
        self.0.keys().copied().collect()
    }

    /// The first one that starts at the cell or after it.
    pub fn next(&self, cell: u64) -> Option<Stay> {
        self.0.range(cell..).next().map(|(&from, &(to, train))| Stay { from, to, train })
    }

    /// Those that have a cell in common with a stay, ascending.
    pub fn met(&self, stay: Stay) -> Vec<Stay> {
        let below = self.0.range(..stay.to).rev().take_while(|(_, s)| s.0 > stay.from);
        let mut met: Vec<Stay> = below.map(|(&from, &(to, train))| Stay { from, to, train }).collect();
        met.reverse();
        met
    }

    /// Puts a stay over those that it meets.
    pub fn book(&mut self, met: &[Stay], stay: Stay) {
        for &Stay { from, to, train } in met {
            self.0.remove(&from);
            if from < stay.from {
                self.0.insert(from, (stay.from, train));
            }
            if stay.to < to {
                self.0.insert(stay.to, (to, train));
            }
        }
        self.0.insert(stay.from, (stay.to, stay.train));
    }
}

/// Whether all cells of a stay are known with its train.
pub fn known(met: &[Stay], stay: Stay) -> bool {
    let mut at = stay.from;
    for other in met {
        if other.from > at || other.train != stay.train {
            return false;
        }
        at = other.to;
    }
    at >= stay.to
}

/// D1 and D2, where the Rust does something else: such bookings are left out, so that both do the same work.
pub fn differs(met: &[Stay], stay: Stay) -> bool {
    let Some(last) = met.last() else { return false };
    let runs_on = last.to < stay.to && known(met, Stay { to: last.to, ..stay });
    let inside = met.iter().any(|s| s.from <= stay.from && stay.to < s.to);
    runs_on || (inside && !known(met, stay))
}
