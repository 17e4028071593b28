//! How many nodes and entries finish needs, counted from the rows of an open index.
use crate::{room, Index, Kind, Room, State};
use alloc::vec::Vec;

impl Index {
    /// Room enough for finish as the index stands now: just so many entries, and at most so many
    /// nodes. The rest is the room that it has. Of an index that is not open it is that room.
    ///
    /// ```
    /// use servercape::{Index, Kind, Room};
    ///
    /// let room = Room { nodes: 0, entries: 0, ..Room::even(9) };
    /// let mut index = Index::open(room, 8, &[Kind::Memory])?;
    /// index.record(Kind::Memory, 1, 100, &[7, 7, 7])?;
    /// index.grow(index.room_for_finish())?;
    /// index.finish()?;
    /// # Ok::<(), servercape::Refusal>(())
    /// ```
    pub fn room_for_finish(&self) -> Room {
        if self.state() != State::Open {
            return self.room();
        }
        let Room { blocks, pieces, .. } = self.used();
        let Some(mut ticks) = Ticks::of(self.last_tick(), blocks + pieces) else {
            return self.room().for_finish(self.end_tick(), blocks + pieces);
        };
        let mut room = Room {
            nodes: 0,
            entries: 0,
            ..self.room()
        };
        for kind in self.kinds() {
            let (nodes, entries) = self.need(kind, &mut ticks);
            room.nodes += nodes;
            room.entries += entries;
        }
        room
    }

    /// The nodes and entries of one kind. A node has halves where a block or piece begins or ends
    /// strictly inside it, or where a block of no life is in it; and then at least one of them.
    fn need(&self, kind: Kind, ticks: &mut Ticks) -> (u64, u64) {
        let end = self.end_tick();
        let (mut trees, mut entries, mut from_0) = (0, 0, false);
        for (_, created, destroyed) in self
            .lives()
            .filter(|&(owner, ..)| owner == u64::from(kind.code()))
        {
            trees = 1;
            entries += entries_of(end, created, destroyed);
            from_0 |= destroyed == 0;
            [created, destroyed]
                .into_iter()
                .filter(|&tick| 0 < tick && tick < end)
                .for_each(|tick| ticks.note(tick));
        }
        let mut way = Way::default();
        let mut inner = if from_0 { way.leaf_0(end) } else { 0 };
        ticks.drain(|tick| inner += way.go(end, tick));
        (trees + 2 * inner, entries)
    }
}

/// How many entries a block of such a life has: it is one of the nodes that its life covers, but
/// whose parents it does not.
fn entries_of(end: u64, created: u64, destroyed: u64) -> u64 {
    let (mut min, mut max) = (0, end);
    loop {
        if created <= min && max <= destroyed {
            return 1;
        }
        if created == destroyed || max - min < 2 {
            return 0;
        }
        let mid = min + (max - min) / 2;
        if destroyed <= mid {
            max = mid;
        } else if mid <= created {
            min = mid;
        } else {
            return entries_below::<true>(min, mid, created)
                + entries_below::<false>(mid, max, destroyed);
        }
    }
}

/// How many of them are at or below the node of [min, max), of a life that begins or ends inside it
/// and lasts TO its END, or else from its beginning.
fn entries_below<const TO_END: bool>(mut min: u64, mut max: u64, tick: u64) -> u64 {
    let mut count = 1;
    while min < tick && tick < max {
        let mid = min + (max - min) / 2;
        let left = if TO_END { tick < mid } else { tick <= mid };
        // where the way goes to one half, the other one is covered or not met
        count += u64::from(left == TO_END);
        if left {
            max = mid;
        } else {
            min = mid;
        }
    }
    count
}

/// Ticks above 0 that are noted in any order and told ascending, each once: a bit for each, or a
/// list where that is shorter.
enum Ticks {
    Bits(Vec<u64>),
    List(Vec<u64>),
}

impl Ticks {
    /// For two ticks of each life, none above the last one; none where there is no memory for them.
    fn of(last: u64, lives: u64) -> Option<Ticks> {
        let (words, most) = (
            usize::try_from(last / 64).ok()?.checked_add(1)?,
            usize::try_from(lives).ok()?.checked_mul(2)?,
        );
        if words <= most.max(64) {
            return room::zeros(words).map(Ticks::Bits);
        }
        let mut list = Vec::new();
        room::reserve(&mut list, most)?;
        Some(Ticks::List(list))
    }

    fn note(&mut self, tick: u64) {
        match self {
            Ticks::Bits(words) => words[(tick / 64) as usize] |= 1 << (tick % 64),
            Ticks::List(list) => list.push(tick),
        }
    }

    /// Tells them, and has none then.
    fn drain(&mut self, mut tell: impl FnMut(u64)) {
        match self {
            Ticks::Bits(words) => {
                for (word, bits) in (0..).zip(words) {
                    while *bits != 0 {
                        tell(64 * word + u64::from(bits.trailing_zeros()));
                        *bits &= *bits - 1;
                    }
                }
            }
            Ticks::List(list) => {
                list.sort_unstable();
                list.dedup();
                list.drain(..).for_each(tell);
            }
        }
    }
}

/// The way down to a tick: the nodes that have it strictly inside, of which each is half of the one
/// before.
struct Way {
    nodes: [(u64, u64); 64],
    depth: usize,
}

impl Default for Way {
    fn default() -> Way {
        Way {
            nodes: [(0, 0); 64],
            depth: 0,
        }
    }
}

impl Way {
    /// How many nodes are on the way to a tick that were not on the one before, to a lower tick.
    fn go(&mut self, end: u64, tick: u64) -> u64 {
        while self.depth > 0 && self.nodes[self.depth - 1].1 <= tick {
            self.depth -= 1;
        }
        let common = self.depth;
        let mut half = match self.nodes[..self.depth].last() {
            None => Some((0, end)),
            Some(&node) => half_around(node, tick),
        };
        while let Some(node) = half {
            self.nodes[self.depth] = node;
            self.depth += 1;
            half = half_around(node, tick);
        }
        (self.depth - common) as u64
    }

    /// How many nodes are on the way to the leaf of tick 0.
    fn leaf_0(&mut self, end: u64) -> u64 {
        let mut max = end;
        while max > 1 {
            self.nodes[self.depth] = (0, max);
            self.depth += 1;
            max /= 2;
        }
        self.depth as u64
    }
}

/// The half of a node that has a tick strictly inside, if one has.
fn half_around((min, max): (u64, u64), tick: u64) -> Option<(u64, u64)> {
    let mid = min + (max - min) / 2;
    (tick != mid).then_some(if tick < mid { (min, mid) } else { (mid, max) })
}

#[cfg(test)]
mod tests {
    use super::*;
    use std::collections::BTreeSet;

    /// How many entries a life has at or below the node of [min, max), node by node, and which
    /// nodes it makes.
    fn add(min: u64, max: u64, life: (u64, u64), nodes: &mut BTreeSet<(u64, u64)>) -> u64 {
        nodes.insert((min, max));
        let (created, destroyed) = life;
        if created <= min && max <= destroyed {
            return 1;
        }
        if max - min < 2 {
            return 0;
        }
        let mid = min + (max - min) / 2;
        let left = if created < mid {
            add(min, mid, life, nodes)
        } else {
            0
        };
        let right = if destroyed > mid {
            add(mid, max, life, nodes)
        } else {
            0
        };
        left + right
    }

    #[test]
    fn every_life_of_small_trees() {
        for end in 1..70 {
            for created in 0..end {
                for destroyed in created..=end {
                    assert_eq!(
                        entries_of(end, created, destroyed),
                        add(0, end, (created, destroyed), &mut BTreeSet::new()),
                        "{created} to {destroyed} of {end}"
                    );
                }
            }
        }
    }

    /// Boards of few and of many ticks: entries as they are, nodes enough, and at most twice as
    /// many.
    #[test]
    fn random_boards() {
        let mut seed = 1u64;
        let mut below = |limit: u64| {
            seed = seed
                .wrapping_mul(6364136223846793005)
                .wrapping_add(1442695040888963407);
            (seed >> 11) % limit
        };
        for board in 0..600 {
            let end =
                [1, 2, 3, 5, 7, 8, 33, 1000, 1 << 20, (1 << 63) - 25, 1 << 63][below(11) as usize];
            let step = if board % 2 == 0 { end } else { end.min(3) };
            let kinds = [Kind::Memory, Kind::Other, Kind::Constant];
            let mut index = Index::open(Room::even(4096), end, &kinds).unwrap();
            let mut tick = 0;
            for _ in 0..below(60) {
                tick = (tick + below(step) / (1 + below(30))).min(end - 1);
                index
                    .record(
                        kinds[below(2) as usize],
                        tick,
                        below(30),
                        &vec![below(4) as u8; 1 + below(6) as usize],
                    )
                    .unwrap();
            }
            let (mut nodes, mut entries) = (0, 0);
            for kind in kinds {
                let mut of_kind = BTreeSet::new();
                let lives = index
                    .lives()
                    .filter(|&(owner, ..)| owner == u64::from(kind.code()));
                entries += lives
                    .map(|(_, created, destroyed)| add(0, end, (created, destroyed), &mut of_kind))
                    .sum::<u64>();
                nodes += of_kind.len() as u64;
            }
            let room = index.room_for_finish();
            assert_eq!(room.entries, entries, "board {board}");
            assert!(
                nodes <= room.nodes && room.nodes <= 2 * nodes,
                "board {board}: {} for {nodes} nodes",
                room.nodes
            );
            let mut exact = Index::open(
                Room {
                    nodes: room.nodes,
                    entries: room.entries,
                    ..Room::even(0)
                },
                end,
                &kinds,
            )
            .unwrap();
            exact.pieces.clone_from(&index.pieces);
            exact.blocks.clone_from(&index.blocks);
            exact.store.clone_from(&index.store);
            assert_eq!(exact.finish(), Ok(()), "board {board}");
            assert_eq!(
                exact.used(),
                Room {
                    nodes,
                    entries,
                    ..exact.used()
                },
                "board {board}"
            );
        }
    }
}
