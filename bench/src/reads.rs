//! The reads of a finished index. What they fill is lent and has been touched before; the Rust allocates what it gives.
use crate::clock::{by_turns, timed, Span, MIXED};
use crate::port::Tables;
use crate::ported;
use crate::stream::Stream;
use crate::times::Times;
use oracle::index::spacetime_index::SpacetimeRTree;
use oracle::index::SpacetimeBlock;
use std::rc::Rc;

/// Minutes of a small window.
pub const HOUR: u64 = 60;

/// Tick, first cell, the cell after the last.
type Query = (u64, u64, u64);

/// A block that stands beside a cell at a tick, of the port and of the Rust.
type PortNeighbour = fn(&Tables, u64, u64) -> Option<u64>;
type RustNeighbour = fn(&mut SpacetimeRTree, u64, u64) -> Option<Rc<SpacetimeBlock>>;

pub struct Reads<'a> {
    stream: &'a Stream,
    tables: &'a Tables,
    blocks: &'a [SpacetimeBlock],
    tree: SpacetimeRTree,
    /// Whether the public calls are timed too.
    public: bool,
}

fn sum(bytes: &[u8]) -> u64 {
    bytes.iter().map(|&b| b as u64).sum()
}

impl<'a> Reads<'a> {
    /// Of the port's tables, and of the Rust's blocks and file.
    pub fn new(stream: &'a Stream, tables: &'a Tables, blocks: &'a [SpacetimeBlock], file: &[u8], public: bool) -> Reads<'a> {
        Reads { stream, tables, blocks, tree: ported::load(file), public }
    }

    fn queries(&self, window: impl Fn(u64) -> (u64, u64)) -> Vec<Query> {
        let Stream { cells, start, end, .. } = self.stream;
        let query = |k: usize| {
            let (from, to) = window(cells[k * 7919 % cells.len()]);
            (end - 1 - (k as u64 * 104_729) % (end - start), from, to)
        };
        (0..MIXED).map(query).collect()
    }

    /// Space for all blocks: those of a tick may be more than the pieces were, as a piece becomes several blocks.
    fn answer(&self) -> Vec<u64> {
        vec![7; self.blocks.len()]
    }

    pub fn find(&mut self, call: &'static str, window: impl Fn(u64) -> (u64, u64)) -> Times {
        let queries = self.queries(window);
        let [mut of_public, mut of_tested] = [self.answer(), self.answer()];
        let Reads { tables, tree, public, .. } = self;
        for &(t, a, b) in &queries {
            assert_eq!(tables.find_tested(t, a, b, &mut of_tested), tree.find(t, a, b).len() as u64, "hits");
        }
        let all = [
            public.then(|| timed(|k| tables.find(queries[k].0, queries[k].1, queries[k].2, &mut of_public))),
            Some(timed(|k| tables.find_tested(queries[k].0, queries[k].1, queries[k].2, &mut of_tested))),
            Some(timed(|k| tree.find(queries[k].0, queries[k].1, queries[k].2).len() as u64)),
        ];
        Times::of(call, by_turns(all))
    }

    /// So many finds of an hour with one test, and what the Rust takes for one.
    pub fn find_all(&self, call: &'static str, count: usize, rust: Option<Span>) -> Times {
        // no hour of a platform has as many blocks
        const MOST: usize = 64;
        let queries = self.queries(|cell| (cell, cell + HOUR)).into_iter().cycle().take(count);
        let queries: Vec<u64> = queries.flat_map(|(tick, start, end)| [tick, start, end]).collect();
        let (mut answers, mut numbers) = (vec![7; 3 * count], vec![7; MOST * count]);
        let [all] = by_turns([self.public.then(|| timed(|_| self.tables.find_all(&queries, &mut answers, &mut numbers)))]);
        assert!(!self.public || answers.iter().step_by(3).all(|&refusal| refusal == 0), "find all");
        Times::of(call, [all.map(|all| all.each(count)), None, rust])
    }

    /// The blocks that touch a window, in their order.
    pub fn touching(&mut self, call: &'static str, window: impl Fn(u64) -> (u64, u64)) -> Times {
        let queries = self.queries(window);
        let [mut of_public, mut of_tested] = [self.answer(), self.answer()];
        let Reads { tables, blocks, tree, public, .. } = self;
        for &(t, a, b) in &queries {
            let count = tables.touching_tested(t, a, b, &mut of_tested) as usize;
            let cells: Vec<u64> = of_tested[..count].iter().map(|&k| blocks[k as usize].address).collect();
            let of_rust: Vec<u64> = ported::touching(tree, t, a, b).iter().map(|block| block.address).collect();
            assert_eq!(cells, of_rust, "touching");
        }
        let all = [
            public.then(|| timed(|k| tables.touching(queries[k].0, queries[k].1, queries[k].2, &mut of_public))),
            Some(timed(|k| tables.touching_tested(queries[k].0, queries[k].1, queries[k].2, &mut of_tested))),
            Some(timed(|k| ported::touching(tree, queries[k].0, queries[k].1, queries[k].2).len() as u64)),
        ];
        Times::of(call, by_turns(all))
    }

    /// The next or the last block of a cell in the middle of a stay.
    pub fn neighbour(&mut self, call: &'static str, [of_public, of_tested]: [PortNeighbour; 2], of_rust: RustNeighbour) -> Times {
        let queries = self.queries(|cell| (cell + 2, cell + 2));
        let Reads { tables, blocks, tree, public, .. } = self;
        let cell_by = |port: PortNeighbour, k: usize| port(tables, queries[k].0, queries[k].1).map_or(0, |number| blocks[number as usize].address);
        let mut rust_cell = |k: usize| of_rust(tree, queries[k].0, queries[k].1).map_or(0, |block| block.address);
        for k in 0..MIXED {
            assert_eq!(cell_by(of_tested, k), rust_cell(k), "{call}");
        }
        let all = [public.then(|| timed(|k| cell_by(of_public, k))), Some(timed(|k| cell_by(of_tested, k))), Some(timed(rust_cell))];
        Times::of(call, by_turns(all))
    }

    pub fn block_bytes(&self) -> Times {
        let Reads { tables, blocks, public, .. } = self;
        let number = |k: usize| k * 7919 % blocks.len();
        let all = [
            public.then(|| timed(|k| sum(tables.block_bytes(number(k) as u64)))),
            Some(timed(|k| sum(tables.block_bytes_tested(number(k) as u64)))),
            Some(timed(|k| sum(&blocks[number(k)].data))),
        ];
        Times::of("block bytes", by_turns(all))
    }

    pub fn cells(&mut self) -> Times {
        let windows = self.queries(|cell| (cell, cell + HOUR));
        let Reads { tables, tree, public, .. } = self;
        let [mut of_public, mut of_tested, mut of_rust] = [([0; HOUR as usize], [0; HOUR as usize]); 3];
        for &(tick, start, end) in &windows {
            tables.cells_tested(tick, start, end, &mut of_tested.0, &mut of_tested.1);
            ported::cells(tree, tick, start, end, &mut of_rust.0, &mut of_rust.1);
            assert!(of_tested == of_rust, "cells");
        }
        let all = [
            public.then(|| timed(|k| {
                tables.cells(windows[k].0, windows[k].1, windows[k].2, &mut of_public.0, &mut of_public.1);
                sum(&of_public.0) + sum(&of_public.1)
            })),
            Some(timed(|k| {
                tables.cells_tested(windows[k].0, windows[k].1, windows[k].2, &mut of_tested.0, &mut of_tested.1);
                sum(&of_tested.0) + sum(&of_tested.1)
            })),
            Some(timed(|k| {
                ported::cells(tree, windows[k].0, windows[k].1, windows[k].2, &mut of_rust.0, &mut of_rust.1);
                sum(&of_rust.0) + sum(&of_rust.1)
            })),
        ];
        Times::of("read cells, an hour", by_turns(all))
    }

    /// Writes into a slice that is as long as the Rust's file.
    pub fn write(&self, out: &mut [u8]) -> Times {
        let Reads { tables, tree, public, .. } = self;
        let mut other = vec![7; if *public { out.len() } else { 0 }];
        let all = [
            public.then(|| timed(|_| tables.write(&mut other))),
            Some(timed(|_| tables.write_tested(out))),
            Some(timed(|_| ported::write(tree).len() as u64)),
        ];
        let times = Times::of("write", by_turns(all)).for_all_blocks();
        assert!(!*public || other == *out, "both calls write the same");
        times
    }
}
