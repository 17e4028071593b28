//! The segment tree of docs/RULES.md: which node a block stands in.
use crate::board::Block;

/// A node [min, max) with the numbers of its blocks, ascending by first cell, and its halves.
#[derive(Clone, PartialEq, Eq, Debug)]
pub struct Node {
    pub min: u64,
    pub max: u64,
    pub mid: u64,
    pub entries: Vec<u64>,
    pub left: Tree,
    pub right: Tree,
}

#[derive(Clone, PartialEq, Eq, Debug)]
pub struct Tree(pub Option<Box<Node>>);

impl Tree {
    pub fn none() -> Tree {
        Tree(None)
    }

    /// The tree of a kind: without blocks of that kind it has no node.
    pub fn of(end: u64, kind: u64, blocks: &[Block]) -> Tree {
        let mut tree = Tree::none();
        for (number, block) in (0..).zip(blocks).filter(|(_, block)| block.kind == kind) {
            tree.add(0, end, number, block, blocks);
        }
        tree
    }

    fn add(&mut self, min: u64, max: u64, number: u64, block: &Block, blocks: &[Block]) {
        let mid = (min + max) / 2;
        let fresh = || Box::new(Node { min, max, mid, entries: vec![], left: Tree::none(), right: Tree::none() });
        let node = self.0.get_or_insert_with(fresh);
        if block.created <= min && max <= block.destroyed {
            let key = |&k: &u64| blocks[k as usize].first;
            let at = node.entries.partition_point(|k| key(k) <= block.first);
            node.entries.insert(at, number);
            return;
        }
        if block.created < mid {
            node.left.add(min, mid, number, block, blocks);
        }
        if block.destroyed > mid {
            node.right.add(mid, max, number, block, blocks);
        }
    }

    pub fn nodes(&self) -> u64 {
        self.0.as_ref().map_or(0, |n| 1 + n.left.nodes() + n.right.nodes())
    }

    pub fn entries(&self) -> u64 {
        self.0.as_ref().map_or(0, |n| n.entries.len() as u64 + n.left.entries() + n.right.entries())
    }

    /// How many nodes a find at a tick visits.
    pub fn visited(&self, tick: u64) -> u64 {
        self.0.as_ref().map_or(0, |n| 1 + if tick < n.mid { n.left.visited(tick) } else { n.right.visited(tick) })
    }

    /// Every node, root first, left before right.
    pub fn each(&self, see: &mut impl FnMut(Option<&Node>)) {
        see(self.0.as_deref());
        if let Some(node) = &self.0 {
            node.left.each(see);
            node.right.each(see);
        }
    }

    /// The same tree under other block numbers.
    pub fn renumbered(&self, new: &impl Fn(u64) -> u64) -> Tree {
        Tree(self.0.as_ref().map(|n| {
            Box::new(Node {
                min: n.min,
                max: n.max,
                mid: n.mid,
                entries: n.entries.iter().map(|&k| new(k)).collect(),
                left: n.left.renumbered(new),
                right: n.right.renumbered(new),
            })
        }))
    }
}
