//! The Rust that the calls are ported from, called as its callers would.
use crate::stream::{Op, Stream, LONGEST};
use oracle::index::spacetime_index::{SpacetimeIndex, SpacetimeRTree};
use oracle::index::{Indexer, Operation, Serializable, SpacetimeBlock};
use oracle::{kind_of, Collect, SharedFile};
use std::{cell::RefCell, rc::Rc};

/// An indexer with a tree of its own, and the file that it saves to.
pub fn indexer(stream: &Stream) -> (Indexer, Rc<RefCell<Vec<u8>>>) {
    let file = Rc::new(RefCell::new(Vec::new()));
    let mut indexer = Indexer::new(stream.end);
    indexer.add_index(SpacetimeIndex::new(SharedFile(file.clone()), stream.end));
    (indexer, file)
}

/// The operations as the Rust takes them: it owns their bytes.
pub fn operations(ops: &[Op]) -> Vec<Operation> {
    let operation = |op: &Op| Operation { space: kind_of(1), data: op.bytes.clone(), address: op.first, written_time: op.tick };
    ops.iter().map(operation).collect()
}

/// Its blocks in recorded order, by an index that collects.
pub fn blocks(stream: &Stream) -> Vec<SpacetimeBlock> {
    let blocks = Rc::new(RefCell::new(Vec::new()));
    let mut indexer = Indexer::new(stream.end);
    indexer.add_index(Collect(blocks.clone()));
    for op in operations(&stream.fill).into_iter().chain(operations(&stream.ops)) {
        indexer.record_op(op);
    }
    indexer.finalize();
    blocks.take()
}

pub fn load(file: &[u8]) -> SpacetimeRTree {
    SpacetimeRTree::deserialize(file, &mut 0)
}

pub fn write(tree: &SpacetimeRTree) -> Vec<u8> {
    let mut out = Vec::new();
    tree.serialize_to(&mut out);
    out
}

/// It has no list of the blocks that touch a window: a caller looks from the longest stay before the window on, keeps those that reach in, and sorts them.
pub fn touching(tree: &mut SpacetimeRTree, tick: u64, start: u64, end: u64) -> Vec<Rc<SpacetimeBlock>> {
    let mut blocks = tree.find(tick, start.saturating_sub(LONGEST), end);
    blocks.retain(|block| start < end_of(block));
    blocks.sort_unstable_by_key(|block| block.address);
    blocks
}

fn end_of(block: &SpacetimeBlock) -> u64 {
    block.address + block.len as u64
}

/// It has no neighbours either: the first of all that start at or after the cell.
pub fn next(tree: &mut SpacetimeRTree, tick: u64, cell: u64) -> Option<Rc<SpacetimeBlock>> {
    tree.find(tick, cell, u64::MAX).into_iter().min_by_key(|block| block.address)
}

/// The last of all that end at the cell or below.
pub fn last(tree: &mut SpacetimeRTree, tick: u64, cell: u64) -> Option<Rc<SpacetimeBlock>> {
    tree.find(tick, 0, cell).into_iter().filter(|block| end_of(block) <= cell).max_by_key(|block| block.address)
}

/// It has no read of cells: a caller looks for the blocks that may reach into the window, and copies.
pub fn cells(tree: &mut SpacetimeRTree, tick: u64, start: u64, end: u64, bytes: &mut [u8], held: &mut [u8]) {
    bytes.fill(0);
    held.fill(0);
    for block in tree.find(tick, start.saturating_sub(LONGEST), end) {
        let (from, to) = (block.address.max(start), end_of(&block).min(end));
        for cell in from..to {
            bytes[(cell - start) as usize] = block.data[(cell - block.address) as usize];
            held[(cell - start) as usize] = 1;
        }
    }
}
