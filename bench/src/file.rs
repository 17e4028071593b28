//! Files as they are laid out: kind, number of blocks, blocks, then the nodes, root first, left before right.
use crate::random::Random;

/// Bytes of a block before its own: kind, first cell, length, created, destroyed. Of a node before its block numbers: presence, min, max, mid, count.
const BLOCK_HEAD: usize = 33;
const NODE_HEAD: usize = 33;

fn number(bytes: &[u8], at: usize) -> usize {
    u64::from_le_bytes(bytes[at..at + 8].try_into().unwrap()) as usize
}

pub struct File<'a> {
    kind: u8,
    blocks: Vec<&'a [u8]>,
    tree: &'a [u8],
}

/// The nodes of a tree, an absent one too: its head, and its block numbers.
struct Nodes<'a>(&'a [u8]);

impl<'a> Iterator for Nodes<'a> {
    type Item = (&'a [u8], &'a [u8]);

    fn next(&mut self) -> Option<Self::Item> {
        let (head, count) = match self.0.first()? {
            0 => (1, 0),
            _ => (NODE_HEAD, number(self.0, NODE_HEAD - 8)),
        };
        let (node, rest) = self.0.split_at(head + 8 * count);
        self.0 = rest;
        Some(node.split_at(head))
    }
}

fn numbers(bytes: &[u8]) -> impl Iterator<Item = usize> + '_ {
    bytes.chunks_exact(8).map(|bytes| number(bytes, 0))
}

impl<'a> File<'a> {
    pub fn read(bytes: &'a [u8]) -> File<'a> {
        let mut rest = &bytes[9..];
        let blocks = (0..number(bytes, 1)).map(|_| {
            let block = rest.split_at(BLOCK_HEAD + number(rest, 9));
            rest = block.1;
            block.0
        });
        let blocks = blocks.collect();
        File { kind: bytes[0], blocks, tree: rest }
    }

    /// How many nodes and entries it has.
    pub fn nodes_and_entries(&self) -> (u64, u64) {
        let present = |(head, numbers): (&[u8], &[u8])| (head.len() > 1).then_some(numbers.len() as u64 / 8);
        Nodes(self.tree).filter_map(present).fold((0, 0), |(nodes, entries), count| (nodes + 1, entries + count))
    }

    /// The same but for the order of the blocks (D4).
    pub fn same(&self, other: &File) -> bool {
        let same_blocks = |a, b| numbers(a).zip(numbers(b)).all(|(m, n)| self.blocks[m] == other.blocks[n]);
        (self.kind, self.blocks.len(), self.tree.len()) == (other.kind, other.blocks.len(), other.tree.len())
            && Nodes(self.tree).zip(Nodes(other.tree)).all(|((a, m), (b, n))| a == b && same_blocks(m, n))
    }

    /// The file of the same tree with its blocks in another order.
    pub fn shuffled(&self) -> Vec<u8> {
        let order = Random(self.blocks.len() as u64).shuffled(self.blocks.len());
        let mut place = vec![0; order.len()];
        order.iter().enumerate().for_each(|(new, &old)| place[old] = new);
        let mut out = vec![self.kind];
        out.extend((order.len() as u64).to_le_bytes());
        order.iter().for_each(|&old| out.extend(self.blocks[old]));
        for (head, old) in Nodes(self.tree) {
            out.extend(head);
            numbers(old).for_each(|old| out.extend((place[old] as u64).to_le_bytes()));
        }
        out
    }
}
