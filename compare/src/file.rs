//! The file of docs/RULES.md: its bytes, its fields one after the other, and the loader's refusals. Also the Rust's files in another order (D4).
use crate::board::{Block, Closed, KINDS};
use crate::tree::{Node, Tree};
use servercape::{Index, Room};

/// What one tree of a file says: its kind, its blocks and the tree.
#[derive(Clone, Debug)]
pub struct Part {
    pub end: u64,
    pub kind: u64,
    pub blocks: Vec<Block>,
    pub tree: Tree,
}

impl Part {
    /// The index that is loaded from it: its kind alone.
    pub fn closed(self) -> Closed {
        let trees = (0..KINDS).map(|kind| if kind == self.kind { self.tree.clone() } else { Tree::none() }).collect();
        Closed { end: self.end, kinds: vec![self.kind], blocks: self.blocks, trees }
    }
}

// ── writing ──

fn put(out: &mut Vec<u8>, number: u64) {
    out.extend_from_slice(&number.to_le_bytes());
}

/// A kind, blocks and nodes, as they stand.
pub fn bytes_of(kind: u64, blocks: &[&Block], tree: &Tree) -> Vec<u8> {
    let mut out = vec![kind as u8];
    put(&mut out, blocks.len() as u64);
    for block in blocks {
        out.push(kind as u8);
        for number in [block.first, block.bytes.len() as u64, block.created, block.destroyed] {
            put(&mut out, number);
        }
        out.extend_from_slice(&block.bytes);
    }
    tree.each(&mut |node| match node {
        None => out.push(0),
        Some(node) => {
            out.push(1);
            for number in [node.min, node.max, node.mid, node.entries.len() as u64] {
                put(&mut out, number);
            }
            for &number in &node.entries {
                put(&mut out, number);
            }
        }
    });
    out
}

/// The file of a closed index: the trees one behind the other, by kind.
pub fn written(index: &Closed) -> Vec<u8> {
    (0..KINDS).flat_map(|kind| written_part(index, kind)).collect()
}

/// The part of one kind: only blocks with an entry, in recorded order and numbered so. Without blocks of the kind it is empty.
fn written_part(index: &Closed, kind: u64) -> Vec<u8> {
    let tree = &index.trees[kind as usize];
    if tree.0.is_none() {
        return vec![];
    }
    let mut has_entry = vec![false; index.blocks.len()];
    tree.each(&mut |node| {
        for &k in node.map_or(&[][..], |n| &n.entries) {
            has_entry[k as usize] = true;
        }
    });
    let before = |k: u64| has_entry[..k as usize].iter().filter(|&&e| e).count() as u64;
    let blocks: Vec<&Block> = index.blocks.iter().zip(&has_entry).filter(|(_, &e)| e).map(|(b, _)| b).collect();
    bytes_of(kind, &blocks, &tree.renumbered(&before))
}

/// The bytes of a file with its blocks in the order in which they stand in `order`, and the entries renumbered; none where a block is not there.
pub fn reordered(file: &Part, order: &[Block]) -> Option<Vec<u8>> {
    let place: Option<Vec<usize>> = file.blocks.iter().map(|b| order.iter().position(|o| o == b)).collect();
    let place = place?;
    let mut numbers: Vec<usize> = (0..file.blocks.len()).collect();
    numbers.sort_by_key(|&k| place[k]);
    let blocks: Vec<&Block> = numbers.iter().map(|&k| &file.blocks[k]).collect();
    let new = |k: u64| numbers.iter().position(|&n| n as u64 == k).unwrap() as u64;
    Some(bytes_of(file.kind, &blocks, &file.tree.renumbered(&new)))
}

// ── reading ──

struct Reader<'a> {
    file: &'a [u8],
    at: usize,
}

impl<'a> Reader<'a> {
    fn field(&mut self, width: u64) -> Result<&'a [u8], u64> {
        let end = usize::try_from(width).ok().and_then(|w| self.at.checked_add(w)).ok_or(17u64)?;
        let bytes = self.file.get(self.at..end).ok_or(17u64)?;
        self.at = end;
        Ok(bytes)
    }

    fn byte(&mut self) -> Result<u64, u64> {
        Ok(self.field(1)?[0] as u64)
    }

    fn number(&mut self) -> Result<u64, u64> {
        Ok(u64::from_le_bytes(self.field(8)?.try_into().unwrap()))
    }

    fn block(&mut self, kind: u64) -> Result<Block, u64> {
        if self.byte()? != kind {
            return Err(18);
        }
        let (first, length, created, destroyed) = (self.number()?, self.number()?, self.number()?, self.number()?);
        let bytes = self.field(length)?.to_vec();
        Ok(Block { kind, first, created, destroyed, bytes })
    }

    fn tree(&mut self) -> Result<Tree, u64> {
        match self.byte()? {
            0 => return Ok(Tree::none()),
            1 => {}
            _ => return Err(19),
        }
        let (min, max, mid, count) = (self.number()?, self.number()?, self.number()?, self.number()?);
        let mut entries = vec![];
        for _ in 0..count {
            entries.push(self.number()?);
        }
        let (left, right) = (self.tree()?, self.tree()?);
        Ok(Tree(Some(Box::new(Node { min, max, mid, entries, left, right }))))
    }
}

/// Where the fields of eight bytes of a good file stand.
pub fn numbers(file: &[u8]) -> Vec<usize> {
    let number = |at: usize| u64::from_le_bytes(file[at..at + 8].try_into().unwrap());
    let (mut fields, mut at) = (vec![1], 9);
    for _ in 0..number(1) {
        fields.extend([at + 1, at + 9, at + 17, at + 25]);
        at += 33 + number(at + 9) as usize;
    }
    while at < file.len() {
        if file[at] == 0 {
            at += 1;
            continue;
        }
        fields.extend((0..4 + number(at + 25) as usize).map(|k| at + 1 + 8 * k));
        at += 33 + 8 * number(at + 25) as usize;
    }
    fields
}

/// What a file says from a position on, with the next position; or 17, 18 or 19, whichever comes first.
pub fn parsed(file: &[u8], at: usize) -> Result<(Part, usize), u64> {
    let mut reader = Reader { file, at };
    let kind = reader.byte()?;
    if kind > 4 {
        return Err(18);
    }
    let count = reader.number()?;
    let mut blocks = vec![];
    for _ in 0..count {
        blocks.push(reader.block(kind)?);
    }
    let tree = reader.tree()?;
    let end = tree.0.as_ref().map_or(0, |n| n.max);
    Ok((Part { end, kind, blocks, tree }, reader.at))
}

/// The parts of a file, one behind the other: their kinds and bytes.
pub fn parts(file: &[u8]) -> Vec<(u64, Vec<u8>)> {
    let (mut at, mut parts) = (0, vec![]);
    while at < file.len() {
        let Ok((part, next)) = parsed(file, at) else { break };
        parts.push((part.kind, file[at..next].to_vec()));
        at = next;
    }
    parts
}

// ── loading ──

/// What is loaded from a file, with the next position, or the number of the refusal.
pub fn loaded(file: &[u8], at: usize, room: &Room) -> Result<(Part, usize), u64> {
    let (index, next) = parsed(file, at)?;
    let bytes: u64 = index.blocks.iter().map(|b| b.bytes.len() as u64).sum();
    let fits = index.blocks.len() as u64 <= room.blocks
        && index.tree.nodes() <= room.nodes
        && index.tree.entries() <= room.entries
        && bytes <= room.bytes;
    if !fits {
        return Err(20);
    }
    if index.end == 0 || index.end > Index::MAX_END_TICK || !halves(&index.tree, 0, index.end) {
        return Err(21);
    }
    if index.blocks.is_empty() || !index.blocks.iter().all(|b| sound(b, index.end)) {
        return Err(22);
    }
    if !entered(&index) {
        return Err(23);
    }
    let shared = |a: &Block, b: &Block| a.first < b.end() && b.first < a.end() && a.created < b.destroyed && b.created < a.destroyed;
    if (0..index.blocks.len()).any(|i| index.blocks[..i].iter().any(|b| shared(b, &index.blocks[i]))) {
        return Err(24);
    }
    Ok((index, next))
}

/// 21: every node is the half that it should be; a node of width 1 has none.
fn halves(tree: &Tree, min: u64, max: u64) -> bool {
    let Some(node) = &tree.0 else { return true };
    let mid = (min + max) / 2;
    let leaf = node.left.0.is_none() && node.right.0.is_none();
    node.min == min && node.max == max && node.mid == mid && (max - min > 1 || leaf) && halves(&node.left, min, mid) && halves(&node.right, mid, max)
}

/// 22
fn sound(block: &Block, end: u64) -> bool {
    !block.bytes.is_empty() && block.first.checked_add(block.bytes.len() as u64).is_some() && block.created < block.destroyed && block.destroyed <= end
}

/// 23: the entries are those that each block's life asks for.
fn entered(index: &Part) -> bool {
    let mut widths = vec![0u128; index.blocks.len()];
    entries_right(&index.tree, None, &index.blocks, &mut widths)
        && index.blocks.iter().zip(&widths).all(|(b, &w)| w == (b.destroyed - b.created) as u128)
}

fn entries_right(tree: &Tree, parent: Option<&Node>, blocks: &[Block], widths: &mut [u128]) -> bool {
    let Some(node) = &tree.0 else { return true };
    let covers = |b: &Block, n: &Node| b.created <= n.min && n.max <= b.destroyed;
    let mut last = None;
    for &k in &node.entries {
        let Some(block) = usize::try_from(k).ok().and_then(|k| blocks.get(k)) else { return false };
        if !covers(block, node) || parent.is_some_and(|p| covers(block, p)) || last.is_some_and(|l| block.first <= l) {
            return false;
        }
        widths[k as usize] += (node.max - node.min) as u128;
        last = Some(block.first);
    }
    entries_right(&node.left, Some(node), blocks, widths) && entries_right(&node.right, Some(node), blocks, widths)
}
