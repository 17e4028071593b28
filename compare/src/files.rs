//! Good files and damaged copies of them, loaded by the proved calls, by the plain reading of the document and by the Rust.
use crate::file::{self, Part};
use crate::lists::{closed_records, lists_of, number, owned, read};
use crate::random::Random;
use crate::rust::{Answer, Job, Query, Rust};
use crate::tally::Tally;
use crate::tree::{Node, Tree};
use servercape::{Index, Room};

/// A file to load from a position on, and the room to load it into.
#[derive(Clone, Debug)]
pub struct Case {
    pub file: Vec<u8>,
    pub at: usize,
    pub room: Room,
}

// ── damage ──

/// A copy of a good file: as it is, cut, with changed bytes or fields, or with something changed in what it says.
pub fn damaged(random: &mut Random, good: &[u8]) -> Case {
    let mut file = match random.below(8) {
        0 => good.to_vec(),
        1 => good[..random.below(good.len() as u64 + 1) as usize].to_vec(),
        2 | 3 => changed_field(random, good),
        _ => changed_contents(random, good),
    };
    if random.once_in(6) && !file.is_empty() {
        let at = random.below(file.len() as u64) as usize;
        file[at] = random.of(&[0, 1, 2, 4, 5, 255]);
    }
    let before = if random.once_in(4) { random.below(20) as usize } else { 0 };
    let after = if random.once_in(4) { random.below(20) } else { 0 };
    let room = room(random, &file);
    let bytes: Vec<u8> = (0..before).map(|_| random.next() as u8).chain(file).collect();
    let bytes = bytes.into_iter().chain((0..after).map(|_| random.next() as u8)).collect();
    // now and then a position at or past the end
    let at = if random.once_in(200) { 10_000 * random.below(3) as usize + before } else { before };
    Case { file: bytes, at, room }
}

/// What a file needs, now and then one row less or more in some table.
fn room(random: &mut Random, file: &[u8]) -> Room {
    let Ok((index, _)) = file::parsed(file, 0) else { return Room::even(64) };
    let bytes = index.blocks.iter().map(|b| b.bytes.len() as u64).sum();
    let mut room = Room { pieces: random.below(3), blocks: index.blocks.len() as u64, bytes, nodes: index.tree.nodes(), entries: index.tree.entries() };
    let less = random.of(&[-1, 1, 2]);
    match random.below(24) {
        0 => room.blocks = room.blocks.saturating_add_signed(less),
        1 => room.bytes = room.bytes.saturating_add_signed(less),
        2 => room.nodes = room.nodes.saturating_add_signed(less),
        3 => room.entries = room.entries.saturating_add_signed(less),
        _ => {}
    }
    room
}

/// Another number in one of the fields of eight bytes.
fn changed_field(random: &mut Random, good: &[u8]) -> Vec<u8> {
    let mut file = good.to_vec();
    let fields = file::numbers(good);
    let at = random.of(&fields);
    let value = u64::from_le_bytes(file[at..at + 8].try_into().unwrap());
    let other = random.of(&fields);
    let other = u64::from_le_bytes(file[other..other + 8].try_into().unwrap());
    let last = Index::MAX_END_TICK;
    let near = [value.wrapping_add(1), value.wrapping_sub(1), 0, 1, other, last, last + 1, u64::MAX, value / 2, value.wrapping_mul(2)];
    let value = random.of(&near);
    file[at..at + 8].copy_from_slice(&value.to_le_bytes());
    file
}

/// Something else in what the file says, written again.
fn changed_contents(random: &mut Random, good: &[u8]) -> Vec<u8> {
    let Ok((mut index, _)) = file::parsed(good, 0) else { return good.to_vec() };
    let count = index.blocks.len() as u64;
    let (a, b) = (random.below(count), random.below(count));
    match random.below(8) {
        // the blocks in another order: still a good file
        0 => {
            index.blocks.swap(a as usize, b as usize);
            index.tree = index.tree.renumbered(&|k| if k == a { b } else if k == b { a } else { k });
        }
        // a node more or less at the rim: still good, where it is the half that it should be and has no entry
        1 => at_node(&mut index.tree, random, &mut |node, random| rim(node, random)),
        2 => at_node(&mut index.tree, random, &mut |node, random| {
            let k = random.below(count + 1);
            node.entries.push(k);
        }),
        3 => at_node(&mut index.tree, random, &mut |node, _| {
            node.entries.pop();
        }),
        4 => at_node(&mut index.tree, random, &mut |node, random| {
            let at = random.below(node.entries.len() as u64 + 1) as usize;
            node.entries.rotate_left(at);
        }),
        5 => at_node(&mut index.tree, random, &mut |node, _| std::mem::swap(&mut node.left, &mut node.right)),
        // a block elsewhere, or with another length
        6 => index.blocks[a as usize].first = index.blocks[b as usize].first.wrapping_add(random.below(3)),
        _ => index.blocks[a as usize].bytes.resize(random.below(4) as usize, 9),
    }
    file::bytes_of(index.kind, &index.blocks.iter().collect::<Vec<_>>(), &index.tree)
}

/// Changes one node of a tree.
fn at_node(tree: &mut Tree, random: &mut Random, change: &mut dyn FnMut(&mut Node, &mut Random)) {
    let Some(node) = &mut tree.0 else { return };
    let child = if random.once_in(2) { &mut node.left } else { &mut node.right };
    if child.0.is_some() && !random.once_in(3) {
        return at_node(child, random, change);
    }
    change(node, random);
}

/// A half that is not there comes; one that is there goes.
fn rim(node: &mut Node, random: &mut Random) {
    let (child, min, max) = if random.once_in(2) { (&mut node.left, node.min, node.mid) } else { (&mut node.right, node.mid, node.max) };
    child.0 = match child.0 {
        Some(_) => None,
        None => {
            let mid = ((min as u128 + max as u128) / 2) as u64;
            Some(Box::new(Node { min, max, mid, entries: vec![], left: Tree::none(), right: Tree::none() }))
        }
    };
}

// ── comparing ──

fn queries(random: &mut Random, index: &Part) -> Vec<Query> {
    let cell = index.blocks.first().map_or(0, |b| b.first);
    let end = index.end.clamp(1, Index::MAX_END_TICK);
    vec![(random.below(end), 0, u64::MAX), (end - 1, cell, cell.saturating_add(random.below(9)))]
}

/// What the proved calls gave.
struct Loaded {
    case: Case,
    queries: Vec<Query>,
    number: u64,
    index: Option<(Index, usize)>,
}

fn loaded(random: &mut Random, case: &Case, tally: &mut Tally) -> Loaded {
    let want = file::loaded(&case.file, case.at, &case.room);
    let got = Index::load_with(case.room, &case.file, case.at);
    let number = number(&got);
    tally.count(40, "files loaded, the answer compared with the document", 1);
    tally.same(|| format!("load of {case:?}"), &number, &want.as_ref().err().copied().unwrap_or(0));
    if number != 0 {
        tally.refused(number);
    }
    let (mut index, mut asked) = (None, vec![]);
    if let (Ok((mut loaded, next)), Ok((part, want_next))) = (got, want) {
        tally.count(41, "  of these taken: blocks, finds, cells and the bytes written again compared", 1);
        tally.same(|| format!("next position after {case:?}"), &next, &want_next);
        asked = queries(random, &part);
        let kind = part.kind;
        let closed = part.closed();
        tally.same(|| format!("loaded kind of {case:?}"), &loaded.kinds().map(|kind| u64::from(kind.code())).collect(), &vec![kind]);
        closed_records(&mut loaded, &closed, tally, &|| format!("{case:?}"));
        read(&loaded, &closed, &asked, tally, &|| format!("{case:?}"));
        let again = loaded.write().expect("a loaded index");
        tally.same(|| format!("bytes written again of {case:?}"), &again, &case.file[case.at..next].to_vec());
        index = Some((loaded, next));
    }
    Loaded { case: case.clone(), queries: asked, number, index }
}

/// Taken by the port means taken by the Rust, alike; 17 means that the Rust panics; after 18 to 24 it may go either way (D5).
fn compared(of: &Loaded, answer: &Answer, tally: &mut Tally) {
    let case = &of.case;
    tally.count(50, "files loaded by the Rust too", 1);
    match (&of.index, of.number) {
        (Some((index, next)), _) => {
            tally.count(51, "  of these taken by both: next position, finds with their order, the bytes written again", 1);
            if let Some(why) = &answer.failed {
                return tally.differs(format!("the Rust fails, {why}, on {case:?}"));
            }
            tally.same(|| format!("next position of the Rust after {case:?}"), next, &(case.at + answer.next));
            let blocks: Vec<_> = index.blocks().expect("a loaded index").map(owned).collect();
            let kind = index.kinds().next().expect("a loaded index has a kind");
            let listed: Vec<_> = lists_of(index, kind, &blocks, &of.queries).into_iter().map(Some).collect();
            tally.same(|| format!("finds of the Rust for {case:?}"), &listed, &answer.finds);
            let again = file::parsed(&answer.file, 0).ok().and_then(|(parsed, _)| file::reordered(&parsed, &blocks));
            tally.same(|| format!("bytes that the Rust writes again for {case:?}"), &Some(case.file[case.at..*next].to_vec()), &again);
        }
        (None, 17) => {
            tally.count(52, "  of these refused 17, where the Rust must fail", 1);
            if answer.failed.is_none() {
                tally.differs(format!("refused 17, and the Rust takes {case:?}"));
            }
        }
        (None, _) => {
            tally.count(53, "  of these refused 18 to 24", 1);
            tally.count(54, "    which the Rust takes (D5)", answer.failed.is_none() as u64);
        }
    }
}

/// Loads some files.
pub fn compare(cases: &[Case], random: &mut Random, rust: &mut Option<Rust>, tally: &mut Tally) {
    let all: Vec<Loaded> = cases.iter().map(|case| loaded(random, case, tally)).collect();
    let Some(rust) = rust else { return };
    // the Rust's loader is asked from the file's start on
    let job = |of: &Loaded| Job::Load { file: of.case.file[of.case.at.min(of.case.file.len())..].to_vec(), queries: of.queries.clone() };
    let jobs: Vec<Job> = all.iter().map(job).collect();
    for (of, answer) in all.iter().zip(rust.ask(&jobs)) {
        compared(of, &answer, tally);
    }
}
