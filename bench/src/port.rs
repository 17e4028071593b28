//! The proved calls, public and after one test, on tables of their own.
use servercape::tested::{self, SERVERCAPE_CLOSED, SERVERCAPE_OPEN};
use servercape::{raw, Kind};

/// The kind of all boards but those of five.
const KIND: u8 = Kind::Memory.code();

/// How many rows each table has; of the store, how many bytes.
#[derive(Clone, Copy)]
pub struct Rows {
    pub pieces: u64,
    pub blocks: u64,
    pub bytes: u64,
    pub nodes: u64,
    pub entries: u64,
}

#[derive(PartialEq)]
pub struct Tables {
    pieces: Vec<u64>,
    blocks: Vec<u64>,
    store: Vec<u8>,
    nodes: Vec<u64>,
    entries: Vec<u64>,
    /// Record asks for no more.
    scratch: [u64; 8],
}

/// The five tables as pointers and lengths, in the order that every call has, and what comes after them.
macro_rules! reads {
    ($call:path, $t:expr $(, $rest:expr)* $(,)?) => {
        unsafe {
            $call(
                $t.pieces.as_ptr(), $t.pieces.len(),
                $t.blocks.as_ptr(), $t.blocks.len(),
                $t.store.as_ptr(), $t.store.len(),
                $t.nodes.as_ptr(), $t.nodes.len(),
                $t.entries.as_ptr(), $t.entries.len(),
                $($rest),*
            )
        }
    };
}

/// A read of a closed index after one test: the tables that it is lent, and what comes after them.
macro_rules! tested {
    ($call:path, $t:expr, $($table:ident)*; $($rest:expr),* $(,)?) => {
        unsafe { $call(SERVERCAPE_CLOSED, $($t.$table.as_ptr(), $t.$table.len(),)* $($rest),*) }
    };
}

impl Tables {
    /// An open index of one kind. Opening clears the tables, so every page of them has been touched before anything is timed.
    pub fn open(rows: Rows, end_tick: u64) -> Tables {
        Tables::open_kinds(rows, end_tick, &[Kind::Memory])
    }

    pub fn open_kinds(rows: Rows, end_tick: u64, kinds: &[Kind]) -> Tables {
        let kinds: Vec<u8> = kinds.iter().map(|kind| kind.code()).collect();
        let length = |table, rows| unsafe { raw::servercape_length(table, rows) as usize };
        let mut t = Tables {
            pieces: vec![7; length(raw::SERVERCAPE_PIECES, rows.pieces)],
            blocks: vec![7; length(raw::SERVERCAPE_BLOCKS, rows.blocks)],
            store: vec![7; length(raw::SERVERCAPE_STORE, rows.bytes)],
            nodes: vec![7; length(raw::SERVERCAPE_NODES, rows.nodes)],
            entries: vec![7; length(raw::SERVERCAPE_ENTRIES, rows.entries)],
            scratch: [7; 8],
        };
        let number = unsafe {
            raw::servercape_open(
                t.pieces.as_mut_ptr(), t.pieces.len(),
                t.blocks.as_mut_ptr(), t.blocks.len(),
                t.store.as_ptr(), t.store.len(),
                t.nodes.as_mut_ptr(), t.nodes.len(),
                t.entries.as_mut_ptr(), t.entries.len(),
                end_tick, kinds.as_ptr(), kinds.len(),
            )
        };
        assert_eq!(number, 0, "open");
        t
    }

    /// What is lent: each table, with its bytes.
    pub fn lent(&self) -> Vec<(&'static str, u64)> {
        let bytes = |numbers: usize| 8 * numbers as u64;
        vec![
            ("pieces", bytes(self.pieces.len())),
            ("blocks", bytes(self.blocks.len())),
            ("store", self.store.len() as u64),
            ("nodes", bytes(self.nodes.len())),
            ("entries", bytes(self.entries.len())),
            ("scratch", bytes(self.scratch.len())),
        ]
    }

    pub fn record(&mut self, tick: u64, first: u64, bytes: &[u8]) -> u64 {
        let (mut updated, mut cell) = (0, 0);
        unsafe {
            raw::servercape_record(
                self.pieces.as_mut_ptr(), self.pieces.len(),
                self.blocks.as_mut_ptr(), self.blocks.len(),
                self.store.as_mut_ptr(), self.store.len(),
                self.nodes.as_ptr(), self.nodes.len(),
                self.entries.as_ptr(), self.entries.len(),
                self.scratch.as_ptr(), self.scratch.len(),
                KIND, tick, first, bytes.as_ptr(), bytes.len(),
                &mut updated, &mut cell,
            )
        }
    }

    pub fn record_tested(&mut self, tick: u64, first: u64, bytes: &[u8]) -> u64 {
        self.record_kind(Kind::Memory, tick, first, bytes)
    }

    /// After one test, of a kind.
    pub fn record_kind(&mut self, kind: Kind, tick: u64, first: u64, bytes: &[u8]) -> u64 {
        let (mut updated, mut cell) = (0, 0);
        unsafe {
            tested::servercape_record_tested(
                SERVERCAPE_OPEN,
                self.pieces.as_mut_ptr(), self.pieces.len(),
                self.blocks.as_mut_ptr(), self.blocks.len(),
                self.store.as_mut_ptr(), self.store.len(),
                self.scratch.as_ptr(), self.scratch.len(),
                kind.code(), tick, first, bytes.as_ptr(), bytes.len(),
                &mut updated, &mut cell,
            )
        }
    }

    /// Records the operations of a list: how many were played.
    pub fn record_all(&mut self, operations: &[u8], answers: &mut [u64]) -> u64 {
        let mut next = 0;
        unsafe {
            raw::servercape_record_all(
                self.pieces.as_mut_ptr(), self.pieces.len(),
                self.blocks.as_mut_ptr(), self.blocks.len(),
                self.store.as_mut_ptr(), self.store.len(),
                self.nodes.as_ptr(), self.nodes.len(),
                self.entries.as_ptr(), self.entries.len(),
                self.scratch.as_ptr(), self.scratch.len(),
                KIND, operations.as_ptr(), operations.len(), answers.as_mut_ptr(), answers.len(), &mut next,
            )
        }
    }

    pub fn finish(&mut self) -> u64 {
        unsafe {
            raw::servercape_finish(
                self.pieces.as_mut_ptr(), self.pieces.len(),
                self.blocks.as_mut_ptr(), self.blocks.len(),
                self.store.as_ptr(), self.store.len(),
                self.nodes.as_mut_ptr(), self.nodes.len(),
                self.entries.as_mut_ptr(), self.entries.len(),
            )
        }
    }

    /// The test behind refusal 2, of tables that are open or closed.
    pub fn test(&self, closed: bool) -> u64 {
        let state = reads!(tested::servercape_state, self);
        assert_eq!(state, if closed { 2 } else { 1 }, "well formed");
        state
    }

    /// The bytes of a block, by its number.
    pub fn block_bytes(&self, number: u64) -> &[u8] {
        let [mut kind, mut first, mut length, mut created, mut destroyed, mut offset] = [0; 6];
        let refusal =
            reads!(raw::servercape_block, self, number, &mut kind, &mut first, &mut length, &mut created, &mut destroyed, &mut offset);
        assert_eq!(refusal, 0, "block");
        &self.store[offset as usize..(offset + length) as usize]
    }

    pub fn block_bytes_tested(&self, number: u64) -> &[u8] {
        let [mut kind, mut first, mut length, mut created, mut destroyed, mut offset] = [0; 6];
        let refusal = tested!(tested::servercape_block_tested, self, blocks store;
            number, &mut kind, &mut first, &mut length, &mut created, &mut destroyed, &mut offset);
        assert_eq!(refusal, 0, "block");
        &self.store[offset as usize..(offset + length) as usize]
    }

    pub fn find(&self, tick: u64, start: u64, end: u64, answer: &mut [u64]) -> u64 {
        let (mut count, mut visited) = (0, 0);
        let refusal =
            reads!(raw::servercape_find, self, KIND, tick, start, end, answer.as_mut_ptr(), answer.len(), &mut count, &mut visited);
        assert_eq!(refusal, 0, "find");
        count
    }

    pub fn find_tested(&self, tick: u64, start: u64, end: u64, answer: &mut [u64]) -> u64 {
        let (mut count, mut visited) = (0, 0);
        let refusal = tested!(tested::servercape_find_tested, self, blocks nodes entries;
            KIND, tick, start, end, answer.as_mut_ptr(), answer.len(), &mut count, &mut visited);
        assert_eq!(refusal, 0, "find");
        count
    }

    /// Asks the queries of a list: how many were asked.
    pub fn find_all(&self, queries: &[u64], answers: &mut [u64], numbers: &mut [u64]) -> u64 {
        reads!(raw::servercape_find_all, self,
            KIND, queries.as_ptr(), queries.len(), answers.as_mut_ptr(), answers.len(), numbers.as_mut_ptr(), numbers.len())
    }

    pub fn touching(&self, tick: u64, start: u64, end: u64, answer: &mut [u64]) -> u64 {
        let mut count = 0;
        let refusal = reads!(raw::servercape_touching, self, KIND, tick, start, end, answer.as_mut_ptr(), answer.len(), &mut count);
        assert_eq!(refusal, 0, "touching");
        count
    }

    pub fn touching_tested(&self, tick: u64, start: u64, end: u64, answer: &mut [u64]) -> u64 {
        let mut count = 0;
        let refusal = tested!(tested::servercape_touching_tested, self, blocks nodes entries;
            KIND, tick, start, end, answer.as_mut_ptr(), answer.len(), &mut count);
        assert_eq!(refusal, 0, "touching");
        count
    }

    pub fn next(&self, tick: u64, cell: u64) -> Option<u64> {
        let (mut found, mut number) = (0, 0);
        let refusal = reads!(raw::servercape_next, self, KIND, tick, cell, &mut found, &mut number);
        assert_eq!(refusal, 0, "next");
        (found == 1).then_some(number)
    }

    pub fn next_tested(&self, tick: u64, cell: u64) -> Option<u64> {
        let (mut found, mut number) = (0, 0);
        let refusal = tested!(tested::servercape_next_tested, self, blocks nodes entries; KIND, tick, cell, &mut found, &mut number);
        assert_eq!(refusal, 0, "next");
        (found == 1).then_some(number)
    }

    pub fn last(&self, tick: u64, cell: u64) -> Option<u64> {
        let (mut found, mut number) = (0, 0);
        let refusal = reads!(raw::servercape_last, self, KIND, tick, cell, &mut found, &mut number);
        assert_eq!(refusal, 0, "last");
        (found == 1).then_some(number)
    }

    pub fn last_tested(&self, tick: u64, cell: u64) -> Option<u64> {
        let (mut found, mut number) = (0, 0);
        let refusal = tested!(tested::servercape_last_tested, self, blocks nodes entries; KIND, tick, cell, &mut found, &mut number);
        assert_eq!(refusal, 0, "last");
        (found == 1).then_some(number)
    }

    pub fn cells(&self, tick: u64, start: u64, end: u64, bytes: &mut [u8], held: &mut [u8]) {
        let refusal =
            reads!(raw::servercape_read_cells, self, KIND, tick, start, end, bytes.as_mut_ptr(), bytes.len(), held.as_mut_ptr(), held.len());
        assert_eq!(refusal, 0, "read cells");
    }

    pub fn cells_tested(&self, tick: u64, start: u64, end: u64, bytes: &mut [u8], held: &mut [u8]) {
        let refusal = tested!(tested::servercape_read_cells_tested, self, blocks store nodes entries;
            KIND, tick, start, end, bytes.as_mut_ptr(), bytes.len(), held.as_mut_ptr(), held.len());
        assert_eq!(refusal, 0, "read cells");
    }

    /// Occupied cells of some windows by all cells, reduced.
    pub fn occupation_tested(&self, tick: u64, windows: &[u64]) -> (u64, u64) {
        let [mut occupied, mut cells, mut tenths] = [0; 3];
        let refusal = tested!(tested::servercape_occupation_tested, self, blocks store nodes entries;
            KIND, tick, windows.as_ptr(), windows.len(), &mut occupied, &mut cells, &mut tenths);
        assert_eq!(refusal, 0, "occupation");
        (occupied, cells)
    }

    pub fn write(&self, out: &mut [u8]) -> u64 {
        let mut written = 0;
        let refusal = reads!(raw::servercape_write, self, out.as_mut_ptr(), out.len(), &mut written);
        assert_eq!(refusal, 0, "write");
        written
    }

    pub fn write_tested(&self, out: &mut [u8]) -> u64 {
        let mut written = 0;
        let refusal = tested!(tested::servercape_write_tested, self, blocks store nodes entries; out.as_mut_ptr(), out.len(), &mut written);
        assert_eq!(refusal, 0, "write");
        written
    }

    pub fn load(&mut self, file: &[u8]) -> u64 {
        self.load_at(file, 0)
    }

    /// From a position on: the one behind what was loaded.
    pub fn load_at(&mut self, file: &[u8], at: u64) -> u64 {
        let mut next = 0;
        let refusal = unsafe {
            raw::servercape_load(
                self.pieces.as_mut_ptr(), self.pieces.len(),
                self.blocks.as_mut_ptr(), self.blocks.len(),
                self.store.as_mut_ptr(), self.store.len(),
                self.nodes.as_mut_ptr(), self.nodes.len(),
                self.entries.as_mut_ptr(), self.entries.len(),
                file.as_ptr(), file.len(), at, &mut next,
            )
        };
        assert_eq!(refusal, 0, "load");
        next
    }
}
