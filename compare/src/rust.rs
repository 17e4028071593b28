//! The Rust that the calls are ported from, as a child process that takes jobs (../shared/oracle/README.md has their form). It may die on a damaged
//! file: then it is started anew.
use crate::board::{Block, Op};
use std::fmt::Write as _;
use std::io::{BufRead, BufReader, Read, Write};
use std::path::{Path, PathBuf};
use std::process::{Child, Command, Stdio};

/// A find: tick, start, end.
pub type Query = (u64, u64, u64);

#[derive(Clone)]
pub enum Job {
    Ops { end: u64, kind: u64, ops: Vec<Op>, queries: Vec<Query> },
    Load { file: Vec<u8>, queries: Vec<Query> },
}

#[derive(Default, Debug)]
pub struct Answer {
    /// It panicked or died: why.
    pub failed: Option<String>,
    pub blocks: Vec<Block>,
    pub file: Vec<u8>,
    pub next: usize,
    /// What each find lists; none where it panicked.
    pub finds: Vec<Option<Vec<Block>>>,
}

pub struct Rust {
    program: PathBuf,
    child: Child,
    pub deaths: u64,
}

impl Rust {
    /// Builds the Rust of a folder, with what cargo writes kept apart from it.
    pub fn build(folder: &Path, target: &Path) -> Result<Rust, String> {
        let manifest = folder.join("rust/Cargo.toml");
        let built = Command::new("cargo")
            .args(["build", "--release", "--offline", "--quiet", "--bin", "oracle", "--manifest-path"])
            .arg(&manifest)
            .arg("--target-dir")
            .arg(target)
            .status()
            .map_err(|e| format!("cargo: {e}"))?;
        if !built.success() {
            return Err(format!("{} does not build", manifest.display()));
        }
        let program = target.join("release/oracle");
        let child = start(&program)?;
        Ok(Rust { program, child, deaths: 0 })
    }

    /// The answers to some jobs, in their order.
    pub fn ask(&mut self, jobs: &[Job]) -> Vec<Answer> {
        let mut answers = Vec::with_capacity(jobs.len());
        while answers.len() < jobs.len() {
            let done = answers.len();
            self.ask_some(&jobs[done..], &mut answers);
            if answers.len() < jobs.len() {
                self.deaths += 1;
                answers.push(Answer { failed: Some("died".into()), ..Answer::default() });
                let _ = self.child.wait();
                self.child = start(&self.program).expect("the Rust starts again");
            }
        }
        answers
    }

    /// Answers up to the first job at which the child dies. A thread writes, so that neither side waits for the other's full pipe.
    fn ask_some(&mut self, jobs: &[Job], answers: &mut Vec<Answer>) {
        let text: String = jobs.iter().map(text_of).collect();
        let input = self.child.stdin.as_mut().unwrap();
        let mut output = BufReader::new(self.child.stdout.as_mut().unwrap());
        std::thread::scope(|scope| {
            scope.spawn(|| {
                let _ = input.write_all(text.as_bytes()).and_then(|()| input.flush());
            });
            for job in jobs {
                match read_answer(&mut output, kind_of(job)) {
                    Some(answer) => answers.push(answer),
                    None => break,
                }
            }
        });
    }
}

impl Drop for Rust {
    fn drop(&mut self) {
        drop(self.child.stdin.take());
        let _ = self.child.wait();
    }
}

fn start(program: &Path) -> Result<Child, String> {
    let mut command = Command::new(program);
    command.stdin(Stdio::piped()).stdout(Stdio::piped()).stderr(Stdio::null());
    command.spawn().map_err(|e| format!("{}: {e}", program.display()))
}

// ── the form of jobs and answers ──

fn hex(bytes: &[u8]) -> String {
    if bytes.is_empty() {
        return "-".into();
    }
    const DIGITS: &[u8; 16] = b"0123456789abcdef";
    bytes.iter().flat_map(|b| [DIGITS[(b >> 4) as usize] as char, DIGITS[(b & 15) as usize] as char]).collect()
}

fn unhex(text: &str) -> Vec<u8> {
    let digit = |c: u8| (c as char).to_digit(16).expect("a hexadecimal digit") as u8;
    let text = if text == "-" { "" } else { text };
    text.as_bytes().chunks(2).map(|pair| digit(pair[0]) << 4 | digit(pair[1])).collect()
}

fn text_of(job: &Job) -> String {
    let mut text = String::new();
    let queries = match job {
        Job::Ops { end, kind, ops, queries } => {
            writeln!(text, "ops {end} {kind}").unwrap();
            for op in ops {
                writeln!(text, "op {} {} {}", op.tick, op.first, hex(&op.bytes)).unwrap();
            }
            queries
        }
        Job::Load { file, queries } => {
            writeln!(text, "load {}", hex(file)).unwrap();
            queries
        }
    };
    for (tick, start, end) in queries {
        writeln!(text, "q {tick} {start} {end}").unwrap();
    }
    text.push_str("go\n");
    text
}

/// The Rust has one kind at a time, and tells it of no block.
fn kind_of(job: &Job) -> u64 {
    match job {
        Job::Ops { kind, .. } => *kind,
        Job::Load { file, .. } => file.first().map_or(0, |&kind| kind.into()),
    }
}

fn block_of(kind: u64, words: &[&str]) -> Block {
    let number = |k: usize| words[k].parse().expect("a number");
    let bytes = unhex(words[4]);
    assert_eq!(bytes.len() as u64, number(1), "the Rust's block has as many bytes as its length says");
    Block { kind, first: number(0), created: number(2), destroyed: number(3), bytes }
}

/// One answer, or none where the child has ended.
fn read_answer(output: &mut BufReader<impl Read>, kind: u64) -> Option<Answer> {
    let mut answer = Answer::default();
    let mut line = String::new();
    loop {
        line.clear();
        if output.read_line(&mut line).ok()? == 0 {
            return None;
        }
        let words: Vec<&str> = line.split_whitespace().collect();
        match words[0] {
            "end" => return Some(answer),
            "block" => answer.blocks.push(block_of(kind, &words[1..])),
            "file" => answer.file = unhex(words[1]),
            "next" => answer.next = words[1].parse().expect("a position"),
            "find" => answer.finds.push(Some(vec![])),
            "hit" => answer.finds.last_mut().unwrap().as_mut().unwrap().push(block_of(kind, &words[1..])),
            "findpanic" => answer.finds.push(None),
            _ => answer.failed = Some(line.trim().into()),
        }
    }
}
