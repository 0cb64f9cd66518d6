//! The peer of `abc` in benchmarks: the command is the first word, and no word is `canon`. Its streams and its status are
//! those of `abc` with that command.
use std::io::{self, Read, Write};
use std::process::ExitCode;

mod asm;
mod bodies;
mod canon;
mod code;
mod covers;
mod definitions;
mod dis;
mod fault;
mod generate;
mod graph;
mod hash;
mod heap;
mod kinds;
mod link;
mod linked;
mod linked_names;
mod opcodes;
mod operands;
mod order;
mod parts;
mod pools;
mod read_bodies;
mod read_definitions;
mod reader;
mod routine;
mod rules;
mod run;
mod shapes;
mod states;
mod tidy;
mod tokens;
mod trees;
mod value;
mod verify;
mod visit;
mod writer;

use canon::Canon;
use fault::{Answer, Fault, Reason};
use heap::Limits;
use reader::Reader;
use run::End;
use value::File;
use verify::Refused;

/// The most bytes that a file has, and a text.
const MOST: usize = 1 << 24;
const MOST_TEXT: usize = 1 << 28;

/// Why a command ends: the status, and the line behind `abc: `.
struct Refusal {
    status: u8,
    line: String,
}

impl Refusal {
    fn new(status: u8, line: impl Into<String>) -> Self {
        Refusal {
            status,
            line: line.into(),
        }
    }
}

impl From<Fault> for Refusal {
    fn from(Fault { place, reason }: Fault) -> Self {
        Refusal::new(1, format!("byte {place}: {reason:?}"))
    }
}

type Done = Result<(), Refusal>;

/// The answer for an input of which one byte past the most was read: all bytes up to the place that was read to are needed.
fn whole<T>(input: &[u8], at: usize, done: Answer<T>) -> Answer<T> {
    match done {
        Ok(_) if at < input.len() => Err(Fault::new(at, Reason::Trailing)),
        Err(fault) if fault.reason == Reason::Short && input.len() > MOST => Err(Fault {
            reason: Reason::FileTooLong,
            ..fault
        }),
        _ => done,
    }
}

fn canonical(input: &[u8]) -> Answer<Vec<u8>> {
    let mut canon = Canon::new(&input[..input.len().min(MOST)]);
    let done = canon.file();
    whole(input, canon.at, done)?;
    Ok(canon.out)
}

fn read_value(input: &[u8]) -> Answer<File<'_>> {
    let mut reader = Reader::new(&input[..input.len().min(MOST)]);
    let done = reader.file();
    whole(input, reader.at, done)
}

fn read_input(most: usize) -> Result<Vec<u8>, Refusal> {
    let mut input = Vec::new();
    let read = io::stdin()
        .lock()
        .take(most as u64 + 1)
        .read_to_end(&mut input);
    read.map(|_| input)
        .map_err(|_| Refusal::new(7, "read fault"))
}

fn write_fault(_: io::Error) -> Refusal {
    Refusal::new(8, "write fault")
}

fn write(bytes: &[u8]) -> Done {
    let mut out = io::stdout().lock();
    out.write_all(bytes)
        .and_then(|()| out.flush())
        .map_err(write_fault)
}

fn canon() -> Done {
    write(&canonical(&read_input(MOST)?)?)
}

fn dis() -> Done {
    let input = read_input(MOST)?;
    let file = read_value(&input)?;
    let mut out = io::stdout().lock();
    dis::write_text(&file, &mut out)
        .and_then(|()| out.flush())
        .map_err(write_fault)
}

fn asm() -> Done {
    let text = read_input(MOST_TEXT)?;
    let file = asm::assemble(&text, MOST_TEXT, MOST)
        .map_err(|fault| Refusal::new(1, format!("line {}: {:?}", fault.line, fault.reason)))?;
    write(&file)
}

fn tidy() -> Done {
    let input = read_input(MOST)?;
    let file = tidy::tidy(read_value(&input)?, MOST).map_err(|line| Refusal::new(1, line))?;
    write(&file)
}

/// The linking part of `check` alone: of a file that links it says that the rest isn't built.
fn link() -> Done {
    let input = read_input(MOST)?;
    link::link(&read_value(&input)?).map_err(|line| Refusal::new(1, line))?;
    Err(Refusal::new(11, "not built"))
}

fn check() -> Done {
    let input = read_input(MOST)?;
    let file = read_value(&input)?;
    let linked = link::link(&file).map_err(|line| Refusal::new(1, line))?;
    verify::verify(&linked).map_err(|Refused { body, place, rule }| {
        let body = &file.bodies[body as usize];
        let offset = read_bodies::offset_of(&input, &body.code, place);
        let method = body.method;
        Refusal::new(1, format!("method {method} offset {offset}: {rule:?}"))
    })?;
    write(format!("verified {}\n", file.bodies.len()).as_bytes())
}

/// The number that an option gives, or else the default.
fn option(name: &str, default: u32) -> u32 {
    let given = |word: String| word.strip_prefix(name)?.strip_prefix('=')?.parse().ok();
    std::env::args().find_map(given).unwrap_or(default)
}

/// The limits of a run.
fn limits() -> Limits {
    Limits {
        fuel: option("--fuel", 10_000_000),
        objects: option("--objects", 100_000) as usize,
        cells: option("--cells", 1_000_000) as usize,
        text: option("--text", 4_000_000) as usize,
        frames: option("--frames", 1_000) as usize,
        stack: option("--stack", 100_000) as usize,
    }
}

fn why(end: End) -> Refusal {
    match end {
        End::Uncaught(name) => Refusal::new(3, format!("uncaught {name}")),
        End::Fault(name) => Refusal::new(4, format!("a place: {name}")),
        End::FuelSpent => Refusal::new(5, "fuel spent"),
        End::Full(limit) => Refusal::new(6, format!("limit {limit}")),
        End::WriteFault => Refusal::new(8, "write fault"),
        End::Unknown(opcode) => Refusal::new(11, format!("the peer doesn't know {opcode:02x}")),
    }
}

/// Runs a file, after `check`.
fn run_file(input: &[u8]) -> Done {
    let file = read_value(input)?;
    let linked = link::link(&file).map_err(|line| Refusal::new(1, line))?;
    verify::verify(&linked).map_err(|_| Refusal::new(1, "a rule is broken"))?;
    let mut out = io::stdout().lock();
    run::run(&linked, limits(), &mut out).map_err(why)?;
    out.flush().map_err(write_fault)
}

fn run() -> Done {
    run_file(&read_input(MOST)?)
}

fn generate() -> Done {
    let methods = option("--methods", 100);
    let made = generate::generate(option("--seed", 1), methods);
    run_file(&made.bytes)?;
    let (bytes, methods, instructions) = (made.bytes.len(), methods + 1, made.instructions);
    write(format!("bytes {bytes}\nmethods {methods}\ninstructions {instructions}\n").as_bytes())
}

fn main() -> ExitCode {
    let word = std::env::args().nth(1);
    let done = match word.as_deref() {
        None | Some("canon") => canon(),
        Some("dis") => dis(),
        Some("asm") => asm(),
        Some("tidy") => tidy(),
        Some("link") => link(),
        Some("check") => check(),
        Some("run") => run(),
        Some("gen") => generate(),
        Some(word) => Err(Refusal::new(2, format!("usage: {word}"))),
    };
    match done {
        Ok(()) => ExitCode::SUCCESS,
        Err(Refusal { status, line }) => {
            eprintln!("abc: {line}");
            ExitCode::from(status)
        }
    }
}
