//! `lamp FILE`: a node whose state is in FILE, as `meshnoded init` makes it. Each line of standard input is an event, and what became of it is written
//! to standard output, as `meshnoded run FILE --hex` does. It ends with the numbers of `meshnoded`.

use meshnode::{Fault, Node, IMAGE};
use std::fs::File;
use std::io::{self, BufRead, Write};
use std::os::unix::fs::FileExt;
use std::process::ExitCode;

const READ_FAULT: u8 = 4;
const WRITE_FAULT: u8 = 5;
const NO_MEMORY: u8 = 6;
const CUT: u8 = 12;
const WAS_RESET: u8 = 14;
const NO_FILE: u8 = 16;

/// A number that the program ends with, and why.
type End = (u8, String);

fn end<E: ToString>(number: u8) -> impl Fn(E) -> End {
    move |why| (number, why.to_string())
}

fn of_node(fault: Fault) -> End {
    let number = match fault {
        Fault::NoNode => NO_FILE,
        Fault::WasReset => WAS_RESET,
        _ => NO_MEMORY,
    };
    (number, fault.to_string())
}

/// The file of a node, which no other process has, and its octets, durable as they are read.
fn open_file(name: &str) -> io::Result<(File, [u8; IMAGE])> {
    let file = File::options().read(true).write(true).open(name)?;
    file.try_lock().map_err(io::Error::from)?;
    if file.metadata()?.len() != IMAGE as u64 {
        return Err(io::Error::other("it hasn't 65536 octets"));
    }
    file.sync_all()?;
    let mut image = [0; IMAGE];
    file.read_exact_at(&mut image, 0)?;
    Ok((file, image))
}

fn tell(text: &[u8]) -> Result<(), End> {
    let mut out = io::stdout().lock();
    out.write_all(text).and_then(|()| out.flush()).map_err(end(WRITE_FAULT))
}

/// Makes each write durable before the next, and only then tells what became of the line.
fn settle(node: &mut Node, file: &File) -> Result<(), End> {
    node.store(|at, octets| file.write_all_at(octets, at.into()).and_then(|()| file.sync_data())).map_err(end(CUT))?;
    tell(&node.report().map_err(of_node)?)
}

fn run(name: &str) -> Result<(), End> {
    let (file, image) = open_file(name).map_err(end(NO_FILE))?;
    let mut node = Node::open(&image).map_err(of_node)?;
    settle(&mut node, &file)?;
    let mut lines = io::stdin().lock();
    let mut line = Vec::new();
    for number in 1.. {
        line.clear();
        lines.read_until(b'\n', &mut line).map_err(end(READ_FAULT))?;
        let Some(line) = line.strip_suffix(b"\n") else { break };
        match node.line(line) {
            Err(Fault::Wrong(rule)) => eprintln!("line {number}: rule {rule}"),
            Err(fault) => return Err(of_node(fault)),
            Ok(_) => settle(&mut node, &file)?,
        }
    }
    tell(&node.close())
}

fn main() -> ExitCode {
    match run(&std::env::args().nth(1).unwrap_or_default()) {
        Ok(()) => ExitCode::SUCCESS,
        Err((number, why)) => {
            if number == WAS_RESET {
                println!("life 1 wasreset");
            }
            eprintln!("lamp: {why}");
            ExitCode::from(number)
        }
    }
}
