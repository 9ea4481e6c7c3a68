//! RPC over HTTP version 2, replayed and shown without proofs: a program to measure the proved one
//! against.
//!
//!     rustc -O --edition 2021 bench/plain/main.rs
//!
//! Words: `replay` reads a recording and writes its report; `show` reads a packet in hex from each
//! line and tells it in one; `make <n>` sums up a generated run.

mod client;
mod direct;
mod hex;
mod http;
mod inproxy;
mod intake;
mod leg;
mod make;
mod node;
mod outproxy;
mod pdu;
mod record;
mod report;
mod rts;
mod server;
mod show;
#[cfg(test)]
mod tests;
mod window;
mod world;

use report::Report;
use std::io::{self, Read};
use std::process::ExitCode;

const MOST_INPUT: usize = 67_108_864;
const MOST_MADE: u32 = 10_000;

enum Fault {
    Usage,
    BadInput(u64),
    Read,
    Write,
    TooLong,
}

fn read_input() -> Result<Vec<u8>, Fault> {
    let mut input = Vec::new();
    let most = MOST_INPUT as u64 + 1;
    io::stdin().lock().take(most).read_to_end(&mut input).map_err(|_| Fault::Read)?;
    if input.len() > MOST_INPUT {
        return Err(Fault::TooLong);
    }
    Ok(input)
}

fn write_report(write: impl FnOnce(&mut Report)) -> Result<(), Fault> {
    let mut output = io::stdout().lock();
    let mut report = Report::new(&mut output);
    write(&mut report);
    report.end().map_err(|_| Fault::Write)
}

fn replay() -> Result<(), Fault> {
    let input = read_input()?;
    let recording = record::Recording::read(&input).map_err(Fault::BadInput)?;
    write_report(|report| match recording.roles {
        true => world::run(&recording, report),
        false => direct::run(&recording, report),
    })
}

fn show() -> Result<(), Fault> {
    let input = read_input()?;
    let packets = show::Packets::read(&input).map_err(Fault::BadInput)?;
    write_report(|report| packets.show(report))
}

fn make(word: &str) -> Result<(), Fault> {
    let plain = word.bytes().all(|byte| byte.is_ascii_digit()) && !word.starts_with('0');
    let n =
        word.parse().ok().filter(|n| plain && (1..=MOST_MADE).contains(n)).ok_or(Fault::Usage)?;
    make::run(n, &mut io::stdout().lock()).map_err(|_| Fault::Write)
}

fn run() -> Result<(), Fault> {
    let words: Vec<String> =
        std::env::args_os().skip(1).map(|word| word.to_string_lossy().into_owned()).collect();
    match words.iter().map(String::as_str).collect::<Vec<_>>()[..] {
        ["replay"] => replay(),
        ["show"] => show(),
        ["make", n] => make(n),
        _ => Err(Fault::Usage),
    }
}

fn main() -> ExitCode {
    let Err(fault) = run() else { return ExitCode::SUCCESS };
    let status = match fault {
        Fault::Usage => {
            eprintln!("usage");
            1
        }
        Fault::BadInput(line) => {
            eprintln!("bad input {line}");
            2
        }
        Fault::Read => {
            eprintln!("read fault");
            3
        }
        Fault::Write => {
            eprintln!("write fault");
            4
        }
        Fault::TooLong => {
            eprintln!("input too long");
            9
        }
    };
    ExitCode::from(status)
}
