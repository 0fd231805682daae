//! Speed of the library beside that of others, on the same lines. bench/run builds it and makes tables of what it prints.

mod glibc;
mod inputs;
mod modes;
mod peers;
mod readers;
mod writers;

use inputs::Input;
use oracle::{answers, lines};
use peers::Peer;
use std::io::{self, Write};
use std::time::{Duration, Instant};

const USAGE: &str =
    "usage: bench time KIND PEER INPUT | calls KIND PEER INPUT COUNT | names | texts INPUT | file COUNT | lines";

/// A measurement takes some such time.
const SHORTEST: Duration = Duration::from_millis(10);
const MEASUREMENTS: usize = 3;

fn peers(input: &Input) -> Vec<Peer<'_>> {
    let mut peers = Vec::new();
    if input.by_others {
        peers.extend(readers::all(input));
        peers.extend(writers::all(input));
    }
    peers.extend(modes::all(input));
    peers
}

fn peer<'a>(input: &'a Input, kind: &str, name: &str) -> Peer<'a> {
    peers(input).into_iter().find(|peer| peer.kind == kind && peer.name == name).expect(USAGE)
}

fn timed(peer: &Peer, calls: usize) -> Duration {
    let begun = Instant::now();
    (peer.calls)(calls);
    begun.elapsed()
}

/// So many calls that they take the shortest time.
fn enough(peer: &Peer) -> usize {
    let mut calls = inputs::LINES;
    while timed(peer, calls) < SHORTEST {
        calls *= 2;
    }
    calls
}

/// The nanoseconds of a call, by the best of some measurements.
fn nanoseconds(peer: &Peer) -> f64 {
    let calls = enough(peer);
    let measured = (0..MEASUREMENTS).map(|_| timed(peer, calls).as_secs_f64() * 1e9 / calls as f64);
    measured.fold(f64::INFINITY, f64::min)
}

fn main() -> io::Result<()> {
    let arguments: Vec<String> = std::env::args().skip(1).collect();
    let arguments: Vec<&str> = arguments.iter().map(String::as_str).collect();
    let inputs = inputs::all();
    let input = |name: &str| inputs.iter().find(|input| input.name == name).expect(USAGE);
    let mut out = io::BufWriter::new(io::stdout().lock());
    match arguments[..] {
        ["time", kind, name, of_input] => {
            writeln!(out, "{:.1}", nanoseconds(&peer(input(of_input), kind, name)))?;
        }
        ["calls", kind, name, of_input, count] => {
            (peer(input(of_input), kind, name).calls)(count.parse().expect(USAGE));
        }
        ["names"] => {
            for input in &inputs {
                for peer in peers(input) {
                    writeln!(out, "{}\t{}\t{}", peer.kind, peer.name, input.name)?;
                }
            }
        }
        ["texts", name] => {
            let input = input(name);
            writeln!(out, "{}", input.template)?;
            for line in &input.lines {
                writeln!(out, "{}", line.text)?;
            }
        }
        ["file", count] => file(&mut out, &inputs, count.parse().expect(USAGE))?,
        ["lines"] => lines::each(&mut out, |line| answers::line(line, answers::parts))?,
        _ => panic!("{USAGE}"),
    }
    out.flush()
}

/// Lines "template TAB input" of the inputs that all are measured on, but the long one, in turn.
fn file(out: &mut impl Write, inputs: &[Input], count: usize) -> io::Result<()> {
    let short: Vec<&Input> = inputs.iter().filter(|input| input.by_others && input.name != "long").collect();
    for number in 0..count {
        let input = short[number % short.len()];
        let line = &input.lines[number / short.len() % inputs::LINES];
        writeln!(out, "{}\t{}", input.template, line.text)?;
    }
    Ok(())
}
