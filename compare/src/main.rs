//! The oracle: questions, lines, and the ported module's answers to them.

use oracle::{answers, lines, questions};
use std::io::{self, BufRead, Write};

const USAGE: &str = "usage: oracle questions SEED | answers | lines parts|instants|days|moments SEED COUNT
    | pairs SEED COUNT | readings SEED COUNT | moments SEED COUNT | parts | instant | date | write | back | fields";

fn main() -> io::Result<()> {
    let arguments: Vec<String> = std::env::args().skip(1).collect();
    let arguments: Vec<&str> = arguments.iter().map(String::as_str).collect();
    let number = |word: &str| word.parse::<u64>().expect(USAGE);
    let mut out = io::BufWriter::new(io::stdout().lock());
    match arguments[..] {
        ["questions", seed] => {
            for question in questions::all(number(seed)) {
                writeln!(out, "{question}")?;
            }
        }
        ["answers"] => {
            for question in io::stdin().lock().lines() {
                writeln!(out, "{}", answers::answer(&question?))?;
            }
        }
        ["lines", list, seed, count] => {
            let (known, generator) = lines::list(list).expect(USAGE);
            let random = lines::random(generator, number(seed), number(count));
            lines::joined(&mut out, known.into_iter().chain(random))?;
        }
        [random @ ("pairs" | "readings" | "moments"), seed, count] => {
            let generator = lines::generator(random).expect(USAGE);
            for line in lines::random(generator, number(seed), number(count)) {
                out.write_all(&line)?;
                writeln!(out)?;
            }
        }
        ["parts"] => lines::each(&mut out, |line| answers::line(line, answers::parts))?,
        ["instant"] => lines::each(&mut out, |line| answers::line(line, answers::instant))?,
        ["date"] => lines::each(&mut out, |line| answers::line(line, answers::date))?,
        ["write"] => lines::each(&mut out, |line| answers::line(answers::without_return(line), answers::written))?,
        ["back"] => lines::each(&mut out, answers::back)?,
        ["fields"] => lines::each(&mut out, answers::fields)?,
        _ => {
            eprintln!("{USAGE}");
            std::process::exit(2);
        }
    }
    out.flush()
}
