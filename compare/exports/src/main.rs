//! Holds the exports to the ported module on random templates, inputs and moments, in one process and two threads.

use exports::agreement::{self, Agreement, Case, Difference, Template};
use exports::batches::Batch;
use oracle::answers::{Limits, Moment};
use oracle::modes::{Module, NEW, OLD};
use oracle::random::Random;
use std::panic::{AssertUnwindSafe, catch_unwind};
use std::process::ExitCode;
use std::sync::Mutex;
use std::time::Instant;

const USAGE: &str = "usage: in_process SEED COUNT";
const THREADS: usize = 2;
/// The pairs of one seed of a round; rounds go to the thread that is free.
const ROUND: u64 = 10_000;
/// Of so many batches one is also asked in the new character mode, with marks strewn in.
const STREWN: usize = 4;
/// The room for a text.
const ROOM: usize = 512;
/// Of the differences so many are printed.
const SHOWN: usize = 20;

/// The answers of pages, in the order of `agreement::Numbers`, and after them the texts.
const ANSWERS: [&str; 7] = ["parts", "instants", "days", "strict parts", "strict instants", "strict days", "texts"];
const TEXTS: usize = 6;
/// One more than the last number of a refusal.
const NUMBERS: usize = 26;

/// What is counted of the strict switch, of pages and cards, of lengths at the cards' limits, and of texts by full
/// templates.
const SWITCH: [&str; 2] = ["inputs read equally when strict", "refused with 25 instead"];
const CALLERS: [&str; 4] = [
    "inputs within the smaller limits read equally",
    "refused with 1 by the cards alone",
    "moments written equally",
    "refused with 1 by the cards alone",
];
const LENGTHS: [&str; 4] = ["templates of 64 bytes", "of 65", "inputs of 96", "of 97"];
const BACK: [&str; 2] = ["texts of full templates", "by the cards too"];

/// How often each number was the answer in a character mode, and what differed.
#[derive(Default)]
struct Tally {
    pairs: u64,
    numbers: [[u64; NUMBERS]; ANSWERS.len()],
    switch: [u64; SWITCH.len()],
    callers: [u64; CALLERS.len()],
    lengths: [u64; LENGTHS.len()],
    back: [u64; BACK.len()],
    differences: u64,
    shown: Vec<String>,
}

impl Tally {
    fn differ(&mut self, case: Case, difference: Difference) {
        self.differences += 1;
        if self.shown.len() < SHOWN {
            self.shown.push(format!("{case}: {difference}"));
        }
    }

    /// Counts a pair that was answered as it should be, by the number of the pages' answer. A moment is no input.
    fn answered(&mut self, template: &[u8], input: Option<&[u8]>, number: i64) {
        let limits = Limits::CARDS;
        let within = limits.hold(template, input.unwrap_or_default());
        let counted = [within, !within && number != 1].map(u64::from);
        add(&mut self.callers[if input.is_some() { 0 } else { 2 }..], counted);
        let of_template = [limits.template, limits.template + 1].map(|length| template.len() == length);
        let of_input = [limits.input, limits.input + 1].map(|length| input.is_some_and(|input| input.len() == length));
        add(&mut self.lengths, of_template.into_iter().chain(of_input).map(u64::from));
    }

    fn join(&mut self, other: Tally) {
        self.pairs += other.pairs;
        self.numbers.iter_mut().zip(other.numbers).for_each(|(counts, more)| add(counts, more));
        add(&mut self.switch, other.switch);
        add(&mut self.callers, other.callers);
        add(&mut self.lengths, other.lengths);
        add(&mut self.back, other.back);
        self.differences += other.differences;
        self.shown.extend(other.shown);
        self.shown.truncate(SHOWN);
    }

    fn report(&self) {
        for (answer, counts) in ANSWERS.iter().zip(&self.numbers) {
            let counts = counts.iter().enumerate().filter(|(_, count)| **count > 0);
            let counts: Vec<String> = counts.map(|(number, count)| format!("{count} of {number}")).collect();
            println!("{answer}: {}", counts.join(", "));
        }
        let counted: [(_, &[u64], &[&str]); 4] = [
            ("strict switch", &self.switch, &SWITCH),
            ("callers", &self.callers, &CALLERS),
            ("lengths", &self.lengths, &LENGTHS),
            ("read back", &self.back, &BACK),
        ];
        for (what, counts, names) in counted {
            let counts: Vec<String> = counts.iter().zip(names).map(|(count, name)| format!("{count} {name}")).collect();
            println!("{what}: {}", counts.join(", "));
        }
        for shown in &self.shown {
            println!("  {shown}");
        }
        println!("{} differences", self.differences);
    }
}

fn add(counts: &mut [u64], more: impl IntoIterator<Item = u64>) {
    counts.iter_mut().zip(more).for_each(|(count, more)| *count += more);
}

/// A stop of the module is shown with the case at which it stops; its message goes to the standard error.
fn caught<T>(case: Case, tally: &mut Tally, check: impl FnOnce() -> Agreement<T>) -> Option<T> {
    match catch_unwind(AssertUnwindSafe(check)) {
        Ok(Ok(value)) => Some(value),
        Ok(Err(difference)) => {
            tally.differ(case, difference);
            None
        }
        Err(_) => {
            println!("the module stopped at {case}");
            tally.differences += 1;
            None
        }
    }
}

fn read(template: &[u8], compiled: &Template, input: &[u8], tally: &mut Tally) {
    let case = Case::Reading { template, input };
    if let Some(numbers) = caught(case, tally, || agreement::read(compiled, input)) {
        let [lenient, strict] = numbers;
        let counted = numbers.as_flattened().iter().zip(&mut tally.numbers);
        counted.for_each(|(number, counts)| counts[*number as usize] += 1);
        add(&mut tally.switch, [lenient == strict, lenient != strict].map(u64::from));
        tally.answered(template, Some(input), lenient[0]);
    }
}

/// The text that is written is also read: that of a full template as the moment.
fn write(template: &[u8], compiled: &Template, moment: &Moment, room: usize, tally: &mut Tally) -> String {
    let case = Case::Writing { template, moment };
    let Some((number, text)) = caught(case, tally, || agreement::write(compiled, moment, room)) else {
        return String::new();
    };
    tally.numbers[TEXTS][number as usize] += 1;
    tally.answered(template, None, number);
    if number == 0 {
        read(template, compiled, text.as_bytes(), tally);
        let back = || agreement::read_back(compiled, moment, &text);
        if compiled.is_read_back() && caught(case, tally, back).is_some() {
            add(&mut tally.back, [1, Limits::CARDS.hold(template, &[]).into()]);
        }
    }
    text
}

fn check(module: &'static Module, batch: &Batch, tally: &mut Tally) {
    tally.pairs += batch.pairs();
    let template = &batch.template;
    let case = Case::Reading { template, input: &[] };
    let Some(compiled) = caught(case, tally, || Template::compiled(module, template, batch.bits)) else { return };
    for input in &batch.inputs {
        read(template, &compiled, input, tally);
    }
    for moment in &batch.moments {
        let text = write(template, &compiled, moment, ROOM, tally);
        if batch.tight && !text.is_empty() {
            write(template, &compiled, moment, text.len(), tally);
            write(template, &compiled, moment, text.len() - 1, tally);
        }
    }
}

/// So many pairs in the old mode, and some of them with marks in the new one.
fn round(seed: u64, count: u64) -> [Tally; 2] {
    let mut random = Random::new(seed);
    let [mut old, mut new] = <[Tally; 2]>::default();
    while old.pairs < count {
        let batch = Batch::new(&mut random);
        check(&OLD, &batch, &mut old);
        if random.once_in(STREWN) {
            check(&NEW, &batch.strewn(&mut random), &mut new);
        }
    }
    [old, new]
}

/// The seeds of the rounds and how many pairs are left, shared by the threads.
struct Work {
    seeds: Random,
    left: u64,
}

fn take(work: &Mutex<Work>) -> Option<(u64, u64)> {
    let mut work = work.lock().unwrap();
    let count = work.left.min(ROUND);
    work.left -= count;
    (count > 0).then(|| (work.seeds.next(), count))
}

fn main() -> ExitCode {
    let arguments: Vec<u64> = std::env::args().skip(1).map(|word| word.parse().expect(USAGE)).collect();
    let [seed, count] = arguments[..] else { panic!("{USAGE}") };
    let begun = Instant::now();
    if let Err(difference) = agreement::patterns() {
        println!("{difference}");
        return ExitCode::FAILURE;
    }
    let work = Mutex::new(Work { seeds: Random::new(seed), left: count });
    let totals = Mutex::new(<[Tally; 2]>::default());
    std::thread::scope(|scope| {
        for _ in 0..THREADS {
            scope.spawn(|| {
                while let Some((seed, count)) = take(&work) {
                    let tallies = round(seed, count);
                    totals.lock().unwrap().iter_mut().zip(tallies).for_each(|(total, tally)| total.join(tally));
                }
            });
        }
    });
    let totals = totals.into_inner().unwrap();
    println!("seed {seed}, {THREADS} threads, {:.1} seconds", begun.elapsed().as_secs_f64());
    for (mode, total) in ["old", "new"].iter().zip(&totals) {
        println!("\n{} pairs in the {mode} character mode", total.pairs);
        total.report();
    }
    if totals.iter().all(|total| total.differences == 0) { ExitCode::SUCCESS } else { ExitCode::FAILURE }
}
