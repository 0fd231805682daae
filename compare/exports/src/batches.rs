//! Random templates, each with the inputs that are read and the moments that are written by it.

use oracle::answers::{Limits, Moment, cut, numbers_of, records};
use oracle::random::{Random, all_bytes};
use oracle::{birthdays, moments, pairs, questions::templates, readings, strewn};

#[derive(Default)]
pub struct Batch {
    pub template: Vec<u8>,
    pub inputs: Vec<Vec<u8>>,
    pub moments: Vec<Moment>,
    /// Whether texts are also written where they only just fit, and where they do not.
    pub tight: bool,
    /// Bits of the settings that mean nothing.
    pub bits: u32,
}

/// The most lines of a template that has many.
const MANY: usize = 64;
/// The bits that never mean anything: 8 and above.
const IDLE: u32 = !7;
/// Characters of one to four bytes that make a text longer.
const FILLERS: [&str; 8] = [" ", "-", "x", "0", "à", "\u{301}", "ứ", "𝄞"];

impl Batch {
    /// Mostly one input or moment; now and then many, which are more than a third of all.
    pub fn new(random: &mut Random) -> Batch {
        let bits = if random.once_in(2) { 0 } else { random.next() as u32 & IDLE };
        let batch = match random.below(72) {
            0..=23 => Batch::read(pairs::line(random)),
            24..=31 => Batch::read(readings::line(random)),
            32..=37 => Batch::read(damaged(random)),
            38 => {
                let template = pairs::template(random);
                let inputs = (0..random.below(MANY)).map(|_| pairs::input(random, &template)).collect();
                Batch { template, inputs, moments: vec![moments::moment(random)], tight: true, ..Batch::default() }
            }
            39 => {
                let mut batch = Batch::written(moments::line(random));
                batch.moments.extend((0..random.below(MANY / 4)).map(|_| strained(random)));
                batch
            }
            40 => Batch { tight: true, ..Batch::written(moments::line(random)) },
            41..=47 => Batch::written(moments::line(random)),
            48..=51 => Batch::read(near_limits(random)),
            52..=69 => Batch::read(birthdays::line(random)),
            _ => {
                let batch = Batch::written(moments::line(random));
                Batch { template: near_template(random, batch.template), tight: random.once_in(8), ..batch }
            }
        };
        Batch { bits, ..batch }
    }

    /// The same with marks anywhere, in the template, in the inputs, or in both.
    pub fn strewn(&self, random: &mut Random) -> Batch {
        let which = random.below(3);
        let mut strewn =
            |text: &Vec<u8>, not: usize| if which == not { text.clone() } else { strewn::text(random, text) };
        let template = strewn(&self.template, 0);
        let inputs = self.inputs.iter().map(|input| strewn(input, 1)).collect();
        Batch { template, inputs, moments: self.moments.clone(), ..*self }
    }

    /// How many pairs of a template and an input or a moment these are.
    pub fn pairs(&self) -> u64 {
        (self.inputs.len() + self.moments.len()) as u64
    }

    fn read(line: Vec<u8>) -> Batch {
        let (template, input) = cut(&line);
        Batch { template: template.to_vec(), inputs: vec![input.to_vec()], ..Batch::default() }
    }

    fn written(line: Vec<u8>) -> Batch {
        let (template, moment) = cut(&line);
        let moment = numbers_of(moment).unwrap_or_default();
        Batch { template: template.to_vec(), moments: vec![moment], ..Batch::default() }
    }
}

/// A line of which the template or the input has pieces and bytes put in or taken out anywhere.
fn damaged(random: &mut Random) -> Vec<u8> {
    let mut line = if random.once_in(3) { birthdays::line(random) } else { pairs::line(random) };
    for _ in 0..=random.below(3) {
        let at = random.below(line.len() + 1);
        let end = at + random.below(line.len() - at + 1).min(random.below(6));
        let piece = match random.below(4) {
            0 => random.bytes(&all_bytes(), 4),
            1 => random.bytes(b"0123456789 -:.,\t\"\\", 6),
            2 => Vec::new(),
            _ => templates::piece(random),
        };
        line.splice(at..end, piece);
    }
    line
}

/// A line of which the template, the input or both are about as long as the flash cards' limits.
fn near_limits(random: &mut Random) -> Vec<u8> {
    let birthday = random.once_in(3).then(|| birthdays::line(random));
    let birthday = birthday.as_deref().map(cut);
    let mut template = birthday.map_or_else(|| pairs::template(random), |(template, _)| template.to_vec());
    let which = random.below(3);
    if which != 0 {
        template = near_template(random, template);
    }
    let mut input = birthday.map_or_else(|| pairs::input(random, &template), |(_, input)| input.to_vec());
    if which != 1 {
        let length = near(random, Limits::CARDS.input);
        input = resized(random, input, length);
    }
    [template, b"\t".to_vec(), input].concat()
}

/// A template about as long as the flash cards' limit, or with about as many nodes as it has bytes.
fn near_template(random: &mut Random, template: Vec<u8>) -> Vec<u8> {
    let wanted = near(random, Limits::CARDS.template);
    match usize::try_from(records::compiled(&template)) {
        Ok(nodes) if random.once_in(3) => {
            let filler = random.pick(&FILLERS).repeat(wanted.saturating_sub(nodes));
            with(random, template, filler.into())
        }
        _ => resized(random, template, wanted),
    }
}

/// A length near a limit, half of the time the limit or one more.
fn near(random: &mut Random, limit: usize) -> usize {
    let around = limit - 4 + random.below(11);
    random.pick(&[limit, limit + 1, around, around])
}

/// A text made so long: its end is cut off, or something is put in.
fn resized(random: &mut Random, mut text: Vec<u8>, length: usize) -> Vec<u8> {
    text.truncate(length);
    let missing = length - text.len();
    let filler = random.pick(&FILLERS);
    let mut put: Vec<u8> = filler.repeat(missing / filler.len()).into();
    put.resize(missing, b' ');
    with(random, text, put)
}

/// A text with something put in, mostly at its beginning or end.
fn with(random: &mut Random, mut text: Vec<u8>, put: Vec<u8>) -> Vec<u8> {
    let any = random.below(text.len() + 1);
    let at = random.pick(&[0, text.len(), text.len(), any]);
    text.splice(at..at, put);
    text
}

/// A moment, one of its numbers now and then any other.
fn strained(random: &mut Random) -> Moment {
    let mut moment = moments::moment(random);
    if random.once_in(3) {
        moment[random.below(7)] = (random.next() as i32) >> random.below(32);
    }
    moment
}
