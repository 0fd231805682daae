//! Whether the exports answer as the ported module does.

use crate::archive::{self, ACCENTS, CARDS, NAME, NODE, NODES, STRICT, Settings};
use oracle::answers::{Limits, Moment, is_full, records};
use oracle::hex;
use oracle::modes::{Module, Switched};
use std::fmt::{self, Debug, Display};

/// What a record or a buffer holds before a call, so that a number or byte that is left out shows.
const UNSET: i64 = -0x5a5a_5a5a_5a5a_5a5b;
const FILLER: u8 = 0xa5;

/// More bytes of nodes than any caller takes to write by.
const MORE: [u8; NODES + 1] = [0; NODES + 1];
/// The most bytes that the text of a full template has more than the template.
const LONGER: usize = 6;
/// The marks of a date that is set as a whole.
const WHOLE: i64 = 7;

pub struct Difference {
    export: &'static str,
    settings: Settings,
    wanted: String,
    found: String,
}

impl Display for Difference {
    fn fmt(&self, f: &mut fmt::Formatter) -> fmt::Result {
        let with = self.settings.map_or(String::new(), |settings| format!(" with settings {settings:#x}"));
        write!(f, "{}{with}: wanted {}, found {}", self.export, self.wanted, self.found)
    }
}

pub type Agreement<T> = Result<T, Difference>;

/// Who calls: its limits, whether it is strict, and the settings that say so. Those beside nodes may have any character
/// mode, since the nodes have their own.
#[derive(Clone, Copy)]
struct Caller {
    limits: Limits,
    strict: bool,
    settings: Settings,
    beside_nodes: Settings,
}

/// The exercise pages as they always called.
const PAGES: Caller = Caller { limits: Limits::PAGES, strict: false, settings: None, beside_nodes: None };

impl Caller {
    /// The exercise pages without settings, or with those of the new character mode alone; pages and flash cards with
    /// settings, lenient and strict. The bits besides mean nothing; the lowest of them chooses the mode beside nodes.
    fn all(bits: u32, accents: bool) -> [Caller; 5] {
        let mode = if accents { ACCENTS } else { 0 };
        let other = bits >> 3 & ACCENTS;
        let with = |limits, strict, settings: u32| {
            let settings = bits | mode | settings;
            Caller { limits, strict, settings: Some(settings), beside_nodes: Some(settings ^ other) }
        };
        [
            Caller { settings: accents.then_some(ACCENTS), ..PAGES },
            with(Limits::PAGES, false, 0),
            with(Limits::PAGES, true, STRICT),
            with(Limits::CARDS, false, CARDS),
            with(Limits::CARDS, true, STRICT | CARDS),
        ]
    }

    fn by_nodes(&self) -> Caller {
        Caller { settings: self.beside_nodes, ..*self }
    }

    fn same<T: PartialEq + Debug>(&self, export: &'static str, wanted: T, found: T) -> Agreement<()> {
        if wanted == found {
            return Ok(());
        }
        let (wanted, found) = (format!("{wanted:?}"), format!("{found:?}"));
        Err(Difference { export, settings: self.settings, wanted, found })
    }

    /// The record is filled as a whole, and its number is returned. Where a limit is passed, it is that of refusal 1.
    fn answered<const WORDS: usize>(
        &self, export: &'static str, within: bool, wanted: [i64; WORDS], call: impl FnOnce(&mut [i64; WORDS]) -> u8,
    ) -> Agreement<()> {
        let wanted = records::limited(within, wanted);
        let mut found = [UNSET; WORDS];
        let number = call(&mut found);
        self.same(export, (wanted[0], wanted), (number.into(), found))
    }

    /// The same of what is read, with the strict switch or without.
    fn read<const WORDS: usize>(
        &self, export: &'static str, within: bool, wanted: &Switched<WORDS>,
        call: impl FnOnce(Settings, &mut [i64; WORDS]) -> u8,
    ) -> Agreement<()> {
        let wanted = if self.strict { wanted.on } else { wanted.off };
        self.answered(export, within, wanted, |out| call(self.settings, out))
    }

    /// The same of a record and a buffer, which stays as it was where a limit is passed.
    fn written(
        &self, export: &'static str, within: bool, (wanted, text): (archive::Value, &[u8]),
        call: impl FnOnce(&mut [u8], &mut archive::Value) -> u8,
    ) -> Agreement<()> {
        let untouched = vec![FILLER; text.len()];
        let mut buffer = untouched.clone();
        self.answered(export, within, wanted, |out| call(&mut buffer, out))?;
        self.same(export, if within { text } else { &untouched }, &buffer)
    }
}

/// A template with its nodes, if it is accepted, and those who use it.
pub struct Template<'a> {
    module: &'static Module,
    text: &'a [u8],
    nodes: Option<archive::Nodes>,
    length: usize,
    callers: [Caller; 5],
}

impl Template<'_> {
    /// Compiled by each caller of a character mode. Those who accept the template get the same nodes.
    pub fn compiled<'a>(module: &'static Module, text: &'a [u8], bits: u32) -> Agreement<Template<'a>> {
        let callers = Caller::all(bits, module.accents);
        let count = (module.compiled)(text);
        let length = if count < 0 { count } else { count * NODE as i64 };
        let mut nodes = None;
        for caller in &callers {
            let wanted = if caller.limits.hold(text, &[]) { length } else { -1 };
            let mut found = [FILLER; NODES];
            caller.same("compile", wanted, archive::compile_with(caller.settings, text, &mut found))?;
            let wanted = if wanted < 0 { [FILLER; NODES] } else { *nodes.get_or_insert(found) };
            caller.same("compile", wanted, found)?;
        }
        let template = Template { module, text, nodes, length: length.max(0) as usize, callers };
        if let Some(nodes) = template.nodes() {
            PAGES.same("has_lone_mark", u8::from(template.has_lone_mark()), archive::has_lone_mark(nodes, text))?;
        }
        Ok(template)
    }

    /// Whether a mark counts alone, in the mode of the template.
    pub fn has_lone_mark(&self) -> bool {
        (self.module.has_lone_mark)(self.text)
    }

    /// Whether what is written must be read back: by a full template, in which no mark counts alone in the new mode.
    pub fn is_read_back(&self) -> bool {
        is_full(self.text) && !(self.module.accents && self.has_lone_mark())
    }

    pub fn nodes(&self) -> Option<&[u8]> {
        self.nodes.as_ref().map(|nodes| &nodes[..self.length])
    }
}

/// The numbers of the three answers that read: those of the pages, and those of the strict pages.
pub type Numbers = [[i64; 3]; 2];

/// What is read by a template from an input. By a compiled template only the input can be too long.
pub fn read(template: &Template, input: &[u8]) -> Agreement<Numbers> {
    let (text, module) = (template.text, template.module);
    let (parts, instant, date) =
        ((module.parts)(text, input), (module.instant)(text, input), (module.date)(text, input));
    for caller in &template.callers {
        let within = caller.limits.hold(text, input);
        caller.read("parts", within, &parts, |with, out| archive::parts_with(with, text, input, out))?;
        caller.read("instant", within, &instant, |with, out| archive::instant_with(with, text, input, out))?;
        caller.read("date", within, &date, |with, out| archive::date_with(with, text, input, out))?;
        let Some(nodes) = template.nodes() else { continue };
        let caller = caller.by_nodes();
        let within = caller.limits.hold(&[], input);
        caller.read("parts_by", within, &parts, |with, out| archive::parts_by_with(with, nodes, text, input, out))?;
        caller.read("instant_by", within, &instant, |with, out| {
            archive::instant_by_with(with, nodes, text, input, out)
        })?;
        caller.read("date_by", within, &date, |with, out| archive::date_by_with(with, nodes, text, input, out))?;
    }
    Ok([[parts.off[0], instant.off[0], date.off[0]], [parts.on[0], instant.on[0], date.on[0]]])
}

/// What is written by a template for a moment, into a buffer of `room` bytes: the number and the text. After the
/// text the buffer is as it was. Of a compiled template the nodes have a limit, in place of the text.
pub fn write(template: &Template, moment: &Moment, room: usize) -> Agreement<(i64, String)> {
    let (record, text) = (template.module.written)(template.text, moment, room);
    let mut buffer = vec![FILLER; room];
    buffer[..text.len()].copy_from_slice(text.as_bytes());
    let wanted = (record, buffer.as_slice());
    for caller in &template.callers {
        let within = caller.limits.hold(template.text, &[]);
        caller.written("write", within, wanted, |into, out| {
            archive::write_with(caller.settings, template.text, moment, into, out)
        })?;
        let Some(nodes) = template.nodes() else { continue };
        let caller = caller.by_nodes();
        let most = NODE * caller.limits.template;
        for (nodes, within) in [(nodes, nodes.len() <= most), (&MORE[..=most], false)] {
            caller.written("write_by", within, wanted, |into, out| {
                archive::write_by_with(caller.settings, nodes, template.text, moment, into, out)
            })?;
        }
    }
    Ok((record[0], text))
}

/// The text that a full template writes is read as its moment, all of its date set, by each caller that takes the
/// template.
pub fn read_back(template: &Template, moment: &Moment, text: &str) -> Agreement<()> {
    PAGES.same("write", text.len().min(template.text.len() + LONGER), text.len())?;
    for caller in template.callers.iter().filter(|caller| caller.limits.hold(template.text, &[])) {
        let mut found = [UNSET; 15];
        archive::parts_with(caller.settings, template.text, text.as_bytes(), &mut found);
        let numbers: Vec<i64> = moment.iter().map(|number| i64::from(*number)).collect();
        caller.same("parts", (0, &numbers[..], WHOLE), (found[0], &found[4..11], found[14]))?;
    }
    Ok(())
}

/// The names of the patterns, and none after the last.
pub fn patterns() -> Agreement<()> {
    for place in 0..=u8::MAX {
        let wanted = records::pattern(place).as_bytes();
        let mut padded = [0; NAME];
        padded[..wanted.len()].copy_from_slice(wanted);
        let mut name = [FILLER; NAME];
        let length = archive::pattern(place, &mut name);
        PAGES.same("pattern", (wanted.len(), padded), (length, name))?;
    }
    Ok(())
}

/// What a difference was found on, in hexadecimal digits.
#[derive(Clone, Copy)]
pub enum Case<'a> {
    Reading { template: &'a [u8], input: &'a [u8] },
    Writing { template: &'a [u8], moment: &'a Moment },
}

impl Display for Case<'_> {
    fn fmt(&self, f: &mut fmt::Formatter) -> fmt::Result {
        match self {
            Case::Reading { template, input } => {
                write!(f, "template {} input {}", hex::encode(template), hex::encode(input))
            }
            Case::Writing { template, moment } => write!(f, "template {} moment {moment:?}", hex::encode(template)),
        }
    }
}
