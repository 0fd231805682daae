use crate::{ffi, once, Cause, Moment, Parts, Refusal, Settings};
use std::fmt;
use std::str::{self, FromStr};

/// A template, compiled: it reads and writes any number of texts.
///
/// It has its text and nodes on the heap, each as long as it is; reading and writing allocate nothing and copy
/// neither. Threads may share it.
///
/// ```
/// use sorbilgan::Template;
///
/// let template = Template::compile("DD Month YYYY")?;
/// let marked: Vec<bool> = ["29 February 2024", "29 Feb 2024", "30 February 2024"]
///     .iter()
///     .map(|line| template.read(line).is_ok())
///     .collect();
/// assert_eq!(marked, [true, false, false]);
/// # Ok::<(), sorbilgan::Refusal>(())
/// ```
///
/// A template that a program always has can be compiled at its first use, and kept:
///
/// ```
/// use sorbilgan::Template;
/// use std::sync::LazyLock;
///
/// static ISO: LazyLock<Template> = LazyLock::new(|| Template::compile("YYYY-MM-DD").expect("a short template"));
///
/// assert_eq!(ISO.date("2024-02-29"), Ok(19_782));
/// ```
///
/// Templates are equal, and ordered, by their texts and then their settings.
#[derive(Clone, PartialEq, Eq, PartialOrd, Ord, Hash)]
pub struct Template {
    // first: text and settings decide the nodes
    text: Box<str>,
    settings: Settings,
    nodes: Box<[u8]>,
}

impl Template {
    /// Compiles a template with the default settings, those of the exercise pages. Any text of at most
    /// [`TEMPLATE_LIMIT`](crate::TEMPLATE_LIMIT) bytes is one: what is no pattern is a literal.
    ///
    /// # Errors
    ///
    /// [`Cause::TooLong`] and [`Cause::NotUtf8`].
    ///
    /// ```
    /// use sorbilgan::{Cause, Template};
    ///
    /// assert!(Template::compile("YYYY-MM-DD").is_ok());
    /// assert_eq!(Template::compile(b"YYYY\xff").unwrap_err().cause(), Cause::NotUtf8);
    /// ```
    pub fn compile(template: impl AsRef<[u8]>) -> Result<Template, Refusal> {
        Template::compile_with(template, Settings::new())
    }

    /// Compiles a template with settings; it reads and writes with them.
    ///
    /// # Errors
    ///
    /// [`Cause::TooLong`], at the settings' own limit, and [`Cause::NotUtf8`].
    ///
    /// ```
    /// use sorbilgan::{Cause, Settings, Template};
    ///
    /// let cards = Settings::new().cards(true);
    /// assert_eq!(Template::compile_with("DD.MM.YYYY", cards)?.date("29.02.2024")?, 19_782);
    ///
    /// let long = r#""hôm nay là ngày "DD" tháng "MM" năm "YYYY", bây giờ là "HH24" giờ "MI"#;
    /// assert!(Template::compile(long).is_ok());
    /// assert_eq!(Template::compile_with(long, cards).unwrap_err().cause(), Cause::TooLong);
    /// # Ok::<(), sorbilgan::Refusal>(())
    /// ```
    pub fn compile_with(template: impl AsRef<[u8]>, settings: Settings) -> Result<Template, Refusal> {
        let template = template.as_ref();
        let nodes = ffi::compile(settings, template)?;
        let text = str::from_utf8(template).map_err(|_| Refusal::alone(Cause::NotUtf8))?;
        Ok(Template { text: text.into(), settings, nodes })
    }

    /// The text that it was compiled from.
    ///
    /// ```
    /// use sorbilgan::Template;
    ///
    /// assert_eq!(Template::compile("YYYY-MM-DD")?.as_str(), "YYYY-MM-DD");
    /// # Ok::<(), sorbilgan::Refusal>(())
    /// ```
    #[must_use]
    pub fn as_str(&self) -> &str {
        &self.text
    }

    /// The settings that it was compiled with.
    ///
    /// ```
    /// use sorbilgan::{Settings, Template};
    ///
    /// let cards = Settings::new().cards(true);
    /// assert_eq!(Template::compile_with("YYYY-MM-DD", cards)?.settings(), cards);
    /// # Ok::<(), sorbilgan::Refusal>(())
    /// ```
    #[must_use]
    pub const fn settings(&self) -> Settings {
        self.settings
    }

    /// Whether an accent mark, U+0300 to U+036F, counts alone in the literals of the template. This is for authors:
    /// with [`Settings::accents`], what a full template writes is read back as its moment where this is false. Without
    /// that setting every mark counts alone, and all that a full template writes is read back.
    ///
    /// A mark counts alone if it is not right after a letter or after the marks of one. A quote between them is enough:
    ///
    /// ```
    /// use sorbilgan::{Moment, Settings, Template};
    ///
    /// let accents = Settings::new().accents(true);
    /// assert!(!Template::compile_with("Mon\"a\u{301}\"YYYY", accents)?.has_lone_mark());
    ///
    /// let template = Template::compile_with("Mon\"a\"\u{301}YYYY", accents)?;
    /// assert!(template.has_lone_mark());
    /// let text = template.format(&Moment::midnight(2024, 1, 1))?;
    /// assert_eq!(text, "Jana\u{301}2024");
    /// // in the text the mark is right after the letter, so the template's mark takes the first digit of the year
    /// assert_eq!(template.read(text)?.year, 24);
    /// # Ok::<(), sorbilgan::Refusal>(())
    /// ```
    #[must_use]
    pub fn has_lone_mark(&self) -> bool {
        ffi::has_lone_mark(&self.nodes, self.text.as_bytes())
    }

    /// Reads the parts of an input.
    ///
    /// # Errors
    ///
    /// The causes 1 to 16; with [`Settings::strict`] also 25.
    ///
    /// ```
    /// use sorbilgan::{Cause, Template};
    ///
    /// let template = Template::compile("HH24:MI")?;
    /// assert_eq!(template.read("21:05")?.hour, 21);
    /// assert_eq!(template.read("25:05").unwrap_err().cause(), Cause::FieldOverflow);
    /// assert_eq!(template.read(b"21\xff05").unwrap_err().cause(), Cause::NotUtf8);
    /// # Ok::<(), sorbilgan::Refusal>(())
    /// ```
    pub fn read(&self, input: impl AsRef<[u8]>) -> Result<Parts, Refusal> {
        self.answer(&ffi::PARTS, input.as_ref()).map(Parts::answered)
    }

    /// Reads the instant of an input: microseconds since 1970-01-01 UTC, negative before. An input without an offset is
    /// read as UTC. [`system_time`](crate::system_time) turns it into a [`SystemTime`](std::time::SystemTime).
    ///
    /// # Errors
    ///
    /// The causes 1 to 17; with [`Settings::strict`] also 25.
    ///
    /// ```
    /// use sorbilgan::{system_time, Template};
    /// use std::time::SystemTime;
    ///
    /// let template = Template::compile("YYYY-MM-DD HH24:MI TZH")?;
    /// let micros = template.instant("2024-02-29 21:05 +07")?;
    /// assert_eq!(micros, 1_709_215_500_000_000);
    /// assert!(system_time(micros) < SystemTime::now());
    /// # Ok::<(), sorbilgan::Refusal>(())
    /// ```
    pub fn instant(&self, input: impl AsRef<[u8]>) -> Result<i64, Refusal> {
        self.answer(&ffi::INSTANT, input.as_ref()).map(|answer| answer.value)
    }

    /// Reads the date of an input: days since 1970-01-01.
    ///
    /// # Errors
    ///
    /// The causes 1 to 16, and 18; with [`Settings::strict`] also 25.
    ///
    /// ```
    /// use sorbilgan::Template;
    ///
    /// let template = Template::compile("IYYY-IW-ID")?;
    /// assert_eq!(template.date("2024-09-4")?, 19_782);
    /// # Ok::<(), sorbilgan::Refusal>(())
    /// ```
    pub fn date(&self, input: impl AsRef<[u8]>) -> Result<i32, Refusal> {
        self.answer(&ffi::DATE, input.as_ref()).map(|answer| answer.value as i32)
    }

    fn answer<A: ffi::Answer>(&self, reader: &ffi::Reader<A>, input: &[u8]) -> Result<A, Refusal> {
        reader.by_nodes(self.settings, &self.nodes, self.text.as_bytes(), input)
    }

    /// Writes a moment to the front of a buffer and answers the length of the text. The bytes after it stay as they
    /// were. Numbers have a fixed width, and a marker (`AM`, `a.m.`) and the name of a month (`FMMonth`, `MON`) are in
    /// the case of their pattern.
    ///
    /// # Errors
    ///
    /// The causes 19 to 21, in this order; the buffer then stays as it was as a whole.
    ///
    /// ```
    /// use sorbilgan::{Moment, Template};
    ///
    /// let template = Template::compile("YYYY-MM-DD")?;
    /// let mut buffer = [b'.'; 12];
    /// let length = template.write(&Moment::midnight(2024, 2, 29), &mut buffer)?;
    /// assert_eq!((length, &buffer), (10, b"2024-02-29.."));
    ///
    /// let refusal = template.write(&Moment::midnight(2024, 2, 29), &mut [0; 9]).unwrap_err();
    /// assert_eq!(refusal.to_string(), "the text needs 10 bytes");
    /// # Ok::<(), sorbilgan::Refusal>(())
    /// ```
    pub fn write(&self, moment: &Moment, text: &mut [u8]) -> Result<usize, Refusal> {
        ffi::write_by(self.settings, &self.nodes, self.text.as_bytes(), moment, text)
    }

    /// The text of a moment. One over the settings' [`input_limit`](Settings::input_limit), which could not be read
    /// back, is refused; [`Template::write`] has no such limit.
    ///
    /// # Errors
    ///
    /// The causes 19 to 21, in this order.
    ///
    /// ```
    /// use sorbilgan::{Moment, Template};
    ///
    /// let moment = Moment::midnight(2024, 2, 29);
    /// assert_eq!(Template::compile("DD/MM/YYYY")?.format(&moment)?, "29/02/2024");
    /// assert_eq!(Template::compile("DD FMMonth YYYY")?.format(&moment)?, "29 February 2024");
    ///
    /// let evening = Moment { hour: 21, minute: 5, ..moment };
    /// assert_eq!(Template::compile("HH12:MI am")?.format(&evening)?, "09:05 pm");
    /// assert_eq!(Template::compile("HH12:MI A.M.")?.format(&evening)?, "09:05 P.M.");
    ///
    /// let refusal = Template::compile("DD Month YYYY")?.format(&moment).unwrap_err();
    /// assert_eq!(refusal.pattern(), Some("Month"));
    /// # Ok::<(), sorbilgan::Refusal>(())
    /// ```
    pub fn format(&self, moment: &Moment) -> Result<String, Refusal> {
        once::text_of(self.settings.input_limit(), |text| self.write(moment, text))
    }
}

/// The text that it was compiled from.
///
/// ```
/// let template = sorbilgan::Template::compile("HH24:MI")?;
/// assert_eq!(AsRef::<str>::as_ref(&template), "HH24:MI");
/// # Ok::<(), sorbilgan::Refusal>(())
/// ```
impl AsRef<str> for Template {
    fn as_ref(&self) -> &str {
        &self.text
    }
}

/// As [`Template::compile`].
///
/// ```
/// use sorbilgan::Template;
///
/// let template: Template = "YYYY-MM-DD".parse()?;
/// assert_eq!(template.as_str(), "YYYY-MM-DD");
/// # Ok::<(), sorbilgan::Refusal>(())
/// ```
impl FromStr for Template {
    type Err = Refusal;

    fn from_str(template: &str) -> Result<Template, Refusal> {
        Template::compile(template)
    }
}

/// The text that it was compiled from.
///
/// ```
/// assert_eq!(sorbilgan::Template::compile("HH24:MI")?.to_string(), "HH24:MI");
/// # Ok::<(), sorbilgan::Refusal>(())
/// ```
impl fmt::Display for Template {
    fn fmt(&self, f: &mut fmt::Formatter<'_>) -> fmt::Result {
        self.text.fmt(f)
    }
}

/// The text, and the settings where they are not the default.
impl fmt::Debug for Template {
    fn fmt(&self, f: &mut fmt::Formatter<'_>) -> fmt::Result {
        let mut shown = f.debug_tuple("Template");
        shown.field(&self.text);
        if self.settings != Settings::new() {
            shown.field(&self.settings);
        }
        shown.finish()
    }
}
