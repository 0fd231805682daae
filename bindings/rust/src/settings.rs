use crate::{INPUT_LIMIT, TEMPLATE_LIMIT};
use sorbilgan_sys::{ACCENTS, CARDS, STRICT};

/// What a caller sets for its templates: whether they have the limits of the exercise pages or of the flash cards,
/// whether they are strict, for exercises without a year, and whether they count a letter with its accents as one
/// character, for languages with accents.
///
/// [`Template::compile_with`](crate::Template::compile_with) takes them, and all else has the default, that of the
/// exercise pages, not strict, each character counted. Within the smaller limits pages and cards get the same answers:
///
/// ```
/// use sorbilgan::{Cause, Settings, Template};
///
/// let page = Template::compile("DD.MM.YYYY")?;
/// let card = Template::compile_with("DD.MM.YYYY", Settings::new().cards(true))?;
/// assert_eq!(page.date("29.02.2024"), Ok(19_782));
/// assert_eq!(card.date("29.02.2024"), Ok(19_782));
///
/// let long = format!("{:97}", "29.02.2024");
/// assert_eq!(page.date(&long), Ok(19_782));
/// assert_eq!(card.date(&long).unwrap_err().cause(), Cause::TooLong);
/// # Ok::<(), sorbilgan::Refusal>(())
/// ```
///
/// By default a month's length is tested only where year, month and day are all set. A strict template also refuses a
/// day that its month never has:
///
/// ```
/// use sorbilgan::{Cause, Settings, Template};
///
/// let lenient = Template::compile("DD.MM")?;
/// let strict = Template::compile_with("DD.MM", Settings::new().strict(true))?;
/// assert_eq!(lenient.read("30.02")?.day, 30);
/// assert_eq!(strict.read("30.02").unwrap_err().cause(), Cause::NoSuchDay);
///
/// assert_eq!(lenient.read("29.02")?.day, 29);
/// assert_eq!(strict.read("29.02")?.day, 29);
/// # Ok::<(), sorbilgan::Refusal>(())
/// ```
///
/// By default each character counts, and a letter with accents may be typed as one character or as several. With
/// [`Settings::accents`] they count as one:
///
/// ```
/// use sorbilgan::{Cause, Settings, Template};
///
/// let each = Template::compile(r#""ngày"DD"#)?;
/// let accents = Template::compile_with(r#""ngày"DD"#, Settings::new().accents(true))?;
/// assert_eq!(each.read("nga\u{300}y05").unwrap_err().cause(), Cause::NotInteger);
/// assert_eq!(accents.read("nga\u{300}y05")?.day, 5);
///
/// assert_eq!(each.read("ngày05")?.day, 5);
/// assert_eq!(accents.read("ngày05")?.day, 5);
/// # Ok::<(), sorbilgan::Refusal>(())
/// ```
///
/// Later versions may have more settings, so they are made by [`Settings::new`] and the methods that set one of them.
#[derive(Debug, Clone, Copy, PartialEq, Eq, PartialOrd, Ord, Hash, Default)]
#[cfg_attr(feature = "serde", derive(serde::Serialize, serde::Deserialize), serde(default))]
#[non_exhaustive]
pub struct Settings {
    cards: bool,
    strict: bool,
    accents: bool,
}

impl Settings {
    /// The default settings, those of the exercise pages, not strict, each character counted.
    ///
    /// ```
    /// use sorbilgan::{Settings, Template};
    ///
    /// assert_eq!(Settings::new(), Settings::default());
    /// assert_eq!(Template::compile("YYYY")?.settings(), Settings::new());
    /// # Ok::<(), sorbilgan::Refusal>(())
    /// ```
    #[must_use]
    pub const fn new() -> Settings {
        Settings { cards: false, strict: false, accents: false }
    }

    /// Sets whether the limits are those of the flash cards: 64 bytes of a template and 96 of an input.
    ///
    /// ```
    /// use sorbilgan::Settings;
    ///
    /// const CARDS: Settings = Settings::new().cards(true);
    /// assert_eq!((CARDS.template_limit(), CARDS.input_limit()), (64, 96));
    /// assert_eq!(CARDS.cards(false), Settings::new());
    /// ```
    #[must_use]
    pub const fn cards(self, cards: bool) -> Settings {
        Settings { cards, ..self }
    }

    /// Sets whether reading is strict: where month and day are set and the year is not, a day that its month never has
    /// is refused with [`Cause::NoSuchDay`](crate::Cause::NoSuchDay). The 29th of February is accepted. Nothing else
    /// differs, and nothing in writing.
    ///
    /// ```
    /// use sorbilgan::{Cause, Settings, Template};
    ///
    /// const STRICT: Settings = Settings::new().strict(true);
    /// assert_eq!(STRICT.strict(false), Settings::new());
    ///
    /// let card = Template::compile_with("DD.MM", STRICT.cards(true))?;
    /// assert!(card.read("29.02").is_ok());
    /// assert_eq!(card.read("31.04").unwrap_err().cause(), Cause::NoSuchDay);
    /// assert_eq!(card.read(" ".repeat(97)).unwrap_err().cause(), Cause::TooLong);
    /// # Ok::<(), sorbilgan::Refusal>(())
    /// ```
    #[must_use]
    pub const fn strict(self, strict: bool) -> Settings {
        Settings { strict, ..self }
    }

    /// Sets whether a letter and all accent marks right after it, U+0300 to U+036F, count as one character, in the
    /// literals of the template and in the input. A letter is an ASCII letter, or a character that is neither ASCII nor
    /// a mark. A mark after anything else counts alone; [`Template::has_lone_mark`](crate::Template::has_lone_mark)
    /// says whether one does in a template. Nothing else differs, and nothing in writing.
    ///
    /// ```
    /// use sorbilgan::{Settings, Template};
    ///
    /// const ACCENTS: Settings = Settings::new().accents(true);
    /// assert_eq!(ACCENTS.accents(false), Settings::new());
    ///
    /// let template = Template::compile_with(r#""thứ tư, "DD/MM"#, ACCENTS)?;
    /// for u in ["ứ", "ư\u{301}", "ú\u{31b}", "u\u{31b}\u{301}", "u\u{301}\u{31b}"] {
    ///     assert_eq!(template.read(format!("th{u} tư, 29/02"))?.day, 29);
    /// }
    /// # Ok::<(), sorbilgan::Refusal>(())
    /// ```
    #[must_use]
    pub const fn accents(self, accents: bool) -> Settings {
        Settings { accents, ..self }
    }

    /// The most bytes of a template: [`TEMPLATE_LIMIT`], or less.
    ///
    /// ```
    /// use sorbilgan::{Cause, Settings, Template};
    ///
    /// let cards = Settings::new().cards(true);
    /// assert!(Template::compile_with("-".repeat(cards.template_limit()), cards).is_ok());
    /// let refusal = Template::compile_with("-".repeat(cards.template_limit() + 1), cards).unwrap_err();
    /// assert_eq!(refusal.cause(), Cause::TooLong);
    /// ```
    #[must_use]
    pub const fn template_limit(self) -> usize {
        if self.cards {
            64
        } else {
            TEMPLATE_LIMIT
        }
    }

    /// The most bytes of an input, and of a text that [`Template::format`](crate::Template::format) gives:
    /// [`INPUT_LIMIT`], or less.
    ///
    /// ```
    /// use sorbilgan::{Cause, Settings, Template};
    ///
    /// let cards = Settings::new().cards(true);
    /// let template = Template::compile_with("YYYY", cards)?;
    /// let line = |length| format!("{:length$}", "2024");
    /// assert!(template.read(line(cards.input_limit())).is_ok());
    /// assert_eq!(template.read(line(cards.input_limit() + 1)).unwrap_err().cause(), Cause::TooLong);
    /// # Ok::<(), sorbilgan::Refusal>(())
    /// ```
    #[must_use]
    pub const fn input_limit(self) -> usize {
        if self.cards {
            96
        } else {
            INPUT_LIMIT
        }
    }

    /// The settings as the library takes them.
    pub(crate) const fn bits(self) -> u32 {
        let cards = if self.cards { CARDS } else { 0 };
        let strict = if self.strict { STRICT } else { 0 };
        let accents = if self.accents { ACCENTS } else { 0 };
        cards | strict | accents
    }
}
