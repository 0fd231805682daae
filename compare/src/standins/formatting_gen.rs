//! The vocabulary of date templates: facts of PostgreSQL's formatting.c. Number templates are left out, their tables
//! are empty.

// PostgreSQL tells the patterns am and AM apart by case alone.
#![allow(non_upper_case_globals)]

/// A pattern: its name, what the module reads or writes for it, whether it reads digits, and its date convention.
pub struct FmtKeyword {
    pub name: &'static str,
    pub id: u8,
    pub is_digit: bool,
    pub date_mode: u8,
}

/// What comes before a pattern (`prefix`) or after it.
pub struct FmtSuffix {
    pub name: &'static str,
    pub flag: u8,
    pub prefix: bool,
}

pub const MODE_NONE: u8 = 0;
pub const MODE_GREGORIAN: u8 = 1;
pub const MODE_ISOWEEK: u8 = 2;

pub const SUFFIX_FM: u8 = 1;
pub const SUFFIX_TH: u8 = 2;
pub const SUFFIX_th: u8 = 4;
pub const SUFFIX_SP: u8 = 8;
pub const SUFFIX_TM: u8 = 16;

/// Numbers the identities from 0 in the order given.
macro_rules! identities {
    ($($id:ident)*) => {
        #[allow(non_camel_case_types, clippy::upper_case_acronyms)]
        enum Identity { $($id),* }
        $(pub const $id: u8 = Identity::$id as u8;)*
    };
}

// DCH_FF1 to DCH_FF6 follow one another: the module counts from the first.
identities! {
    DCH_A_D DCH_A_M DCH_AD DCH_AM DCH_B_C DCH_BC DCH_CC DCH_DAY DCH_DDD DCH_DD DCH_DY DCH_Day DCH_Dy
    DCH_D DCH_FF1 DCH_FF2 DCH_FF3 DCH_FF4 DCH_FF5 DCH_FF6 DCH_FX DCH_HH24 DCH_HH12 DCH_HH DCH_IDDD
    DCH_ID DCH_IW DCH_IYYY DCH_IYY DCH_IY DCH_I DCH_J DCH_MI DCH_MM DCH_MONTH DCH_MON DCH_MS
    DCH_Month DCH_Mon DCH_OF DCH_P_M DCH_PM DCH_Q DCH_RM DCH_SSSS DCH_SS DCH_TZH DCH_TZM DCH_TZ
    DCH_US DCH_WW DCH_W DCH_Y_YYY DCH_YYYY DCH_YYY DCH_YY DCH_Y DCH_a_d DCH_a_m DCH_ad DCH_am
    DCH_b_c DCH_bc DCH_day DCH_dy DCH_month DCH_mon DCH_p_m DCH_pm DCH_rm DCH_tz
}

const fn pattern(name: &'static str, id: u8, is_digit: bool, date_mode: u8) -> FmtKeyword {
    FmtKeyword { name, id, is_digit, date_mode }
}

/// The patterns in the order of the search: a longer name before its own prefix.
pub static DCH_KEYWORDS: &[FmtKeyword] = &[
    pattern("A.D.", DCH_A_D, false, MODE_NONE),
    pattern("A.M.", DCH_A_M, false, MODE_NONE),
    pattern("AD", DCH_AD, false, MODE_NONE),
    pattern("AM", DCH_AM, false, MODE_NONE),
    pattern("B.C.", DCH_B_C, false, MODE_NONE),
    pattern("BC", DCH_BC, false, MODE_NONE),
    pattern("CC", DCH_CC, true, MODE_NONE),
    pattern("DAY", DCH_DAY, false, MODE_NONE),
    pattern("DDD", DCH_DDD, true, MODE_GREGORIAN),
    pattern("DD", DCH_DD, true, MODE_GREGORIAN),
    pattern("DY", DCH_DY, false, MODE_NONE),
    pattern("Day", DCH_Day, false, MODE_NONE),
    pattern("Dy", DCH_Dy, false, MODE_NONE),
    pattern("D", DCH_D, true, MODE_GREGORIAN),
    pattern("FF1", DCH_FF1, true, MODE_NONE),
    pattern("FF2", DCH_FF2, true, MODE_NONE),
    pattern("FF3", DCH_FF3, true, MODE_NONE),
    pattern("FF4", DCH_FF4, true, MODE_NONE),
    pattern("FF5", DCH_FF5, true, MODE_NONE),
    pattern("FF6", DCH_FF6, true, MODE_NONE),
    pattern("FX", DCH_FX, false, MODE_NONE),
    pattern("HH24", DCH_HH24, true, MODE_NONE),
    pattern("HH12", DCH_HH12, true, MODE_NONE),
    pattern("HH", DCH_HH, true, MODE_NONE),
    pattern("IDDD", DCH_IDDD, true, MODE_ISOWEEK),
    pattern("ID", DCH_ID, true, MODE_ISOWEEK),
    pattern("IW", DCH_IW, true, MODE_ISOWEEK),
    pattern("IYYY", DCH_IYYY, true, MODE_ISOWEEK),
    pattern("IYY", DCH_IYY, true, MODE_ISOWEEK),
    pattern("IY", DCH_IY, true, MODE_ISOWEEK),
    pattern("I", DCH_I, true, MODE_ISOWEEK),
    pattern("J", DCH_J, true, MODE_NONE),
    pattern("MI", DCH_MI, true, MODE_NONE),
    pattern("MM", DCH_MM, true, MODE_GREGORIAN),
    pattern("MONTH", DCH_MONTH, false, MODE_GREGORIAN),
    pattern("MON", DCH_MON, false, MODE_GREGORIAN),
    pattern("MS", DCH_MS, true, MODE_NONE),
    pattern("Month", DCH_Month, false, MODE_GREGORIAN),
    pattern("Mon", DCH_Mon, false, MODE_GREGORIAN),
    pattern("OF", DCH_OF, false, MODE_NONE),
    pattern("P.M.", DCH_P_M, false, MODE_NONE),
    pattern("PM", DCH_PM, false, MODE_NONE),
    pattern("Q", DCH_Q, true, MODE_NONE),
    pattern("RM", DCH_RM, false, MODE_GREGORIAN),
    pattern("SSSSS", DCH_SSSS, true, MODE_NONE),
    pattern("SSSS", DCH_SSSS, true, MODE_NONE),
    pattern("SS", DCH_SS, true, MODE_NONE),
    pattern("TZH", DCH_TZH, false, MODE_NONE),
    pattern("TZM", DCH_TZM, true, MODE_NONE),
    pattern("TZ", DCH_TZ, false, MODE_NONE),
    pattern("US", DCH_US, true, MODE_NONE),
    pattern("WW", DCH_WW, true, MODE_GREGORIAN),
    pattern("W", DCH_W, true, MODE_GREGORIAN),
    pattern("Y,YYY", DCH_Y_YYY, true, MODE_GREGORIAN),
    pattern("YYYY", DCH_YYYY, true, MODE_GREGORIAN),
    pattern("YYY", DCH_YYY, true, MODE_GREGORIAN),
    pattern("YY", DCH_YY, true, MODE_GREGORIAN),
    pattern("Y", DCH_Y, true, MODE_GREGORIAN),
    pattern("a.d.", DCH_a_d, false, MODE_NONE),
    pattern("a.m.", DCH_a_m, false, MODE_NONE),
    pattern("ad", DCH_ad, false, MODE_NONE),
    pattern("am", DCH_am, false, MODE_NONE),
    pattern("b.c.", DCH_b_c, false, MODE_NONE),
    pattern("bc", DCH_bc, false, MODE_NONE),
    pattern("cc", DCH_CC, true, MODE_NONE),
    pattern("day", DCH_day, false, MODE_NONE),
    pattern("ddd", DCH_DDD, true, MODE_GREGORIAN),
    pattern("dd", DCH_DD, true, MODE_GREGORIAN),
    pattern("dy", DCH_dy, false, MODE_NONE),
    pattern("d", DCH_D, true, MODE_GREGORIAN),
    pattern("ff1", DCH_FF1, true, MODE_NONE),
    pattern("ff2", DCH_FF2, true, MODE_NONE),
    pattern("ff3", DCH_FF3, true, MODE_NONE),
    pattern("ff4", DCH_FF4, true, MODE_NONE),
    pattern("ff5", DCH_FF5, true, MODE_NONE),
    pattern("ff6", DCH_FF6, true, MODE_NONE),
    pattern("fx", DCH_FX, false, MODE_NONE),
    pattern("hh24", DCH_HH24, true, MODE_NONE),
    pattern("hh12", DCH_HH12, true, MODE_NONE),
    pattern("hh", DCH_HH, true, MODE_NONE),
    pattern("iddd", DCH_IDDD, true, MODE_ISOWEEK),
    pattern("id", DCH_ID, true, MODE_ISOWEEK),
    pattern("iw", DCH_IW, true, MODE_ISOWEEK),
    pattern("iyyy", DCH_IYYY, true, MODE_ISOWEEK),
    pattern("iyy", DCH_IYY, true, MODE_ISOWEEK),
    pattern("iy", DCH_IY, true, MODE_ISOWEEK),
    pattern("i", DCH_I, true, MODE_ISOWEEK),
    pattern("j", DCH_J, true, MODE_NONE),
    pattern("mi", DCH_MI, true, MODE_NONE),
    pattern("mm", DCH_MM, true, MODE_GREGORIAN),
    pattern("month", DCH_month, false, MODE_GREGORIAN),
    pattern("mon", DCH_mon, false, MODE_GREGORIAN),
    pattern("ms", DCH_MS, true, MODE_NONE),
    pattern("of", DCH_OF, false, MODE_NONE),
    pattern("p.m.", DCH_p_m, false, MODE_NONE),
    pattern("pm", DCH_pm, false, MODE_NONE),
    pattern("q", DCH_Q, true, MODE_NONE),
    pattern("rm", DCH_rm, false, MODE_GREGORIAN),
    pattern("sssss", DCH_SSSS, true, MODE_NONE),
    pattern("ssss", DCH_SSSS, true, MODE_NONE),
    pattern("ss", DCH_SS, true, MODE_NONE),
    pattern("tzh", DCH_TZH, false, MODE_NONE),
    pattern("tzm", DCH_TZM, true, MODE_NONE),
    pattern("tz", DCH_tz, false, MODE_NONE),
    pattern("us", DCH_US, true, MODE_NONE),
    pattern("ww", DCH_WW, true, MODE_GREGORIAN),
    pattern("w", DCH_W, true, MODE_GREGORIAN),
    pattern("y,yyy", DCH_Y_YYY, true, MODE_GREGORIAN),
    pattern("yyyy", DCH_YYYY, true, MODE_GREGORIAN),
    pattern("yyy", DCH_YYY, true, MODE_GREGORIAN),
    pattern("yy", DCH_YY, true, MODE_GREGORIAN),
    pattern("y", DCH_Y, true, MODE_GREGORIAN),
];

/// For each first byte the place of its first pattern, or -1.
pub static DCH_INDEX: [i16; 128] = {
    let mut index = [-1; 128];
    let mut place = DCH_KEYWORDS.len();
    while place > 0 {
        place -= 1;
        index[DCH_KEYWORDS[place].name.as_bytes()[0] as usize] = place as i16;
    }
    index
};

pub static NUM_KEYWORDS: &[FmtKeyword] = &[];
pub static NUM_INDEX: [i16; 128] = [-1; 128];

const fn suffix(name: &'static str, flag: u8, prefix: bool) -> FmtSuffix {
    FmtSuffix { name, flag, prefix }
}

pub static DCH_SUFFIXES: &[FmtSuffix] = &[
    suffix("FM", SUFFIX_FM, true),
    suffix("fm", SUFFIX_FM, true),
    suffix("TM", SUFFIX_TM, true),
    suffix("tm", SUFFIX_TM, true),
    suffix("TH", SUFFIX_TH, false),
    suffix("th", SUFFIX_th, false),
    suffix("SP", SUFFIX_SP, false),
];

// In a list of eras or halves of the day the odd places are BC or PM.
pub static WORDS_ADBC: [&str; 4] = ["ad", "bc", "AD", "BC"];
pub static WORDS_ADBC_LONG: [&str; 4] = ["a.d.", "b.c.", "A.D.", "B.C."];
pub static WORDS_AMPM: [&str; 4] = ["am", "pm", "AM", "PM"];
pub static WORDS_AMPM_LONG: [&str; 4] = ["a.m.", "p.m.", "A.M.", "P.M."];

pub static WORDS_MONTHS_FULL: [&str; 12] = [
    "January", "February", "March", "April", "May", "June", "July", "August", "September", "October", "November",
    "December",
];
pub static WORDS_MONTHS_ABBREV: [&str; 12] =
    ["Jan", "Feb", "Mar", "Apr", "May", "Jun", "Jul", "Aug", "Sep", "Oct", "Nov", "Dec"];
pub static WORDS_DAYS_FULL: [&str; 7] = ["Sunday", "Monday", "Tuesday", "Wednesday", "Thursday", "Friday", "Saturday"];
pub static WORDS_DAYS_ABBREV: [&str; 7] = ["Sun", "Mon", "Tue", "Wed", "Thu", "Fri", "Sat"];

// December first, so that no numeral comes before a longer one that it begins.
pub static WORDS_RM_MONTHS_UPPER: [&str; 12] =
    ["XII", "XI", "X", "IX", "VIII", "VII", "VI", "V", "IV", "III", "II", "I"];
pub static WORDS_RM_MONTHS_LOWER: [&str; 12] =
    ["xii", "xi", "x", "ix", "viii", "vii", "vi", "v", "iv", "iii", "ii", "i"];

pub static WORDS_ORDINAL_UPPER: [&str; 4] = ["ST", "ND", "RD", "TH"];
pub static WORDS_ORDINAL_LOWER: [&str; 4] = ["st", "nd", "rd", "th"];
