//! Lines "template TAB moment" of which the answer is known: the list of moments begins with them.

type Known = (&'static str, &'static str, &'static str);

const NOW: &str = "2024 2 29 15 4 5 6";
const MARKERS: &str = "HH12:MI AM PM A.M. P.M. am pm a.m. p.m.";
const NAMES: &str = "FMMonth fmMonth FMmonth fmmonth FMMONTH fmMONTH Mon mon MON";
const TOO_LONG: &str = "1 - 0 0";
const NOT_UTF8: &str = "2 - 0 0";
const NO_MOMENT: &str = "20 - 0 0";

const WRITTEN: &[Known] = &[
    ("YYYY-MM-DD\"T\"HH24:MI:SS.US", NOW, "0 2024-02-29T15:04:05.000006"),
    ("yyyy-mm-dd hh24:mi:ss.us", NOW, "0 2024-02-29 15:04:05.000006"),
    ("YYYYMMDDHH24MISSUS", NOW, "0 20240229150405000006"),
    ("USSSMIHH24DDMMYYYY", NOW, "0 00000605041529022024"),
    ("YYYY DDD SSSSS US", NOW, "0 2024 060 54245 000006"),
    ("IYYY-\"W\"IW-ID HH12:MI:SS.US PM", NOW, "0 2024-W09-4 03:04:05.000006 PM"),
    (
        "\"ngày \"DD\" tháng \"MM\" năm \"YYYY\", \"HH24\" giờ \"MI\" phút \"SS\",\"US\" giây\"",
        NOW,
        "0 ngày 29 tháng 02 năm 2024, 15 giờ 04 phút 05,000006 giây",
    ),
    ("HH:MI:SS.US am DD.MM.YYYY", NOW, "0 03:04:05.000006 pm 29.02.2024"),
    ("HH:MI:SS.US p.m. DD.MM.YYYY", NOW, "0 03:04:05.000006 p.m. 29.02.2024"),
    ("HH:MI:SS.US P.M. DDD/YYYY", "1 1 1 0 0 0 0", "0 12:00:00.000000 A.M. 001/0001"),
    ("hh12:mi:ss.us AM ddd/yyyy", "9999 12 31 12 59 59 999999", "0 12:59:59.999999 PM 365/9999"),
    ("SSSSS.US YYYY DDD", "2024 12 31 0 0 0 0", "0 00000.000000 2024 366"),
    ("sssss.us yyyy ddd", "2023 12 31 23 59 59 999999", "0 86399.999999 2023 365"),
    ("IYYY-IW-ID SSSSS US", "2021 1 3 0 0 9 0", "0 2020-53-7 00009 000000"),
    ("IYYY-IW-ID SSSSS US", "2021 1 4 0 0 10 0", "0 2021-01-1 00010 000000"),
    ("IYYY-IW-ID SSSSS US", "2018 12 31 0 1 40 0", "0 2019-01-1 00100 000000"),
    ("IYYY-IW-ID SSSSS US", "1 1 1 0 16 40 0", "0 0001-01-1 01000 000000"),
    ("IYYY-IW-ID SSSSS US", "9999 12 31 2 46 40 0", "0 9999-52-5 10000 000000"),
    ("\"a\\\"b\\\\\"YYYYFM-DDDtm\"\"SSSSS\\\"US\"", NOW, "0 a\"b\\2024-06054245\"000006"),
    ("YYYY\\DDD\\\\SSSSS.US", NOW, "0 2024\\060\\\\54245.000006"),
    ("nga\u{300}YYYY𝄞DDD €SSSSS½US\u{3000}", NOW, "0 nga\u{300}2024𝄞060 €54245½000006\u{3000}"),
    // no full templates
    ("", NOW, "0 "),
    ("\"", NOW, "0 "),
    ("ngà", NOW, "0 ngà"),
    ("\"20 - 0 0\"", NOW, "0 20 - 0 0"),
    ("YYYY YYYY am", NOW, "0 2024 2024 pm"),
    ("HH24 a.m.", "2024 2 29 11 59 59 999999", "0 11 a.m."),
    // every marker in its own case, on both sides of midnight and noon
    (MARKERS, "2024 2 29 0 0 0 0", "0 12:00 AM AM A.M. A.M. am am a.m. a.m."),
    (MARKERS, "2024 2 29 11 59 0 0", "0 11:59 AM AM A.M. A.M. am am a.m. a.m."),
    (MARKERS, "2024 2 29 12 0 0 0", "0 12:00 PM PM P.M. P.M. pm pm p.m. p.m."),
    (MARKERS, "2024 2 29 23 59 0 0", "0 11:59 PM PM P.M. P.M. pm pm p.m. p.m."),
    // no markers: a literal's letters are written as they are
    ("Am aM Pm pM A.m. a.M. \"am\"", "2024 2 29 21 0 0 0", "0 Am aM Pm pM A.m. a.M. am"),
    // numbers as strtol reads them
    ("MM", "2024 +2 029 15 4 5 6", "0 02"),
];

/// Months by name.
const NAMED: &[Known] = &[
    // every pattern in its own case, in every month
    (NAMES, "2024 1 31 0 0 0 0", "0 January January january january JANUARY JANUARY Jan jan JAN"),
    (NAMES, "2024 2 29 0 0 0 0", "0 February February february february FEBRUARY FEBRUARY Feb feb FEB"),
    (NAMES, "2024 3 31 0 0 0 0", "0 March March march march MARCH MARCH Mar mar MAR"),
    (NAMES, "2024 4 30 0 0 0 0", "0 April April april april APRIL APRIL Apr apr APR"),
    (NAMES, "2024 5 31 0 0 0 0", "0 May May may may MAY MAY May may MAY"),
    (NAMES, "2024 6 30 0 0 0 0", "0 June June june june JUNE JUNE Jun jun JUN"),
    (NAMES, "2024 7 31 0 0 0 0", "0 July July july july JULY JULY Jul jul JUL"),
    (NAMES, "2024 8 31 0 0 0 0", "0 August August august august AUGUST AUGUST Aug aug AUG"),
    (NAMES, "2024 9 30 0 0 0 0", "0 September September september september SEPTEMBER SEPTEMBER Sep sep SEP"),
    (NAMES, "2024 10 31 0 0 0 0", "0 October October october october OCTOBER OCTOBER Oct oct OCT"),
    (NAMES, "2024 11 30 0 0 0 0", "0 November November november november NOVEMBER NOVEMBER Nov nov NOV"),
    (NAMES, "2024 12 31 0 0 0 0", "0 December December december december DECEMBER DECEMBER Dec dec DEC"),
    // full templates, with those below every month: a name beside digits, first and last
    ("DD Mon YYYY HH24:MI:SS.US", "2024 5 5 9 5 0 0", "0 05 May 2024 09:05:00.000000"),
    ("DDMonYYYYHH24MISSUS", NOW, "0 29Feb2024150405000006"),
    ("MonDDYYYYSSSSSUS", "1 1 1 0 0 0 0", "0 Jan01000100000000000"),
    ("SSSSSUSYYYYDDMON", "9999 12 31 23 59 59 999999", "0 86399999999999931DEC"),
    ("fmmonthDDYYYYHH12MISSUSam", "2024 4 5 12 0 0 0", "0 april052024120000000000pm"),
    ("ddHHMISSUSP.M.yyyyFMMONTH", "2024 11 30 0 4 5 6", "0 30120405000006A.M.2024NOVEMBER"),
    ("YYYYFMMonthDDSSSSSUS", "2024 9 30 23 59 59 999999", "0 2024September3086399999999"),
    ("YYYY5mon7DD0SSSSS.US", "2024 6 30 0 0 9 0", "0 20245jun730000009.000000"),
    ("US SSSSS YYYY\"10\"fmMONTH\"8\"DD", "2024 10 8 0 0 0 0", "0 000000 00000 202410OCTOBER808"),
    // full templates, with literals that a name may run into
    ("Mon\"ch\"DD/YYYY SSSSS.US", "2024 3 1 0 0 0 0", "0 March01/2024 00000.000000"),
    ("DD Mon\"y\", YYYY SSSSS.US", "2024 7 4 0 0 0 0", "0 04 July, 2024 00000.000000"),
    ("FMMonth\"s\" DD/YYYY SSSSS.US", "2024 8 1 0 0 0 0", "0 Augusts 01/2024 00000.000000"),
    ("FMmonth's DD/YYYY SSSSS.US", "2024 5 1 0 0 0 0", "0 may's 01/2024 00000.000000"),
    ("\"May\"MON\"May\" DD/YYYY SSSSS.US", "2024 6 1 0 0 0 0", "0 MayJUNMay 01/2024 00000.000000"),
    ("\"tháng\"Mon\u{301}\"th\" DD/YYYY SSSSS.US", "2024 5 1 0 0 0 0", "0 thángMay\u{301}th 01/2024 00000.000000"),
    // no full templates
    ("Mon Mon MM", NOW, "0 Feb Feb 02"),
    ("FMMonth MM DD YYYY SSSSS US", NOW, "0 February 02 29 2024 54245 000006"),
    ("FMMonth YYYY DDD SSSSS US", NOW, "0 February 2024 060 54245 000006"),
    ("IYYY IW ID mon SSSSS US", NOW, "0 2024 09 4 feb 54245 000006"),
    // no names: mixed cases, a text in quotes, MM before a literal, prefixes that are dropped
    ("MOnth MoN mON \"Mon\" FMMOn", NOW, "0 MOnth MoN mON Mon MOn"),
    ("MMonth FMFMMonth TMFMMonth", NOW, "0 02onth F02onth F02onth"),
];

/// Refused: what is nearly the name of a month, and names where there is no moment.
const MISNAMED: &[Known] = &[
    ("Month", NOW, "19 Month 0 0"),
    ("month", NOW, "19 month 0 0"),
    ("MONTH", NOW, "19 MONTH 0 0"),
    ("FMMonth Month", NOW, "19 Month 0 0"),
    ("FM Month", NOW, "19 Month 0 0"),
    ("FM\"\"Month", NOW, "19 Month 0 0"),
    ("FMMon", NOW, "19 Mon 0 0"),
    ("fmmon", NOW, "19 mon 0 0"),
    ("FMMON", NOW, "19 MON 0 0"),
    ("TMMonth", NOW, "19 Month 0 0"),
    ("tmmonth", NOW, "19 month 0 0"),
    ("TMMON", NOW, "19 MON 0 0"),
    ("MonTH", NOW, "19 Mon 0 0"),
    ("MONth", NOW, "19 MON 0 0"),
    ("monSP", NOW, "19 mon 0 0"),
    ("FMMonthTH", NOW, "19 Month 0 0"),
    ("fmmonthth", NOW, "19 month 0 0"),
    ("FMMONTHSP", NOW, "19 MONTH 0 0"),
    ("FMMM", NOW, "19 MM 0 0"),
    ("FMMonthly", NOW, "19 y 0 0"),
    ("Monday", NOW, "19 day 0 0"),
    ("DD Mon YYYY", "2023 2 29 0 0 0 0", NO_MOMENT),
    ("FMMonth", "2024 0 1 0 0 0 0", NO_MOMENT),
    ("FMMonth", "2024 13 1 0 0 0 0", NO_MOMENT),
    ("Month", "2024 13 1 0 0 0 0", "19 Month 0 0"),
];

const REFUSED: &[Known] = &[
    // a pattern that the writer lacks, or one with a prefix or suffix; the first such pattern, before the moment
    ("FF3", NOW, "19 FF3 0 0"),
    ("YYYY-MM-DD HH24:MI:SS.MS", NOW, "19 MS 0 0"),
    ("DD Month YYYY", NOW, "19 Month 0 0"),
    ("DD SSSS ssss", NOW, "19 SSSS 0 0"),
    ("FMDD", NOW, "19 DD 0 0"),
    ("fmddth FF1", NOW, "19 dd 0 0"),
    ("DDth", NOW, "19 DD 0 0"),
    ("YYYY-MM-DDTHH24", NOW, "19 DD 0 0"),
    ("TMIW", NOW, "19 IW 0 0"),
    ("HH24SP:AMTH", NOW, "19 HH24 0 0"),
    ("FM-DD iyy", NOW, "19 iyy 0 0"),
    ("ngày", NOW, "19 y 0 0"),
    ("Y,YYY", "0 0 0 0 0 0 0", "19 Y,YYY 0 0"),
    ("OF", "", "19 OF 0 0"),
    // no moment
    ("YYYY", "0 1 1 0 0 0 0", NO_MOMENT),
    ("YYYY", "10000 1 1 0 0 0 0", NO_MOMENT),
    ("YYYY", "-1 1 1 0 0 0 0", NO_MOMENT),
    ("YYYY", "2024 0 1 0 0 0 0", NO_MOMENT),
    ("YYYY", "2024 13 1 0 0 0 0", NO_MOMENT),
    ("YYYY", "2024 2 30 0 0 0 0", NO_MOMENT),
    ("YYYY", "2023 2 29 0 0 0 0", NO_MOMENT),
    ("YYYY", "1900 2 29 0 0 0 0", NO_MOMENT),
    ("YYYY", "2024 4 31 0 0 0 0", NO_MOMENT),
    ("YYYY", "2024 1 0 0 0 0 0", NO_MOMENT),
    ("YYYY", "2024 1 1 24 0 0 0", NO_MOMENT),
    ("YYYY", "2024 1 1 -1 0 0 0", NO_MOMENT),
    ("YYYY", "2024 1 1 0 60 0 0", NO_MOMENT),
    ("YYYY", "2024 1 1 0 0 60 0", NO_MOMENT),
    ("YYYY", "2024 1 1 0 0 0 1000000", NO_MOMENT),
    ("YYYY", "2024 1 1 0 0 0 -1", NO_MOMENT),
    // not seven numbers of 32 bits
    ("YYYY", "", NO_MOMENT),
    ("", "", NO_MOMENT),
    ("YYYY", "2024 1 1 0 0 0", NO_MOMENT),
    ("YYYY", "2024 1 1 0 0 0 0 0", NO_MOMENT),
    ("YYYY", "2024 1 1 0 0 0 0 ", NO_MOMENT),
    ("YYYY", "2024  1 1 0 0 0 0", NO_MOMENT),
    ("YYYY", " 2024 1 1 0 0 0 0", NO_MOMENT),
    ("YYYY", "2024 1 1 0 0 0 0x", NO_MOMENT),
    ("YYYY", "2024 1 1 0 0 0 0\r", NO_MOMENT),
    ("YYYY", "4294969320 1 1 0 0 0 0", NO_MOMENT),
    ("YYYY", "18446744073709553640 1 1 0 0 0 0", NO_MOMENT),
];

/// A template repeated, and bytes that are no text: the limits of a template, of a text and of a line.
fn long() -> Vec<(Vec<u8>, &'static str)> {
    let with = |template: &[u8], moment: &str| [template, b"\t", moment.as_bytes()].concat();
    let us = |times: usize, rest: &str| ["US".repeat(times), rest.into()].concat().into_bytes();
    vec![
        (with(&us(85, "--"), "0 1 1 0 0 0 0"), NO_MOMENT),
        (with(&us(85, "---"), NOW), "21 - 513 0"),
        (with(&us(128, ""), NOW), "21 - 768 0"),
        (with(&us(128, ""), ""), NO_MOMENT),
        // the month decides how long the text is
        (with(&us(84, "FMMonth-"), NOW), "21 - 513 0"),
        (with(&us(84, "FMMonth-"), "2024 9 1 0 0 0 0"), "21 - 514 0"),
        (with(&us(84, "FMMonth------"), "2024 5 1 0 0 0 0"), "21 - 513 0"),
        (with(&us(127, "MS"), NOW), "19 MS 0 0"),
        (with(&us(128, "-"), NOW), TOO_LONG),
        (with(&us(128, "-"), ""), TOO_LONG),
        (us(128, "-"), TOO_LONG),
        (with(b"FF1\xff", NOW), NOT_UTF8),
        (with(b"\xc3", ""), NOT_UTF8),
        (with(&b"\xff".repeat(257), NOW), TOO_LONG),
        (b"YYYY\t2024 1 1 0 0 0 \xff".to_vec(), NO_MOMENT),
        (with(b"YYYY", &format!("{:0>748}", "1 1 1 0 0 0 0")), "0 0001"),
        (with(b"YYYY", &format!("{:0>764}", "1 1 1 0 0 0 0")), "0 0001"),
        (with(b"YYYY", &format!("{:0>765}", "1 1 1 0 0 0 0")), TOO_LONG),
        (b"YYYY".to_vec(), NO_MOMENT),
        (b"".to_vec(), NO_MOMENT),
        (b"-".repeat(100_000), TOO_LONG),
    ]
}

/// Every line with its answer.
pub fn lines() -> Vec<(Vec<u8>, &'static str)> {
    let known = [WRITTEN, NAMED, REFUSED, MISNAMED].concat().into_iter();
    let joined = known.map(|(template, moment, answer)| ([template, moment].join("\t").into(), answer));
    joined.chain(long()).collect()
}
