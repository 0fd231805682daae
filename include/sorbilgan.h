/*
 * The functions of libsorbilgan.a: text read by a template of PostgreSQL's to_timestamp patterns, and moments written
 * by one.
 *
 * A text is lent for the call alone, as a pointer and a length in bytes; it needs no final 0. Any bytes and any
 * numbers are safe. A pointer may be NULL where its length or room is 0, and nowhere else. What a function fills may
 * not overlap what it is lent. Nothing is allocated or kept between calls, so every function may be called from
 * several threads at once.
 *
 * Later versions add functions, settings, numbers of refusals, and fields at the end of an answer. A program that is
 * compiled again with a later header goes on working, if it takes every number that it does not know for a refusal.
 */
#ifndef SORBILGAN_H
#define SORBILGAN_H

#include <stddef.h>
#include <stdint.h>

#ifdef __cplusplus
extern "C" {
#endif

/* The version of this header. sorbilgan_version() is the library's, for callers that do not include this header. */
#define SORBILGAN_VERSION 4

uint32_t sorbilgan_version(void);

/*
 * A library of another version has no function of this name, so it does not link: with gcc and clang, each file that
 * includes this header asks for the function. A file that uses only types and constants, and is linked without the
 * library, defines SORBILGAN_NO_LINK_CHECK before it includes this header.
 */
uint32_t sorbilgan_version_4(void);

#if defined(__GNUC__) && !defined(SORBILGAN_NO_LINK_CHECK)
#ifdef __has_attribute
#if __has_attribute(retain)
__attribute__((retain))
#endif
#endif
__attribute__((used)) static uint32_t (*const sorbilgan_linked)(void) = sorbilgan_version_4;
#endif

/* The limits of a template and of an input, in bytes: first those of the exercise pages, then of the flash cards. */
#define SORBILGAN_TEMPLATE_LIMIT 256
#define SORBILGAN_INPUT_LIMIT 512
#define SORBILGAN_CARDS_TEMPLATE_LIMIT 64
#define SORBILGAN_CARDS_INPUT_LIMIT 96

/*
 * Settings are the bits of a number. The functions whose names end in _with take them; all others have settings 0,
 * those of the exercise pages. SORBILGAN_ACCENTS counts a letter with its accents as one character; SORBILGAN_STRICT
 * refuses a day that its month never has, in exercises without a year; SORBILGAN_CARDS sets the limits of the flash
 * cards; the three may be combined. Bits without a name are ignored, but a later version may name them, so leave them
 * 0.
 */
#define SORBILGAN_ACCENTS 1u
#define SORBILGAN_STRICT 2u
#define SORBILGAN_CARDS 4u

/* The room for a compiled template, in bytes, whatever the settings. */
#define SORBILGAN_NODES 1536

/* An answer's pattern where it names none; one that is named is below it. */
#define SORBILGAN_NO_PATTERN 112

/* The room for a pattern's name and a final 0, in bytes. */
#define SORBILGAN_NAME 6

/*
 * The number of an answer: 0 where the text or the moment is accepted, else that of the refusal. After each, what the
 * answer holds of it: its pattern, its first and second figure.
 */
enum sorbilgan_refusal {
    SORBILGAN_OK = 0,
    SORBILGAN_TOO_LONG = 1,           /* template over 256 bytes or input over 512 (flash cards: 64 and 96) */
    SORBILGAN_NOT_UTF8 = 2,           /* template or input is not UTF-8 */
    SORBILGAN_MIXED_DATES = 3,        /* Gregorian and ISO patterns mixed: pattern */
    SORBILGAN_CONFLICT = 4,           /* field set before to another value: pattern */
    SORBILGAN_SHORT = 5,              /* input shorter than a fixed width: pattern, width, bytes remaining */
    SORBILGAN_NARROW = 6,             /* fewer bytes parsed than a fixed width: pattern, width, bytes parsed */
    SORBILGAN_NOT_INTEGER = 7,        /* no integer: pattern */
    SORBILGAN_OUT_OF_RANGE = 8,       /* number outside signed 32 bits: pattern */
    SORBILGAN_NO_WORD = 9,            /* none of the listed words: pattern */
    SORBILGAN_NOT_TWO_NUMBERS = 10,   /* Y,YYY without both numbers: pattern */
    SORBILGAN_YEAR_OUT_OF_RANGE = 11, /* Y,YYY outside 32 bits: pattern */
    SORBILGAN_ZONE_LETTER = 12,       /* a letter at TZ or tz: pattern */
    SORBILGAN_HOUR_OF_TWELVE = 13,    /* 12-hour clock, hour outside 1 to 12: the hour */
    SORBILGAN_NO_YEAR = 14,           /* day of the year, and no year */
    SORBILGAN_FIELD_OVERFLOW = 15,    /* field value overflow */
    SORBILGAN_OFFSET_RANGE = 16,      /* offset hours outside 0 to 15 or minutes outside 0 to 59 */
    SORBILGAN_INSTANT_RANGE = 17,     /* instant: outside 64 bits, or at one of their ends */
    SORBILGAN_DATE_RANGE = 18,        /* date: outside 32 bits, or at one of their ends */
    SORBILGAN_NOT_WRITTEN = 19,       /* write: not written, not so prefixed or suffixed, or without FM: pattern */
    SORBILGAN_NO_MOMENT = 20,         /* write: no moment of the years 1 to 9999 */
    SORBILGAN_NO_ROOM = 21,           /* write: a text longer than its buffer: the length needed */
    SORBILGAN_NO_SUCH_DAY = 25        /* strict: month and day without a year, and the month never has that day */
};

/*
 * The bits of marks. A part is set by its own pattern or by another: J and IW set all three, DDD and WW month and day,
 * W the day, CC the year. One that is read as 0 is not set. A part that is not set has its default: year 0, month 1,
 * day 1. With all three marks the month has the day.
 */
#define SORBILGAN_YEAR_SET 1
#define SORBILGAN_MONTH_SET 2
#define SORBILGAN_DAY_SET 4

/*
 * The parts of a moment. A refusal leaves all after the second figure 0; an accepted text is number 0, without pattern
 * and figures.
 */
struct sorbilgan_parts_answer {
    int64_t number;
    int64_t pattern;
    int64_t first_figure;
    int64_t second_figure;
    int64_t year;
    int64_t month;
    int64_t day;
    int64_t hour;
    int64_t minute;
    int64_t second;
    int64_t micros;
    int64_t precision; /* of FF1 to FF6: 1 to 6, else 0 */
    int64_t zoned;     /* 1 where the text has an offset, else 0 */
    int64_t offset;    /* in seconds east */
    int64_t marks;     /* which of year, month and day are set: 0 to 7 */
};

/* A single value: what it counts is said at the functions. A refusal leaves it 0. */
struct sorbilgan_value_answer {
    int64_t number;
    int64_t pattern;
    int64_t first_figure;
    int64_t second_figure;
    int64_t value;
};

/* A moment that is written. Any numbers may be here: what is no moment of the years 1 to 9999 is refused. */
struct sorbilgan_moment {
    int32_t year;
    int32_t month;
    int32_t day;
    int32_t hour;
    int32_t minute;
    int32_t second;
    int32_t micros;
};

#if defined(__cplusplus) && __cplusplus >= 201103L
static_assert(sizeof(struct sorbilgan_parts_answer) == 15 * sizeof(int64_t), "the answer is 15 numbers");
static_assert(sizeof(struct sorbilgan_value_answer) == 5 * sizeof(int64_t), "the answer is 5 numbers");
#elif defined(__STDC_VERSION__) && __STDC_VERSION__ >= 201112L
_Static_assert(sizeof(struct sorbilgan_parts_answer) == 15 * sizeof(int64_t), "the answer is 15 numbers");
_Static_assert(sizeof(struct sorbilgan_value_answer) == 5 * sizeof(int64_t), "the answer is 5 numbers");
#endif

/*
 * Reading and writing fill the whole answer and return its number: SORBILGAN_OK, or the refusal's. The limits are those
 * of the exercise pages, unless settings say otherwise.
 */

/* The parts of the input. */
uint8_t sorbilgan_parts(const char *template_text, size_t template_length, const char *input, size_t input_length,
                        struct sorbilgan_parts_answer *answer);

/* The instant of the input: microseconds since 1970-01-01 UTC. An input without an offset is read as UTC. */
uint8_t sorbilgan_instant(const char *template_text, size_t template_length, const char *input, size_t input_length,
                          struct sorbilgan_value_answer *answer);

/* The date of the input: days since 1970-01-01. */
uint8_t sorbilgan_date(const char *template_text, size_t template_length, const char *input, size_t input_length,
                       struct sorbilgan_value_answer *answer);

/*
 * Writes a moment into a buffer of `room` bytes; the value is the length of the text, which has no final 0. The bytes
 * after the text stay as they were, and on refusal all of them do. A marker (AM, PM, A.M., P.M.) and the name of a
 * month (FMMonth, Mon) are written in the case of their pattern. FM or fm is accepted before the full name of a month,
 * which needs it, and before nothing else. By a full template (a date, a time of day and US, each once) the text is at
 * most six bytes longer than the template, and so within the limit of an input.
 */
uint8_t sorbilgan_write(const char *template_text, size_t template_length, int32_t year, int32_t month, int32_t day,
                        int32_t hour, int32_t minute, int32_t second, int32_t micros, char *text, size_t room,
                        struct sorbilgan_value_answer *answer);

/*
 * Compiles a template that is used many times. The answer is how many bytes of `nodes` it takes; or -1 where the
 * template is over 256 bytes and -2 where it is not UTF-8, which are refusals 1 and 2 and leave the nodes as they
 * were.
 */
int64_t sorbilgan_compile(const char *template_text, size_t template_length, uint8_t nodes[SORBILGAN_NODES]);

/*
 * The same answers by a compiled template. It is lent together with the text that it was compiled from. Any bytes are
 * safe as nodes, and any text with them. Reading accepts nodes of any length; writing refuses more than 1,536 bytes of
 * them with 1. The text was tested when it was compiled: here it may be longer than 256 bytes, and need not be UTF-8,
 * and what is refused with 1 or 2 in reading is the input.
 */
uint8_t sorbilgan_parts_by(const uint8_t *nodes, size_t nodes_length, const char *template_text, size_t template_length,
                           const char *input, size_t input_length, struct sorbilgan_parts_answer *answer);

uint8_t sorbilgan_instant_by(const uint8_t *nodes, size_t nodes_length, const char *template_text,
                             size_t template_length, const char *input, size_t input_length,
                             struct sorbilgan_value_answer *answer);

uint8_t sorbilgan_date_by(const uint8_t *nodes, size_t nodes_length, const char *template_text, size_t template_length,
                          const char *input, size_t input_length, struct sorbilgan_value_answer *answer);

uint8_t sorbilgan_write_by(const uint8_t *nodes, size_t nodes_length, const char *template_text, size_t template_length,
                           int32_t year, int32_t month, int32_t day, int32_t hour, int32_t minute, int32_t second,
                           int32_t micros, char *text, size_t room, struct sorbilgan_value_answer *answer);

/*
 * The nine functions above, with settings; settings 0 change nothing. With SORBILGAN_CARDS a template over 64 bytes or
 * an input over 96 is refused with 1 (sorbilgan_compile_with: -1), and writing refuses more than 384 bytes of nodes
 * with 1. Nothing else differs: within these limits the answers are equal, and so are the nodes that a template is
 * compiled to. The room for nodes stays SORBILGAN_NODES, and that for a text is the caller's own.
 *
 * With SORBILGAN_STRICT reading refuses with 25 where month and day are set, the year is not, and the month has that
 * day in no year: 30 February, but not 29. This is tested after the ranges of month and day, and before those of time
 * and offset. Nothing else differs, and writing and compiling ignore it.
 *
 * With SORBILGAN_ACCENTS a letter and all accent marks right after it count as one character, in the literals of the
 * template, in the input, and where TH or th passes two characters of the input. The accent marks are U+0300 to
 * U+036F; a letter is an ASCII letter, or a non-ASCII character that is no mark. A mark after anything else counts
 * alone, and so does one right after a quote, a backslash, a pattern, a prefix or a suffix of the template, or right
 * after what a pattern has read of the input. There is no refusal of its own, and what is written is the same. Nodes
 * carry this setting: sorbilgan_compile_with takes it, and the functions by nodes ignore it and read as the nodes say.
 */
uint8_t sorbilgan_parts_with(uint32_t settings, const char *template_text, size_t template_length, const char *input,
                             size_t input_length, struct sorbilgan_parts_answer *answer);

uint8_t sorbilgan_instant_with(uint32_t settings, const char *template_text, size_t template_length, const char *input,
                               size_t input_length, struct sorbilgan_value_answer *answer);

uint8_t sorbilgan_date_with(uint32_t settings, const char *template_text, size_t template_length, const char *input,
                            size_t input_length, struct sorbilgan_value_answer *answer);

uint8_t sorbilgan_write_with(uint32_t settings, const char *template_text, size_t template_length, int32_t year,
                             int32_t month, int32_t day, int32_t hour, int32_t minute, int32_t second, int32_t micros,
                             char *text, size_t room, struct sorbilgan_value_answer *answer);

int64_t sorbilgan_compile_with(uint32_t settings, const char *template_text, size_t template_length,
                               uint8_t nodes[SORBILGAN_NODES]);

uint8_t sorbilgan_parts_by_with(uint32_t settings, const uint8_t *nodes, size_t nodes_length, const char *template_text,
                                size_t template_length, const char *input, size_t input_length,
                                struct sorbilgan_parts_answer *answer);

uint8_t sorbilgan_instant_by_with(uint32_t settings, const uint8_t *nodes, size_t nodes_length,
                                  const char *template_text, size_t template_length, const char *input,
                                  size_t input_length, struct sorbilgan_value_answer *answer);

uint8_t sorbilgan_date_by_with(uint32_t settings, const uint8_t *nodes, size_t nodes_length, const char *template_text,
                               size_t template_length, const char *input, size_t input_length,
                               struct sorbilgan_value_answer *answer);

uint8_t sorbilgan_write_by_with(uint32_t settings, const uint8_t *nodes, size_t nodes_length, const char *template_text,
                                size_t template_length, int32_t year, int32_t month, int32_t day, int32_t hour,
                                int32_t minute, int32_t second, int32_t micros, char *text, size_t room,
                                struct sorbilgan_value_answer *answer);

/*
 * 1 where an accent mark (U+0300 to U+036F) counts alone in the literals of a compiled template, else 0. Any bytes are
 * safe. This is for authors: with SORBILGAN_ACCENTS, what a full template writes is read back as its moment where this
 * is 0. By nodes that were compiled without SORBILGAN_ACCENTS every mark counts alone, and all that a full template
 * writes is read back.
 */
uint8_t sorbilgan_has_lone_mark(const uint8_t *nodes, size_t nodes_length, const char *template_text,
                                size_t template_length);

/*
 * The name of an answer's pattern as a string, and its length from 1 to 5. The bytes after the name are 0. For any
 * number that is no pattern's, the string is empty and the length 0.
 */
size_t sorbilgan_pattern(uint8_t pattern, char name[SORBILGAN_NAME]);

#ifdef __GNUC__
#define SORBILGAN_INLINE static __inline__
#else
#define SORBILGAN_INLINE static inline
#endif

#ifdef __cplusplus
#define SORBILGAN_INT32(number) static_cast<int32_t>(number)
#else
#define SORBILGAN_INT32(number) ((int32_t)(number))
#endif

/* The moment of an accepted answer, without its offset, precision and marks. */
SORBILGAN_INLINE struct sorbilgan_moment sorbilgan_moment_of(const struct sorbilgan_parts_answer *parts) {
    struct sorbilgan_moment moment;

    moment.year = SORBILGAN_INT32(parts->year);
    moment.month = SORBILGAN_INT32(parts->month);
    moment.day = SORBILGAN_INT32(parts->day);
    moment.hour = SORBILGAN_INT32(parts->hour);
    moment.minute = SORBILGAN_INT32(parts->minute);
    moment.second = SORBILGAN_INT32(parts->second);
    moment.micros = SORBILGAN_INT32(parts->micros);
    return moment;
}

/* The four functions that write, with a moment in place of seven numbers. */
SORBILGAN_INLINE uint8_t sorbilgan_write_moment_with(uint32_t settings, const char *template_text,
                                                     size_t template_length, const struct sorbilgan_moment *moment,
                                                     char *text, size_t room, struct sorbilgan_value_answer *answer) {
    return sorbilgan_write_with(settings, template_text, template_length, moment->year, moment->month, moment->day,
                                moment->hour, moment->minute, moment->second, moment->micros, text, room, answer);
}

SORBILGAN_INLINE uint8_t sorbilgan_write_moment(const char *template_text, size_t template_length,
                                                const struct sorbilgan_moment *moment, char *text, size_t room,
                                                struct sorbilgan_value_answer *answer) {
    return sorbilgan_write_moment_with(0, template_text, template_length, moment, text, room, answer);
}

SORBILGAN_INLINE uint8_t sorbilgan_write_moment_by_with(uint32_t settings, const uint8_t *nodes, size_t nodes_length,
                                                        const char *template_text, size_t template_length,
                                                        const struct sorbilgan_moment *moment, char *text, size_t room,
                                                        struct sorbilgan_value_answer *answer) {
    return sorbilgan_write_by_with(settings, nodes, nodes_length, template_text, template_length, moment->year,
                                   moment->month, moment->day, moment->hour, moment->minute, moment->second,
                                   moment->micros, text, room, answer);
}

SORBILGAN_INLINE uint8_t sorbilgan_write_moment_by(const uint8_t *nodes, size_t nodes_length, const char *template_text,
                                                   size_t template_length, const struct sorbilgan_moment *moment,
                                                   char *text, size_t room, struct sorbilgan_value_answer *answer) {
    return sorbilgan_write_moment_by_with(0, nodes, nodes_length, template_text, template_length, moment, text, room,
                                          answer);
}

#ifdef __cplusplus
}
#endif

#endif
