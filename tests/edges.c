/*
 * What include/sorbilgan.h says beside the answers themselves: versions, NULL, the ends of the limits, nodes that no
 * template was compiled to, the fields of answers, marks, names with a final 0, moments as a struct, settings.
 * tests/installed builds and runs this, as C and as C++.
 */
#include <stdio.h>
#include <string.h>

#include "sorbilgan.h"

static int failures;

#define CHECK(fact)                                             \
    do {                                                        \
        if (!(fact)) {                                          \
            printf("edges.c:%d: not so: %s\n", __LINE__, #fact); \
            failures++;                                         \
        }                                                       \
    } while (0)

static struct sorbilgan_parts_answer parts;
static struct sorbilgan_value_answer value;
static uint8_t nodes[SORBILGAN_NODES + 6];

static void versions(void) {
    CHECK(sorbilgan_version() == SORBILGAN_VERSION);
    CHECK(SORBILGAN_OK == 0);
}

/* An empty text may be NULL, in each place and in all of them. */
static void empty_readings(void) {
    CHECK(sorbilgan_parts(NULL, 0, NULL, 0, &parts) == SORBILGAN_OK);
    CHECK(parts.year == 0 && parts.month == 1 && parts.day == 1 && parts.marks == 0);
    CHECK(sorbilgan_parts("DD", 2, NULL, 0, &parts) == SORBILGAN_OK && parts.day == 1);
    CHECK(sorbilgan_parts(NULL, 0, "5", 1, &parts) == SORBILGAN_OK && parts.day == 1);
    CHECK(sorbilgan_instant("YYYY", 4, NULL, 0, &value) == SORBILGAN_OK);
    CHECK(sorbilgan_instant(NULL, 0, NULL, 0, &value) == SORBILGAN_OK);
    CHECK(sorbilgan_date("YYYY", 4, NULL, 0, &value) == SORBILGAN_OK && value.value == -719528);
    CHECK(sorbilgan_date(NULL, 0, NULL, 0, &value) == SORBILGAN_OK);
    CHECK(sorbilgan_compile(NULL, 0, nodes) == 0);
    CHECK(sorbilgan_parts_by(NULL, 0, NULL, 0, NULL, 0, &parts) == SORBILGAN_OK);
    CHECK(sorbilgan_parts_by(NULL, 0, "DD", 2, "5", 1, &parts) == SORBILGAN_OK && parts.day == 1);
    CHECK(sorbilgan_instant_by(NULL, 0, NULL, 0, NULL, 0, &value) == SORBILGAN_OK);
    CHECK(sorbilgan_date_by(NULL, 0, NULL, 0, NULL, 0, &value) == SORBILGAN_OK);
}

/* A buffer without room may be NULL: the answer is the length that the text needs. */
static void empty_writings(void) {
    const int64_t length = sorbilgan_compile("DD.MM.", 6, nodes);

    CHECK(sorbilgan_write("DD.MM.", 6, 2024, 2, 29, 0, 0, 0, 0, NULL, 0, &value) == SORBILGAN_NO_ROOM);
    CHECK(value.first_figure == 6);
    CHECK(sorbilgan_write(NULL, 0, 2024, 2, 29, 0, 0, 0, 0, NULL, 0, &value) == SORBILGAN_OK && value.value == 0);
    CHECK(sorbilgan_write_by(nodes, (size_t)length, "DD.MM.", 6, 2024, 2, 29, 0, 0, 0, 0, NULL, 0, &value)
          == SORBILGAN_NO_ROOM);
    CHECK(sorbilgan_write_by(nodes, (size_t)length, NULL, 0, 2024, 2, 29, 0, 0, 0, 0, NULL, 0, &value)
          == SORBILGAN_NO_ROOM);
    CHECK(value.first_figure == 4);
    CHECK(sorbilgan_write_by(NULL, 0, NULL, 0, 2024, 2, 29, 0, 0, 0, 0, NULL, 0, &value) == SORBILGAN_OK);
}

/* Reading takes nodes of any length, writing at most 1,536 bytes; the text with them is not held to its limit. */
static void over_the_limits(void) {
    static char text[SORBILGAN_TEMPLATE_LIMIT + 1];
    static char input[SORBILGAN_INPUT_LIMIT + 1];
    int64_t length;

    memset(text, '-', sizeof text);
    memset(input, ' ', sizeof input);
    memset(nodes, 0, sizeof nodes);
    CHECK(sorbilgan_compile(text, sizeof text, nodes) == -SORBILGAN_TOO_LONG);
    CHECK(sorbilgan_compile("\xff", 1, nodes) == -SORBILGAN_NOT_UTF8);
    CHECK(sorbilgan_parts(text, sizeof text, "", 0, &parts) == SORBILGAN_TOO_LONG);
    CHECK(sorbilgan_parts_by(nodes, sizeof nodes, "", 0, "5", 1, &parts) == SORBILGAN_OK);
    CHECK(sorbilgan_write_by(nodes, SORBILGAN_NODES, "", 0, 2024, 2, 29, 0, 0, 0, 0, input, 9, &value) == SORBILGAN_OK);
    CHECK(sorbilgan_write_by(nodes, SORBILGAN_NODES + 1, "", 0, 2024, 2, 29, 0, 0, 0, 0, input, 9, &value)
          == SORBILGAN_TOO_LONG);

    length = sorbilgan_compile("DD", 2, nodes);
    CHECK(sorbilgan_parts_by(nodes, (size_t)length, text, sizeof text, "5", 1, &parts) == SORBILGAN_OK);
    CHECK(parts.day == 5);
    CHECK(sorbilgan_parts_by(nodes, (size_t)length, "\xff", 1, "5", 1, &parts) == SORBILGAN_OK);
    CHECK(sorbilgan_parts_by(nodes, (size_t)length, "DD", 2, "\xff", 1, &parts) == SORBILGAN_NOT_UTF8);
    CHECK(sorbilgan_parts_by(nodes, (size_t)length, "DD", 2, input, sizeof input, &parts) == SORBILGAN_TOO_LONG);
    CHECK(sorbilgan_write_by(nodes, (size_t)length, text, sizeof text, 2024, 2, 29, 0, 0, 0, 0, input, 9, &value)
          == SORBILGAN_OK);
}

/* Each number of an answer is in the field that is named after it. */
static void fields(void) {
    static const char template_text[] = "YYYY-MM-DD HH24:MI:SS.FF3 TZH:TZM";
    static const char line[] = "2024-02-29 21:05:07.000009 -05:30";

    CHECK(sorbilgan_parts(template_text, sizeof template_text - 1, line, sizeof line - 1, &parts) == SORBILGAN_OK);
    CHECK(parts.number == SORBILGAN_OK && parts.pattern == SORBILGAN_NO_PATTERN);
    CHECK(parts.first_figure == 0 && parts.second_figure == 0);
    CHECK(parts.year == 2024 && parts.month == 2 && parts.day == 29);
    CHECK(parts.hour == 21 && parts.minute == 5 && parts.second == 7 && parts.micros == 9);
    CHECK(parts.precision == 3 && parts.zoned == 1 && parts.offset == -19800);
    CHECK(parts.marks == (SORBILGAN_YEAR_SET | SORBILGAN_MONTH_SET | SORBILGAN_DAY_SET));

    CHECK(sorbilgan_date("YYYYMMDD", 8, "20242", 5, &value) == SORBILGAN_SHORT);
    CHECK(value.number == SORBILGAN_SHORT && value.pattern == 33 && value.value == 0);
    CHECK(value.first_figure == 2 && value.second_figure == 1);
}

/* The marks of an accepted line, with and without the strict setting; -1 where they differ or the line is refused. */
static int64_t marks_of(const char *text, const char *input) {
    const size_t t = strlen(text);
    const size_t s = strlen(input);
    struct sorbilgan_parts_answer strict;

    if (sorbilgan_parts(text, t, input, s, &parts) != SORBILGAN_OK
        || sorbilgan_parts_with(SORBILGAN_STRICT, text, t, input, s, &strict) != SORBILGAN_OK
        || memcmp(&parts, &strict, sizeof parts) != 0) {
        return -1;
    }
    return parts.marks;
}

/* A part is set by its own pattern or by another, and not where it is read as 0. */
static void marks(void) {
    const int64_t all = SORBILGAN_YEAR_SET | SORBILGAN_MONTH_SET | SORBILGAN_DAY_SET;

    CHECK(marks_of("YYYY", "2024") == SORBILGAN_YEAR_SET);
    CHECK(marks_of("MM", "1") == SORBILGAN_MONTH_SET);
    CHECK(marks_of("DD", "1") == SORBILGAN_DAY_SET);
    CHECK(marks_of("Month", "January") == SORBILGAN_MONTH_SET);
    CHECK(marks_of("CC", "21") == SORBILGAN_YEAR_SET);
    CHECK(marks_of("W", "1") == SORBILGAN_DAY_SET);
    CHECK(marks_of("YYYY BC", "1 BC") == SORBILGAN_YEAR_SET && parts.year == 0);
    CHECK(marks_of("J", "2460370") == all);
    CHECK(marks_of("IYYY-IW", "2024-09") == all);
    CHECK(marks_of("YYYY-DDD", "2024-001") == all);
    CHECK(marks_of("YYYY-MM-DD", "2024-1") == (SORBILGAN_YEAR_SET | SORBILGAN_MONTH_SET));
    CHECK(marks_of("YYYY-MM-DD", "0000-02-29") == (SORBILGAN_MONTH_SET | SORBILGAN_DAY_SET));
    CHECK(marks_of("YYYY-MM-DD", "2024-00-31") == (SORBILGAN_YEAR_SET | SORBILGAN_DAY_SET));
    CHECK(marks_of("YYYY-MM-DD", "0000-00-00") == 0);
    CHECK(marks_of("DD.MM HH24:MI", "29.02 21:05") == (SORBILGAN_MONTH_SET | SORBILGAN_DAY_SET));
    CHECK(marks_of("Day HH24:MI:SS.US TZH", "Monday 21:05:07.5 +07") == 0);
}

/* The refusals of a line, without the strict setting and with it. */
static int refused_by(const char *text, const char *input, uint8_t lenient, uint8_t strict) {
    const size_t t = strlen(text);
    const size_t s = strlen(input);

    return sorbilgan_parts(text, t, input, s, &parts) == lenient
           && sorbilgan_parts_with(SORBILGAN_STRICT, text, t, input, s, &parts) == strict;
}

/*
 * Which refusal comes first: those of reading, of a fraction outside 32 bits, of the ranges of month and day, then 25,
 * then those of time and offset.
 */
static void strict_in_its_place(void) {
    CHECK(refused_by("DD.MM HH24:MI", "30.02 21:05", SORBILGAN_OK, SORBILGAN_NO_SUCH_DAY));
    CHECK(parts.number == SORBILGAN_NO_SUCH_DAY && parts.pattern == SORBILGAN_NO_PATTERN);
    CHECK(parts.first_figure == 0 && parts.second_figure == 0 && parts.marks == 0);
    CHECK(parts.month == 0 && parts.day == 0 && parts.hour == 0);
    CHECK(refused_by("DD.MM YYYY", "30.02 2024", SORBILGAN_FIELD_OVERFLOW, SORBILGAN_FIELD_OVERFLOW));
    CHECK(refused_by("DD.MM x YYYY", "30.02 x y", SORBILGAN_NOT_INTEGER, SORBILGAN_NOT_INTEGER));
    CHECK(refused_by("DD.MM HH12", "30.02 13", SORBILGAN_HOUR_OF_TWELVE, SORBILGAN_HOUR_OF_TWELVE));
    CHECK(refused_by("DD.MM MS", "30.02 9999999", SORBILGAN_FIELD_OVERFLOW, SORBILGAN_FIELD_OVERFLOW));
    CHECK(refused_by("DD.MM MS", "30.02 9999", SORBILGAN_FIELD_OVERFLOW, SORBILGAN_NO_SUCH_DAY));
    CHECK(refused_by("DD.MM", "32.02", SORBILGAN_FIELD_OVERFLOW, SORBILGAN_FIELD_OVERFLOW));
    CHECK(refused_by("DD.MM", "31.13", SORBILGAN_FIELD_OVERFLOW, SORBILGAN_FIELD_OVERFLOW));
    CHECK(refused_by("DD.MM HH24", "30.02 24", SORBILGAN_FIELD_OVERFLOW, SORBILGAN_NO_SUCH_DAY));
    CHECK(refused_by("DD.MM OF", "30.02 +16", SORBILGAN_OFFSET_RANGE, SORBILGAN_NO_SUCH_DAY));
    CHECK(refused_by("DD.MM HH24", "29.02 24", SORBILGAN_FIELD_OVERFLOW, SORBILGAN_FIELD_OVERFLOW));
    CHECK(parts.month == 0 && parts.day == 0 && parts.marks == 0);
}

/* Every name is a string, and nothing after its room is touched. */
static void names(void) {
    char name[SORBILGAN_NAME + 1];
    unsigned number;

    for (number = 0; number < 256; number++) {
        size_t length;

        memset(name, '#', sizeof name);
        length = sorbilgan_pattern((uint8_t)number, name);
        CHECK((length > 0) == (number < SORBILGAN_NO_PATTERN));
        CHECK(length < SORBILGAN_NAME && strlen(name) == length);
        CHECK(name[SORBILGAN_NAME] == '#');
    }
}

/* A moment is written as its seven numbers are, and read back. */
static void moments(void) {
    static const char template_text[] = "YYYY-MM-DD HH24:MI:SS.US";
    static const char line[] = "2024-02-29 21:05:07.000009";
    const int64_t length = sorbilgan_compile(template_text, sizeof template_text - 1, nodes);
    struct sorbilgan_moment moment;
    char text[sizeof line];

    CHECK(sorbilgan_parts(template_text, sizeof template_text - 1, line, sizeof line - 1, &parts) == SORBILGAN_OK);
    moment = sorbilgan_moment_of(&parts);
    CHECK(sorbilgan_write_moment(template_text, sizeof template_text - 1, &moment, text, sizeof text, &value)
          == SORBILGAN_OK);
    CHECK(value.value == sizeof line - 1 && memcmp(text, line, sizeof line - 1) == 0);
    memset(text, '#', sizeof text);
    CHECK(sorbilgan_write_moment_by(nodes, (size_t)length, template_text, sizeof template_text - 1, &moment, text,
                                    sizeof text, &value) == SORBILGAN_OK);
    CHECK(value.value == sizeof line - 1 && memcmp(text, line, sizeof line - 1) == 0);
    moment.day = 30;
    CHECK(sorbilgan_write_moment("DD", 2, &moment, text, sizeof text, &value) == SORBILGAN_NO_MOMENT);
}

/*
 * The exercise pages and the flash cards, each without the bits that have no name, with all of them, and strict; what
 * accents do is in accents.c.
 */
#define UNNAMED (~(SORBILGAN_ACCENTS | SORBILGAN_STRICT | SORBILGAN_CARDS))

struct caller {
    uint32_t settings;
    size_t template_limit;
    size_t input_limit;
};

static const struct caller callers[] = {
    {0, 256, 512},
    {UNNAMED, 256, 512},
    {SORBILGAN_STRICT, 256, 512},
    {SORBILGAN_CARDS, 64, 96},
    {SORBILGAN_CARDS | UNNAMED, 64, 96},
    {SORBILGAN_CARDS | SORBILGAN_STRICT, 64, 96}};

static void empty_texts_with(uint32_t settings) {
    CHECK(sorbilgan_parts_with(settings, NULL, 0, NULL, 0, &parts) == SORBILGAN_OK);
    CHECK(sorbilgan_instant_with(settings, NULL, 0, NULL, 0, &value) == SORBILGAN_OK);
    CHECK(sorbilgan_date_with(settings, NULL, 0, NULL, 0, &value) == SORBILGAN_OK);
    CHECK(sorbilgan_write_with(settings, NULL, 0, 2024, 2, 29, 0, 0, 0, 0, NULL, 0, &value) == SORBILGAN_OK);
    CHECK(sorbilgan_compile_with(settings, NULL, 0, nodes) == 0);
    CHECK(sorbilgan_parts_by_with(settings, NULL, 0, NULL, 0, NULL, 0, &parts) == SORBILGAN_OK);
    CHECK(sorbilgan_instant_by_with(settings, NULL, 0, NULL, 0, NULL, 0, &value) == SORBILGAN_OK);
    CHECK(sorbilgan_date_by_with(settings, NULL, 0, NULL, 0, NULL, 0, &value) == SORBILGAN_OK);
    CHECK(sorbilgan_write_by_with(settings, NULL, 0, NULL, 0, 2024, 2, 29, 0, 0, 0, 0, NULL, 0, &value)
          == SORBILGAN_OK);
}

/* By the text and by its nodes, without settings and with them: the same answer. */
#define CHECK_SAME(name, answer, other)                                                                          \
    do {                                                                                                         \
        const uint8_t number = sorbilgan_##name(text, t, input, s, &answer);                                     \
        CHECK(sorbilgan_##name##_with(settings, text, t, input, s, &other) == number);                           \
        CHECK(memcmp(&answer, &other, sizeof answer) == 0);                                                      \
        CHECK(sorbilgan_##name##_by(nodes, (size_t)length, text, t, input, s, &other) == number);                \
        CHECK(memcmp(&answer, &other, sizeof answer) == 0);                                                      \
        CHECK(sorbilgan_##name##_by_with(settings, nodes, (size_t)length, text, t, input, s, &other) == number); \
        CHECK(memcmp(&answer, &other, sizeof answer) == 0);                                                      \
    } while (0)

/* Within the limits of both callers, each gets the same answer and the same nodes. */
static void same_readings(uint32_t settings, const char *text, const char *input) {
    static uint8_t other_nodes[SORBILGAN_NODES];
    const size_t t = strlen(text);
    const size_t s = strlen(input);
    const int64_t length = sorbilgan_compile(text, t, nodes);
    struct sorbilgan_parts_answer other_parts;
    struct sorbilgan_value_answer other_value;

    CHECK(sorbilgan_compile_with(settings, text, t, other_nodes) == length);
    CHECK(memcmp(nodes, other_nodes, (size_t)length) == 0);
    CHECK_SAME(parts, parts, other_parts);
    CHECK_SAME(instant, value, other_value);
    CHECK_SAME(date, value, other_value);
}

static void same_texts(uint32_t settings, const char *text) {
    const struct sorbilgan_moment moment = {2024, 2, 29, 21, 5, 7, 9};
    const size_t t = strlen(text);
    const int64_t length = sorbilgan_compile(text, t, nodes);
    struct sorbilgan_value_answer other;
    char written[40];
    char again[sizeof written];
    const uint8_t number = sorbilgan_write(text, t, 2024, 2, 29, 21, 5, 7, 9, written, sizeof written, &value);

    CHECK(sorbilgan_write_moment_with(settings, text, t, &moment, again, sizeof again, &other) == number);
    CHECK(memcmp(&value, &other, sizeof value) == 0 && memcmp(written, again, (size_t)value.value) == 0);
    memset(again, '#', sizeof again);
    CHECK(sorbilgan_write_moment_by_with(settings, nodes, (size_t)length, text, t, &moment, again, sizeof again, &other)
          == number);
    CHECK(memcmp(&value, &other, sizeof value) == 0 && memcmp(written, again, (size_t)value.value) == 0);
}

/* A template and an input at the caller's limits are accepted, and refused with one byte more; nodes have no limit. */
#define CHECK_LIMITS(name, answer)                                                                                     \
    do {                                                                                                               \
        CHECK(sorbilgan_##name##_with(settings, text, t, input, s, &answer) == SORBILGAN_OK);                          \
        CHECK(sorbilgan_##name##_with(settings, text, t + 1, input, s, &answer) == SORBILGAN_TOO_LONG);                \
        CHECK(sorbilgan_##name##_with(settings, text, t, input, s + 1, &answer) == SORBILGAN_TOO_LONG);                \
        CHECK(sorbilgan_##name##_by_with(settings, nodes, 6 * t + 6, text, t + 1, input, s, &answer) == SORBILGAN_OK); \
        CHECK(sorbilgan_##name##_by_with(settings, nodes, 6, text, t, input, s + 1, &answer) == SORBILGAN_TOO_LONG);   \
    } while (0)

static void at_the_limits(const struct caller *by) {
    static char text[SORBILGAN_TEMPLATE_LIMIT + 1];
    static char input[SORBILGAN_INPUT_LIMIT + 1];
    const uint32_t settings = by->settings;
    const size_t t = by->template_limit;
    const size_t s = by->input_limit;

    memset(text, '-', sizeof text);
    memset(input, ' ', sizeof input);
    memset(nodes, 0, sizeof nodes);
    CHECK_LIMITS(parts, parts);
    CHECK_LIMITS(instant, value);
    CHECK_LIMITS(date, value);
    CHECK(sorbilgan_compile_with(settings, text, t + 1, nodes) == -SORBILGAN_TOO_LONG);
    CHECK(sorbilgan_compile_with(settings, "\xff", 1, nodes) == -SORBILGAN_NOT_UTF8);
    CHECK(sorbilgan_compile_with(settings, text, t, nodes) == (int64_t)(6 * t));
    CHECK(sorbilgan_write_with(settings, text, t, 2024, 2, 29, 0, 0, 0, 0, input, t, &value) == SORBILGAN_OK);
    CHECK(sorbilgan_write_with(settings, text, t + 1, 2024, 2, 29, 0, 0, 0, 0, input, t + 1, &value)
          == SORBILGAN_TOO_LONG);
    CHECK(sorbilgan_write_by_with(settings, nodes, 6 * t, text, t + 1, 2024, 2, 29, 0, 0, 0, 0, input, t, &value)
          == SORBILGAN_OK);
    CHECK(sorbilgan_write_by_with(settings, nodes, 6 * t + 6, text, t, 2024, 2, 29, 0, 0, 0, 0, input, t, &value)
          == SORBILGAN_TOO_LONG);
}

static void settings_of_both(void) {
    size_t i;

    CHECK(SORBILGAN_CARDS_TEMPLATE_LIMIT == 64 && SORBILGAN_CARDS_INPUT_LIMIT == 96);
    for (i = 0; i < sizeof callers / sizeof callers[0]; i++) {
        empty_texts_with(callers[i].settings);
        same_readings(callers[i].settings, "YYYY-MM-DD HH24:MI:SS.FF3 TZH:TZM", "2024-02-29 21:05:07.000009 -05:30");
        same_readings(callers[i].settings, "YYYYMMDD", "20242");
        same_readings(callers[i].settings, "YYYY", "294248");
        same_readings(callers[i].settings, "MM-DD", "02-29");
        if ((callers[i].settings & SORBILGAN_STRICT) == 0) {
            same_readings(callers[i].settings, "MM-DD", "02-30");
        }
        same_texts(callers[i].settings, "YYYY-MM-DD HH24:MI:SS.US");
        same_texts(callers[i].settings, "DD Month YYYY");
        same_texts(callers[i].settings, "USUSUSUSUSUSUS");
        at_the_limits(&callers[i]);
    }
}

int main(void) {
    versions();
    empty_readings();
    empty_writings();
    over_the_limits();
    fields();
    marks();
    strict_in_its_place();
    names();
    moments();
    settings_of_both();
    return failures != 0;
}
