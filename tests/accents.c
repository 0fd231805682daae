/*
 * SORBILGAN_ACCENTS as include/sorbilgan.h describes it: what counts as one character, that nodes carry the setting,
 * and in which templates a mark counts alone. tests/installed builds and runs this, as C and as C++.
 */
#include <stdio.h>
#include <string.h>

#include "sorbilgan.h"

/* accent marks: the first, one among them, the last; and the characters before the first and after the last */
#define GRAVE "\xcc\x80"
#define ACUTE "\xcc\x81"
#define HORN "\xcc\x9b"
#define LAST "\xcd\xaf"
#define BEFORE "\xcb\xbf"
#define AFTER "\xcd\xb0"

static int failures;

#define CHECK(fact)                                               \
    do {                                                          \
        if (!(fact)) {                                            \
            printf("accents.c:%d: not so: %s\n", __LINE__, #fact); \
            failures++;                                           \
        }                                                         \
    } while (0)

static struct sorbilgan_value_answer value;
static uint8_t nodes[SORBILGAN_NODES];

/* What is beside the setting of accents. */
static const uint32_t others[] = {0, SORBILGAN_STRICT, SORBILGAN_CARDS, SORBILGAN_STRICT | SORBILGAN_CARDS, ~7u};

#define OTHERS (sizeof others / sizeof others[0])

/* By nodes, which say themselves whether they have accents: the same answer, whatever the settings say of it. */
#define CHECK_NODES(name, length, answer, other)                                                                    \
    do {                                                                                                            \
        CHECK(sorbilgan_##name##_by(nodes, length, text, t, input, s, &other) == answer.number);                    \
        CHECK(memcmp(&answer, &other, sizeof answer) == 0);                                                         \
        CHECK(sorbilgan_##name##_by_with(beside, nodes, length, text, t, input, s, &other) == answer.number);       \
        CHECK(memcmp(&answer, &other, sizeof answer) == 0);                                                         \
        CHECK(sorbilgan_##name##_by_with(beside | SORBILGAN_ACCENTS, nodes, length, text, t, input, s, &other)      \
              == answer.number);                                                                                    \
        CHECK(memcmp(&answer, &other, sizeof answer) == 0);                                                         \
    } while (0)

/* The year of a line by every function that reads, which must agree; -1 where it is refused. */
static int64_t year_with(uint32_t accents, uint32_t beside, const char *text, const char *input) {
    const size_t t = strlen(text);
    const size_t s = strlen(input);
    const uint32_t settings = accents | beside;
    const size_t length = (size_t)sorbilgan_compile_with(settings, text, t, nodes);
    struct sorbilgan_parts_answer parts;
    struct sorbilgan_parts_answer other_parts;
    struct sorbilgan_value_answer date;
    struct sorbilgan_value_answer other;

    sorbilgan_parts_with(settings, text, t, input, s, &parts);
    CHECK_NODES(parts, length, parts, other_parts);
    CHECK(sorbilgan_instant_with(settings, text, t, input, s, &value) == parts.number);
    CHECK_NODES(instant, length, value, other);
    CHECK(sorbilgan_date_with(settings, text, t, input, s, &date) == parts.number);
    CHECK_NODES(date, length, date, other);
    CHECK(value.value == date.value * 86400000000);
    return parts.number == SORBILGAN_OK ? parts.year : -1;
}

/* Whether the line has these years where each character counts and with accents, whatever else is set. */
static int years(const char *text, const char *input, int64_t each, int64_t accents) {
    size_t i;

    for (i = 0; i < OTHERS; i++) {
        if (year_with(0, others[i], text, input) != each
            || year_with(SORBILGAN_ACCENTS, others[i], text, input) != accents) {
            return 0;
        }
    }
    return 1;
}

static void letters(void) {
    CHECK(years("\"\xe1\xbb\xa9\"YYYY", "\xe1\xbb\xa9" "2024", 2024, 2024));
    CHECK(years("\"\xe1\xbb\xa9\"YYYY", "\xc6\xb0" ACUTE "2024", -1, 2024));
    CHECK(years("\"\xe1\xbb\xa9\"YYYY", "u" HORN ACUTE "2024", -1, 2024));
    CHECK(years("\"\xe1\xbb\xa9\"YYYY", "u" ACUTE HORN "2024", -1, 2024));
    CHECK(years("\"u" HORN ACUTE "\"YYYY", "\xe1\xbb\xa9" "2024", 24, 2024));
    CHECK(years("u" HORN ACUTE "YYYY", "\xe1\xbb\xa9" "2024", 24, 2024));
    CHECK(years("\"x\"YYYY", "Z" LAST GRAVE "2024", -1, 2024));
    CHECK(years("\"x\"YYYY", AFTER GRAVE "2024", -1, 2024));
    CHECK(years("DDth/YYYY", "5t" ACUTE "h" ACUTE "/2024", -1, 2024));
}

/* A mark after anything but a letter; what is no mark after a letter. */
static void counted_alone(void) {
    CHECK(years("\"x\"YYYY", "1" ACUTE "2024", -1, -1));
    CHECK(years("\"xx\"YYYY", "1" ACUTE "2024", 2024, 2024));
    CHECK(years("\"x\"YYYY", ACUTE "2024", 2024, 2024));
    CHECK(years("\"x\"YYYY", "-" ACUTE "2024", -1, -1));
    CHECK(years("\"x\"YYYY", "a" BEFORE "2024", -1, -1));
    CHECK(years("\"x\"YYYY", "a" AFTER "2024", -1, -1));
    CHECK(years("Mon\"x\"YYYY", "Jan" ACUTE "2024", 2024, 2024));
    CHECK(years("Mon\"a\"" ACUTE "YYYY", "Jana" ACUTE "2024", 2024, 24));
}

static int has_lone_mark(uint32_t settings, const char *text) {
    const int64_t length = sorbilgan_compile_with(settings, text, strlen(text), nodes);

    return sorbilgan_has_lone_mark(nodes, (size_t)length, text, strlen(text));
}

static void lone_marks(void) {
    CHECK(has_lone_mark(SORBILGAN_ACCENTS, "Mon\"a" ACUTE HORN "\"YYYY") == 0);
    CHECK(has_lone_mark(SORBILGAN_ACCENTS, "Mon\"a\"" ACUTE "YYYY") == 1);
    CHECK(has_lone_mark(SORBILGAN_ACCENTS | SORBILGAN_CARDS, "YYYY" LAST) == 1);
    CHECK(has_lone_mark(SORBILGAN_ACCENTS | SORBILGAN_STRICT, "-" GRAVE) == 1);
    CHECK(has_lone_mark(SORBILGAN_ACCENTS, "-" BEFORE "-" AFTER) == 0);
    CHECK(has_lone_mark(0, "Mon\"a" ACUTE HORN "\"YYYY") == 1);
    CHECK(has_lone_mark(0, "Mon\"\xc3\xa1\"YYYY") == 0);
    CHECK(sorbilgan_has_lone_mark(NULL, 0, NULL, 0) == 0);
    CHECK(sorbilgan_has_lone_mark(NULL, 0, ACUTE, 2) == 0);
    CHECK(has_lone_mark(0, ACUTE) == 1 && sorbilgan_has_lone_mark(nodes, 6, NULL, 0) == 0);
    CHECK(sorbilgan_has_lone_mark(nodes, 5, ACUTE, 2) == 0);
}

/* Where each character counts the nodes are what they always were; with accents one may be as long as a template. */
static void nodes_of_both(void) {
    static const uint8_t each[] = {0, 0, 1, 2, 0, 0, 1, 0, 2, 2, 0, 0, 3, 0, 2, 1, 9, 0};
    static const uint8_t one[] = {0, 0, 3, 2, 0, 128, 3, 0, 2, 1, 9, 128};
    static const uint8_t longest[] = {0, 1, 0, 2, 0, 128};
    char text[SORBILGAN_TEMPLATE_LIMIT];
    char written[SORBILGAN_TEMPLATE_LIMIT];
    size_t i;

    CHECK(sorbilgan_compile("a" ACUTE "DD", 5, nodes) == sizeof each);
    CHECK(memcmp(nodes, each, sizeof each) == 0);
    CHECK(sorbilgan_compile_with(SORBILGAN_ACCENTS, "a" ACUTE "DD", 5, nodes) == sizeof one);
    CHECK(memcmp(nodes, one, sizeof one) == 0);

    memcpy(text, "\xc3\xa9", 2);
    for (i = 2; i < sizeof text; i += 2) {
        memcpy(text + i, ACUTE, 2);
    }
    CHECK(sorbilgan_compile_with(SORBILGAN_ACCENTS, text, sizeof text, nodes) == sizeof longest);
    CHECK(memcmp(nodes, longest, sizeof longest) == 0);
    CHECK(sorbilgan_write_by(nodes, 6, text, sizeof text, 2024, 2, 29, 0, 0, 0, 0, written, sizeof written, &value)
          == SORBILGAN_OK);
    CHECK(value.value == sizeof text && memcmp(written, text, sizeof text) == 0);
}

int main(void) {
    letters();
    counted_alone();
    lone_marks();
    nodes_of_both();
    return failures != 0;
}
