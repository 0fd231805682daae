/*
 * Every day of every month, without a year and in some, against a table that Python's calendar made (month_days.py):
 * each form of each function that reads, with the strict setting and without. tests/installed builds this, as C and as
 * C++, and runs it with the name of the table.
 */
#include <stdio.h>
#include <string.h>

#include "sorbilgan.h"

/* A day of a year, and the line that is read. */
struct question {
    const char *text;
    char input[40]; /* room for any three numbers */
    int year; /* 0 where none is set */
    int month;
    int day;
};

/* The columns of the table, as its second line has them, and their years; -1 is none. */
static const char columns[] = "# month day - 0000 2023 2024 1900 2000\n";
static const int years[] = {-1, 0, 2023, 2024, 1900, 2000};

#define YEARS (sizeof years / sizeof years[0])

static int failures;

static void wrong(const struct question *asked, const char *function, uint32_t settings, int number) {
    printf("month_days.c: %s by %s, %s, settings %u: not %d\n", asked->input, asked->text, function, (unsigned)settings,
           number);
    failures++;
}

static struct question question_of(int year, int month, int day) {
    struct question asked;

    asked.month = month;
    asked.day = day;
    if (year < 0) {
        asked.text = "MM-DD";
        asked.year = 0;
        sprintf(asked.input, "%02d-%02d", month, day);
    } else {
        asked.text = "YYYY-MM-DD";
        asked.year = year;
        sprintf(asked.input, "%04d-%02d-%02d", year, month, day);
    }
    return asked;
}

/* Whether an accepted answer has the day and its marks, and a refusal nothing but its number. */
static int is_answer(const struct question *asked, const struct sorbilgan_parts_answer *found, int number) {
    struct sorbilgan_parts_answer wanted;

    memset(&wanted, 0, sizeof wanted);
    wanted.number = number;
    wanted.pattern = SORBILGAN_NO_PATTERN;
    if (number == SORBILGAN_OK) {
        wanted.year = asked->year;
        wanted.month = asked->month;
        wanted.day = asked->day;
        wanted.marks = SORBILGAN_MONTH_SET | SORBILGAN_DAY_SET | (asked->year != 0 ? SORBILGAN_YEAR_SET : 0);
    }
    return memcmp(found, &wanted, sizeof wanted) == 0;
}

static void parts(const struct question *asked, uint32_t settings, int number) {
    const size_t t = strlen(asked->text);
    const size_t s = strlen(asked->input);
    struct sorbilgan_parts_answer found;
    uint8_t nodes[SORBILGAN_NODES];
    const int64_t length = sorbilgan_compile_with(settings, asked->text, t, nodes);

    if (sorbilgan_parts_with(settings, asked->text, t, asked->input, s, &found) != number
        || !is_answer(asked, &found, number)) {
        wrong(asked, "parts_with", settings, number);
    }
    if (sorbilgan_parts_by_with(settings, nodes, (size_t)length, asked->text, t, asked->input, s, &found) != number
        || !is_answer(asked, &found, number)) {
        wrong(asked, "parts_by_with", settings, number);
    }
}

/* Whether a refusal has nothing but its number. */
static int is_number(const struct sorbilgan_value_answer *found, int number) {
    return found->number == number && found->pattern == SORBILGAN_NO_PATTERN && found->first_figure == 0
           && found->second_figure == 0 && (number == SORBILGAN_OK || found->value == 0);
}

/* Instants and dates are refused as parts are; an instant is that of the start of the date. */
static void values(const struct question *asked, uint32_t settings, int number) {
    const size_t t = strlen(asked->text);
    const size_t s = strlen(asked->input);
    struct sorbilgan_value_answer instant[2];
    struct sorbilgan_value_answer date[2];
    uint8_t nodes[SORBILGAN_NODES];
    const size_t length = (size_t)sorbilgan_compile_with(settings, asked->text, t, nodes);
    int i;

    sorbilgan_instant_with(settings, asked->text, t, asked->input, s, &instant[0]);
    sorbilgan_instant_by_with(settings, nodes, length, asked->text, t, asked->input, s, &instant[1]);
    sorbilgan_date_with(settings, asked->text, t, asked->input, s, &date[0]);
    sorbilgan_date_by_with(settings, nodes, length, asked->text, t, asked->input, s, &date[1]);
    for (i = 0; i < 2; i++) {
        if (!is_number(&instant[i], number) || !is_number(&date[i], number)
            || instant[i].value / 1000000 != date[i].value * 86400) {
            wrong(asked, i == 0 ? "instant_with, date_with" : "instant_by_with, date_by_with", settings, number);
        }
    }
}

/* The answers of both callers to one day in one year: without the strict setting, and with it. */
static void day_of_year(const struct question *asked, int lenient, int strict) {
    struct sorbilgan_parts_answer found;

    if (sorbilgan_parts(asked->text, strlen(asked->text), asked->input, strlen(asked->input), &found) != lenient
        || !is_answer(asked, &found, lenient)) {
        wrong(asked, "parts", 0, lenient);
    }
    parts(asked, 0, lenient);
    values(asked, 0, lenient);
    parts(asked, SORBILGAN_CARDS, lenient);
    values(asked, SORBILGAN_CARDS, lenient);
    parts(asked, SORBILGAN_STRICT, strict);
    values(asked, SORBILGAN_STRICT, strict);
    parts(asked, SORBILGAN_STRICT | SORBILGAN_CARDS, strict);
    values(asked, SORBILGAN_STRICT | SORBILGAN_CARDS, strict);
}

/* Goes through the table, and answers how many days of all years were asked for. */
static int days_of(FILE *table) {
    int month;
    int day;
    int lenient;
    int strict;
    int count = 0;

    while (fscanf(table, "%d %d", &month, &day) == 2) {
        size_t i;

        for (i = 0; i < YEARS; i++) {
            struct question asked = question_of(years[i], month, day);

            if (fscanf(table, "%d/%d", &lenient, &strict) != 2) {
                return -1;
            }
            day_of_year(&asked, lenient, strict);
            count++;
        }
    }
    return count;
}

int main(int count, char **arguments) {
    FILE *table = count == 2 ? fopen(arguments[1], "r") : NULL;
    char line[200];
    int days;

    if (table == NULL || fgets(line, sizeof line, table) == NULL || fgets(line, sizeof line, table) == NULL
        || strcmp(line, columns) != 0) {
        printf("month_days.c: the table is missing, or has other columns\n");
        return 1;
    }
    days = days_of(table);
    fclose(table);
    if (days != 12 * 31 * (int)YEARS) {
        printf("month_days.c: the table has %d answers\n", days);
        return 1;
    }
    return failures != 0;
}
