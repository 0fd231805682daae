/*
 * Marks lines by a template that is compiled once, then writes a moment by it and another by a template that is used
 * once. examples/c/run builds and runs this.
 */
#include <inttypes.h>
#include <stdio.h>
#include <string.h>

#include "sorbilgan.h"

static const char template_text[] = "\"ngày \"DD\" tháng \"MM\" năm \"YYYY";
static const size_t template_length = sizeof template_text - 1;

static void mark(const uint8_t *nodes, size_t nodes_length, const char *line) {
    struct sorbilgan_parts_answer answer;
    char name[SORBILGAN_NAME];

    sorbilgan_parts_by(nodes, nodes_length, template_text, template_length, line, strlen(line), &answer);
    if (answer.number == SORBILGAN_OK) {
        printf("%s: %04" PRId64 "-%02" PRId64 "-%02" PRId64 "\n", line, answer.year, answer.month, answer.day);
    } else if (sorbilgan_pattern((uint8_t)answer.pattern, name) > 0) {
        printf("%s: refusal %" PRId64 " at %s\n", line, answer.number, name);
    } else {
        printf("%s: refusal %" PRId64 "\n", line, answer.number);
    }
}

static void print_text(const struct sorbilgan_value_answer *answer, const char *text) {
    if (answer->number == SORBILGAN_OK) {
        printf("%.*s\n", (int)answer->value, text);
    } else {
        printf("refusal %" PRId64 "\n", answer->number);
    }
}

static void print_leap_day(const uint8_t *nodes, size_t nodes_length) {
    const struct sorbilgan_moment leap_day = {.year = 2024, .month = 2, .day = 29};
    struct sorbilgan_value_answer answer;
    char text[SORBILGAN_INPUT_LIMIT];

    sorbilgan_write_moment_by(nodes, nodes_length, template_text, template_length, &leap_day, text, sizeof text,
                              &answer);
    print_text(&answer, text);
}

static void print_evening(void) {
    static const char spoken[] = "DD FMMonth YYYY, HH12:MI am";
    struct sorbilgan_value_answer answer;
    char text[SORBILGAN_INPUT_LIMIT];

    sorbilgan_write(spoken, sizeof spoken - 1, 2024, 2, 29, 21, 5, 0, 0, text, sizeof text, &answer);
    print_text(&answer, text);
}

int main(void) {
    uint8_t nodes[SORBILGAN_NODES];
    const int64_t nodes_length = sorbilgan_compile(template_text, template_length, nodes);

    if (nodes_length < 0) {
        printf("the template is refused by %" PRId64 "\n", -nodes_length);
        return 1;
    }
    mark(nodes, (size_t)nodes_length, "ngày 29 tháng 02 năm 2024");
    mark(nodes, (size_t)nodes_length, "ngày 29 tháng 02 năm 2023");
    mark(nodes, (size_t)nodes_length, "ngày hai mươi");
    print_leap_day(nodes, (size_t)nodes_length);
    print_evening();
    return 0;
}
