/*
 * Birthdays, which have no year: a day that its month never has is refused only by the strict setting. examples/c/run
 * builds and runs this.
 */
#include <inttypes.h>
#include <stdio.h>
#include <string.h>

#include "sorbilgan.h"

static const char template_text[] = "DD.MM";
static const size_t template_length = sizeof template_text - 1;

static void ask(uint32_t settings, const char *line) {
    struct sorbilgan_parts_answer answer;

    sorbilgan_parts_with(settings, template_text, template_length, line, strlen(line), &answer);
    if (answer.number == SORBILGAN_NO_SUCH_DAY) {
        printf("%s: there is no such day in any year\n", line);
    } else if (answer.number != SORBILGAN_OK) {
        printf("%s: refusal %" PRId64 "\n", line, answer.number);
    } else if ((answer.marks & SORBILGAN_MONTH_SET) == 0) {
        printf("%s: the month is missing\n", line);
    } else {
        printf("%s: day %" PRId64 " of month %" PRId64 "\n", line, answer.day, answer.month);
    }
}

int main(void) {
    ask(0, "30.02");
    ask(SORBILGAN_STRICT, "30.02");
    ask(SORBILGAN_STRICT, "29.02");
    ask(SORBILGAN_STRICT, "29");
    ask(SORBILGAN_STRICT, "32.01");
    return 0;
}
