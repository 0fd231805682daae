/*
 * The same answers on an exercise page and on a flash card, which takes shorter templates and answers. examples/c/run
 * builds and runs this.
 */
#include <inttypes.h>
#include <stdio.h>
#include <string.h>

#include "sorbilgan.h"

static const char template_text[] = "DD.MM.YYYY";
static const size_t template_length = sizeof template_text - 1;

static void ask(const char *caller, uint32_t settings, const char *input, size_t input_length) {
    struct sorbilgan_value_answer answer;

    sorbilgan_date_with(settings, template_text, template_length, input, input_length, &answer);
    if (answer.number == SORBILGAN_OK) {
        printf("%s, %zu bytes: day %" PRId64 "\n", caller, input_length, answer.value);
    } else {
        printf("%s, %zu bytes: refusal %" PRId64 "\n", caller, input_length, answer.number);
    }
}

int main(void) {
    /* a date, and spaces up to one byte over the limit of a card */
    char input[SORBILGAN_CARDS_INPUT_LIMIT + 1];

    memset(input, ' ', sizeof input);
    memcpy(input, "29.02.2024", 10);
    ask("page", 0, input, 10);
    ask("card", SORBILGAN_CARDS, input, 10);
    ask("page", 0, input, sizeof input);
    ask("card", SORBILGAN_CARDS, input, sizeof input);
    return 0;
}
