/*
 * A letter with accents may be typed as one, two or three characters. With SORBILGAN_ACCENTS it counts as one, and each
 * line is read; without it each character counts. An author's template is asked whether a mark counts alone in it.
 * examples/c/run builds and runs this.
 */
#include <inttypes.h>
#include <stdio.h>
#include <string.h>

#include "sorbilgan.h"

/* the letter of the template is one character, U+1EE9 */
static const char template_text[] = "\"thứ\"DD.MM";
static const size_t template_length = sizeof template_text - 1;

static void ask(const char *counted, uint32_t settings, const char *line) {
    struct sorbilgan_parts_answer answer;

    sorbilgan_parts_with(settings, template_text, template_length, line, strlen(line), &answer);
    if (answer.number == SORBILGAN_OK) {
        printf("  %s: day %" PRId64 " of month %" PRId64 "\n", counted, answer.day, answer.month);
    } else {
        printf("  %s: refusal %" PRId64 "\n", counted, answer.number);
    }
}

static void mark(const char *spelled, const char *line) {
    printf("%s, %s\n", line, spelled);
    ask("each character", 0, line);
    ask("with accents", SORBILGAN_ACCENTS, line);
}

static void test(const char *text) {
    uint8_t nodes[SORBILGAN_NODES];
    const size_t length = strlen(text);
    const int64_t nodes_length = sorbilgan_compile_with(SORBILGAN_ACCENTS, text, length, nodes);

    if (nodes_length < 0) {
        printf("%s is refused by %" PRId64 "\n", text, -nodes_length);
    } else if (sorbilgan_has_lone_mark(nodes, (size_t)nodes_length, text, length)) {
        printf("%s: a mark counts alone\n", text);
    } else {
        printf("%s: no mark counts alone\n", text);
    }
}

int main(void) {
    mark("U+1EE9", "th\xe1\xbb\xa9" "29.02");
    mark("U+01B0 U+0301", "th\xc6\xb0\xcc\x81" "29.02");
    mark("U+00FA U+031B", "th\xc3\xba\xcc\x9b" "29.02");
    mark("u U+031B U+0301", "thu\xcc\x9b\xcc\x81" "29.02");
    mark("u U+0301 U+031B", "thu\xcc\x81\xcc\x9b" "29.02");
    test("\"th\xc6\xb0\xcc\x81\"DD.MM");
    test("\"th\xc6\xb0\"\xcc\x81" "DD.MM");
    return 0;
}
