/* The web call on document 01's listing 1, in C:
 *   cc -I bindings/include bindings/examples/webs.c target/staticlib/libjavrenzu_calls.a -o webs && ./webs */
#include <stdio.h>
#include <stdlib.h>
#include <string.h>

#include "javrenzu.h"

enum { REGISTER = 1, NUMBER = 2, KEYWORD = 3, SYMBOL = 4, PUNCT = 6 };

static uint32_t lines[16], tokens[64];
static uint8_t text[1024];
static size_t line_count, token_count, text_length;

static void token(const char *s, uint32_t kind) {
    memcpy(text + text_length, s, strlen(s));
    text_length += strlen(s);
    tokens[token_count++] = (uint32_t)text_length * 256 + kind;
}

static void end_line(uint32_t indent) { lines[line_count++] = (uint32_t)token_count * 512 + indent; }

int main(void) {
    token("int f()", SYMBOL), end_line(0);
    token("{", PUNCT), end_line(0);
    token("rax", REGISTER), token(" = ", PUNCT), token("1", NUMBER), token(";", PUNCT), end_line(1);
    token("g", SYMBOL), token("(", PUNCT), token("rax", REGISTER), token(");", PUNCT), end_line(1);
    token("rax", REGISTER), token(" = ", PUNCT), token("2", NUMBER), token(";", PUNCT), end_line(1);
    token("return", KEYWORD), token(" ", PUNCT), token("rax", REGISTER), token(";", PUNCT), end_line(1);
    token("}", PUNCT), end_line(0);

    uint32_t numbers[64];
    uint8_t marks[64];
    size_t words = JAVRENZU_WORKING_SPACE(line_count), sweeps;
    uint64_t *space = malloc(words * sizeof *space);
    size_t refusal = javrenzu_webs(lines, line_count, tokens, token_count, text, text_length, numbers, 64, marks, 64, space, words, &sweeps);
    free(space);
    if (refusal != 0) {
        printf("refused %zu\n", refusal);
        return 1;
    }
    for (size_t t = 0, i = 0; t < token_count; t++) {
        while (t >= lines[i] / 512) i++;
        if (numbers[t] != JAVRENZU_NO_FAMILY) printf("line %zu: web %u%s\n", i, numbers[t], marks[t] ? ", defined" : "");
    }
    printf("%zu sweeps\n", sweeps);
    return 0;
}
