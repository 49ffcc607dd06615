/* The proved calls for C. Link libjavrenzu_calls.a (`tools/build javrenzu_calls` writes target/staticlib/libjavrenzu_calls.a).
 *
 * A listing is lent as columns:
 *   lines   one word a line    token_end * 512 + has_address * 256 + indent
 *   tokens  one word a token   text_end * 256 + kind (0 text, 1 register, 2 number, 3 keyword, 4 symbol, 5 address, 6 punct, 7 prefix)
 *   text    the tokens' UTF-8, end to end
 * A line's tokens run from the end of the line before (0 for the first) to its own end; a token's bytes likewise.
 *
 * A call answers 0, or the number of the first question that it refuses by:
 *   1  more than 1,024 lines, 16,384 tokens or 262,144 bytes of text
 *   2  the ends fall, do not cover the column below, or a kind is above 7
 *   3  a token's text is no UTF-8
 *   4  an output is too short
 *   5  the working space is too short
 *   6  a loop pass: an indent would leave 0 to 255
 *   7  fewer than two lines
 *   8  a brace does not match
 *   9  a goto leads to no label
 *  10  the text is no listing in JSON, or it does not fit
 * 1 to 5 write nothing. 6 to 10 leave all lent output and working memory zero. After 0 the outputs are filled in order, what is
 * beyond the results is zero, and the working space is zero. No slice may overlap another. */
#ifndef JAVRENZU_H
#define JAVRENZU_H

#include <stddef.h>
#include <stdint.h>

#define JAVRENZU_NO_FAMILY UINT32_MAX
/* The words of working space for n lines. */
#define JAVRENZU_WORKING_SPACE(n) (4 * (size_t)(n) * (((size_t)(n) + 63) / 64) + 8 * (size_t)(n) + 64)

/* The web call: numbers and marks take one entry a token, the web number (JAVRENZU_NO_FAMILY where the token has no register family)
 * and 1 where it is a definition. *sweeps is the total number of sweeps, 0 on refusal. */
size_t javrenzu_webs(const uint32_t *lines, size_t lines_len, const uint32_t *tokens, size_t tokens_len, const uint8_t *text, size_t text_len,
                     uint32_t *numbers, size_t numbers_len, uint8_t *marks, size_t marks_len, uint64_t *space, size_t space_len, size_t *sweeps);

/* The split call: the same outputs, the count of split points of the token's family up to its line, and 1 where the line is one. It needs no
 * working space and asks questions 1 to 4. */
size_t javrenzu_splits(const uint32_t *lines, size_t lines_len, const uint32_t *tokens, size_t tokens_len, const uint8_t *text, size_t text_len,
                       uint32_t *numbers, size_t numbers_len, uint8_t *marks, size_t marks_len);

/* The chooser: webs, or splits where webs would be refused 7, 8 or 9; it asks questions 1 to 5. *choice is 1 for webs, 2 for splits, 0 on
 * refusal; *sweeps is the total number of sweeps of webs, else 0. */
size_t javrenzu_choose(const uint32_t *lines, size_t lines_len, const uint32_t *tokens, size_t tokens_len, const uint8_t *text, size_t text_len,
                       uint32_t *numbers, size_t numbers_len, uint8_t *marks, size_t marks_len, uint64_t *space, size_t space_len,
                       size_t *choice, size_t *sweeps);

/* Guarded do-while loops made `while` and `for`; addresses is one word a line. The rewritten listing fills rows, places (its addresses), words
 * (its tokens) and bytes (its text), which need lines, lines, tokens + 8 * lines and text + 32 * lines entries. *nlines, *ntokens and *nbytes
 * are how much of them is filled, 0 on refusal. It asks questions 1 to 4 and 6. */
size_t javrenzu_recover_loops(const uint32_t *lines, size_t lines_len, const uint64_t *addresses, size_t addresses_len,
                              const uint32_t *tokens, size_t tokens_len, const uint8_t *text, size_t text_len,
                              uint32_t *rows, size_t rows_len, uint64_t *places, size_t places_len, uint32_t *words, size_t words_len,
                              uint8_t *bytes, size_t bytes_len, size_t *nlines, size_t *ntokens, size_t *nbytes);

/* Labels and gotos made `while` and `for`; as javrenzu_recover_loops. */
size_t javrenzu_recover_goto_loops(const uint32_t *lines, size_t lines_len, const uint64_t *addresses, size_t addresses_len,
                                   const uint32_t *tokens, size_t tokens_len, const uint8_t *text, size_t text_len,
                                   uint32_t *rows, size_t rows_len, uint64_t *places, size_t places_len, uint32_t *words, size_t words_len,
                                   uint8_t *bytes, size_t bytes_len, size_t *nlines, size_t *ntokens, size_t *nbytes);

/* The listing in a JSON text, packed into the columns. It asks question 10 only. */
size_t javrenzu_read_json(const uint8_t *json, size_t json_len, uint32_t *lines, size_t lines_len, uint64_t *addresses, size_t addresses_len,
                          uint32_t *tokens, size_t tokens_len, uint8_t *text, size_t text_len, size_t *nlines, size_t *ntokens, size_t *nbytes);

/* The JSON text of a listing: *nbytes is its length, 0 on refusal. It asks questions 1 to 4, 4 for the exact text. */
size_t javrenzu_write_json(const uint32_t *lines, size_t lines_len, const uint64_t *addresses, size_t addresses_len,
                           const uint32_t *tokens, size_t tokens_len, const uint8_t *text, size_t text_len,
                           uint8_t *json, size_t json_len, size_t *nbytes);

#endif
