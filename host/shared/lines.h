/* lines.h: lines of hexadecimal as the programs take them: either case, at
 * most LINE_DIGITS digits, LF; a last line may lack it if not empty; a faulty
 * or over-long line counts as empty. */
#ifndef LINES_H
#define LINES_H

#include <stddef.h>
#include <stdint.h>

enum { LINE_DIGITS = 1028, LINE_BYTES = LINE_DIGITS / 2, ANSWER_MOST = 2048 };

/* The bytes of a line of so many digits; 0 where it is faulty or too long. */
size_t line_bytes(const char *text, size_t digits, uint8_t *bytes);

/* Writes bytes as digits, in capitals; returns where the text then ends. */
char *line_text(char *text, const uint8_t *bytes, size_t n);

/* Answers a line's bytes: writes text, without LF, and returns its end. */
typedef char *line_answer(const uint8_t *bytes, size_t n, char *text);

/* Answers every line of standard input on standard output. */
void lines_answer(line_answer *answer);

#endif
