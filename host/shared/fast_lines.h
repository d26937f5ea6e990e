/* fast_lines.h: lines of hexadecimal as lines.h has them, answered fast: the
 * plain C that the proved programs are measured against.  Digits are read
 * where the read put them, by a table of 256 values; bytes are written by a
 * table of 256 pairs of digits.  A header, so that the compiler can put a
 * program's answer into the loop.  The program defines _DEFAULT_SOURCE. */
#ifndef FAST_LINES_H
#define FAST_LINES_H

#include <string.h>
#include <unistd.h>

#include "lines.h"

enum {
    FAST_KEPT = LINE_DIGITS + 1, /* of an open line: enough to be too long */
    FAST_READ = 65536,
    FAST_ROOM = 131072,
    FAST_NONE = -256 /* no digit: whatever stands beside it, less than 0 */
};

/* What is kept of an open line ends where the next read begins, so that every
 * line stands in one piece.  Behind what was read there is room for an LF and
 * the character behind it, since digits are looked at in pairs. */
static unsigned char fast_input[FAST_KEPT + FAST_READ + 2];
static char fast_answers[FAST_ROOM];
static int16_t fast_value[256]; /* a digit's value, or FAST_NONE */
static char fast_pair[256][2];

static void fast_tables(void)
{
    static const char capitals[] = "0123456789ABCDEF";
    static const char small[] = "0123456789abcdef";
    int i;

    for (i = 0; i < 256; i++) {
        fast_value[i] = FAST_NONE;
        fast_pair[i][0] = capitals[i / 16];
        fast_pair[i][1] = capitals[i % 16];
    }
    for (i = 0; i < 16; i++)
        fast_value[(int)capitals[i]] = fast_value[(int)small[i]] = (int16_t)i;
}

/* As line_text of lines.h. */
static inline char *fast_text(char *text, const uint8_t *bytes, size_t n)
{
    size_t i;

    for (i = 0; i < n; i++, text += 2)
        memcpy(text, fast_pair[bytes[i]], 2);
    return text;
}

static void fast_write(const char *text, const char *end)
{
    while (text < end) {
        ssize_t n = write(1, text, (size_t)(end - text));
        if (n <= 0)
            _exit(1);
        text += n;
    }
}

/* Reads digits up to what is none: returns where that is, or a digit before it
 * that lacks its second, and in *n the bytes before.  An LF stops it at the
 * latest, so nothing is counted on the way; there is room for all that can
 * stand before one. */
static inline const unsigned char *fast_bytes(const unsigned char *at,
                                              uint8_t *bytes, size_t *n)
{
    uint8_t *to = bytes;
    int byte;

    while ((byte = fast_value[at[0]] * 16 + fast_value[at[1]]) >= 0) {
        *to++ = (uint8_t)byte;
        at += 2;
    }
    *n = (size_t)(to - bytes);
    return at;
}

/* Answers every line of standard input on standard output. */
static inline void fast_lines_answer(line_answer *answer)
{
    static uint8_t bytes[sizeof fast_input / 2];
    unsigned char *const chunk = fast_input + FAST_KEPT;
    size_t kept = 0;
    ssize_t got;

    fast_tables();
    do {
        const unsigned char *line = chunk - kept;
        unsigned char *end = chunk;
        char *text = fast_answers;

        got = read(0, chunk, FAST_READ);
        if (got > 0)
            end += got;
        else if (kept > 0)
            *end++ = '\n'; /* the end of input ends an open line */
        else
            break;
        *end = '\n'; /* stops the reading of digits, and is no line's end */
        for (;;) {
            size_t n;
            const unsigned char *at = fast_bytes(line, bytes, &n);

            if (*at != '\n' || n > LINE_BYTES) {
                at = memchr(at, '\n', (size_t)(end + 1 - at));
                n = 0;
            }
            if (at == end)
                break;
            if (fast_answers + FAST_ROOM - text < ANSWER_MOST) {
                fast_write(fast_answers, text);
                text = fast_answers;
            }
            text = answer(bytes, n, text);
            *text++ = '\n';
            line = at + 1;
        }
        fast_write(fast_answers, text);
        kept = (size_t)(end - line);
        if (kept > FAST_KEPT)
            kept = FAST_KEPT;
        memmove(chunk - kept, line, kept);
    } while (got > 0);
}

#endif
