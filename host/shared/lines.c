/* lines.c: lines of hexadecimal as the programs take them. */
#define _DEFAULT_SOURCE
#include "lines.h"

#include <string.h>
#include <unistd.h>

enum { CHUNK = 65536 };

static int digit_of(char c)
{
    if (c >= '0' && c <= '9')
        return c - '0';
    if (c >= 'A' && c <= 'F')
        return c - 'A' + 10;
    if (c >= 'a' && c <= 'f')
        return c - 'a' + 10;
    return -1;
}

size_t line_bytes(const char *text, size_t digits, uint8_t *bytes)
{
    size_t i;

    if (digits > LINE_DIGITS || digits % 2 != 0)
        return 0;
    for (i = 0; i < digits; i += 2) {
        int high = digit_of(text[i]), low = digit_of(text[i + 1]);
        if (high < 0 || low < 0)
            return 0;
        bytes[i / 2] = (uint8_t)(high * 16 + low);
    }
    return digits / 2;
}

char *line_text(char *text, const uint8_t *bytes, size_t n)
{
    static const char digits[] = "0123456789ABCDEF";
    size_t i;

    for (i = 0; i < n; i++) {
        *text++ = digits[bytes[i] >> 4];
        *text++ = digits[bytes[i] & 15];
    }
    return text;
}

static char answers[CHUNK];
static size_t answered;

static void flush(void)
{
    size_t done = 0;

    while (done < answered) {
        ssize_t n = write(1, answers + done, answered - done);
        if (n <= 0)
            _exit(1);
        done += (size_t)n;
    }
    answered = 0;
}

static void answer_line(line_answer *answer, const char *line, size_t digits)
{
    static uint8_t bytes[LINE_BYTES];
    char *end;

    if (CHUNK - answered < ANSWER_MOST)
        flush();
    end = answer(bytes, line_bytes(line, digits, bytes), answers + answered);
    *end++ = '\n';
    answered = (size_t)(end - answers);
}

/* The line that is being read: its digits, and how many it would have. */
static char line[LINE_DIGITS + 1];
static size_t line_length;

static void take(const char *text, size_t n)
{
    if (line_length < sizeof line) {
        size_t room = sizeof line - line_length;
        memcpy(line + line_length, text, n < room ? n : room);
    }
    line_length += n;
}

void lines_answer(line_answer *answer)
{
    static char chunk[CHUNK];
    ssize_t got;

    while ((got = read(0, chunk, sizeof chunk)) > 0) {
        const char *at = chunk, *end = chunk + got, *feed;
        while ((feed = memchr(at, '\n', (size_t)(end - at))) != NULL) {
            take(at, (size_t)(feed - at));
            answer_line(answer, line, line_length);
            line_length = 0;
            at = feed + 1;
        }
        take(at, (size_t)(end - at));
        flush();
    }
    if (line_length > 0)
        answer_line(answer, line, line_length);
    flush();
}
