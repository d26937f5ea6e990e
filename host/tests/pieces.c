/* pieces.c: feeds a program with lines that reads cut at every place, and holds
 * its answers against those of the model's program.
 *
 *   pieces bench|reader MODEL COMMAND...
 *
 * MODEL is the model's program, the words COMMAND start the one that is tried.
 * The exit status is 0 where every answer came, when it was due; the first
 * that did not is told. */
#include <stdio.h>
#include <stdlib.h>
#include <string.h>

#include "feed.h"
#include "frames.h"
#include "lines.h"

enum { ACC_I = 0x2, HK = 0xA, ACC_E = 0xB };

static bool of_bench;
static char *model[2], **command;
static unsigned runs;

static void play(const char *name)
{
    if (!feed(name, model, command))
        exit(1);
    runs++;
    input_new();
}

/* ------------------------------------------------------------- lines */

/* A line without its LF. */
struct line {
    char text[4 * LINE_DIGITS];
    size_t n;
};

static struct line line_of(const uint8_t *bytes, size_t n)
{
    struct line l;

    l.n = (size_t)(line_text(l.text, bytes, n) - l.text);
    return l;
}

/* A line whose answer shows what it holds, each time another: bench is asked
 * for a status word, reader hands out a packet. */
static struct line told_line(void)
{
    static unsigned i;
    uint8_t bytes[126];

    i++;
    if (of_bench)
        return line_of(bytes, frame_status(bytes, i % 2, i * 37 % 256,
                                           i * 11 % 256));
    packet_of(bytes, HK, i, 0, i);
    return line_of(bytes, 126);
}

/* A line of so many digits that is not answered as an empty one if it is read
 * up to some digit: a packet, or an ACC-E sample (mode_5), and more. */
static struct line digits(size_t n)
{
    uint8_t bytes[FRAME_MOST];
    struct line l = told_line();

    if (of_bench)
        l = line_of(bytes, frame_sample(bytes, ACC_E, 1));
    while (l.n < n)
        l.text[l.n++] = '7';
    l.n = n;
    return l;
}

/* Lines that are hard to read. */
static const char *const hard[] = {
    "",           "0",         "06",           "060A5A0",  "060a5a07",
    "060A5A07",   "060A5A07A", "060A5A0G",     "G",        "\r",
    "060A5A07\r", "06 0A5A07", "020A00160001", "050A",     "060B5A4F"};

enum { HARD = sizeof hard / sizeof *hard };

static struct line hard_line(unsigned i)
{
    struct line l;

    l.n = strlen(hard[i % HARD]);
    memcpy(l.text, hard[i % HARD], l.n);
    return l;
}

static void put(struct line l)
{
    input_put(l.text, l.n);
    input_put("\n", 1);
}

/* Puts a line with its LF, and ends a piece behind so many characters. */
static void put_cut(struct line l, size_t at)
{
    l.text[l.n++] = '\n';
    input_put(l.text, at);
    input_cut();
    input_put(l.text + at, l.n - at);
}

/* The controller takes ACC-E samples in mode 5 alone; reader refuses this. */
static void mode_5(void)
{
    uint8_t bytes[FRAME_MOST];

    put(line_of(bytes, frame_order(bytes, 0, SET_MODE_ID, 1, 5)));
}

static void poll_pieces(unsigned pieces)
{
    uint8_t bytes[FRAME_MOST];

    for (; pieces > 0; pieces--)
        put(line_of(bytes, frame_poll(bytes, pieces % 2)));
}

/* ------------------------------------------------------------- pieces */

/* Each line in two pieces, cut at each place: before it, behind each
 * character, and behind its LF. */
static void every_place(void)
{
    size_t at, n;
    unsigned i;

    for (i = 0; i < HARD; i++)
        for (n = hard_line(i).n + 1, at = 0; at <= n; at++) {
            put_cut(hard_line(i), at);
            input_cut();
        }
    for (n = told_line().n + 1, at = 0; at <= n; at++) {
        put_cut(told_line(), at);
        input_cut();
    }
    play("lines cut at every place");
}

/* The longest frame, so too, and polls that show every digit of it.  reader has
 * no packet that is as long. */
static void longest_frame(void)
{
    uint8_t bytes[FRAME_MOST];
    size_t at;

    mode_5();
    for (at = 0; at <= 2 * FRAME_MOST + 1; at++) {
        put_cut(line_of(bytes, frame_sample(bytes, ACC_E, (unsigned)at)), at);
        poll_pieces(5);
        input_cut();
    }
    play("the longest frame cut at every place");
}

/* Lines too long by one, by two and by far, cut at many places, near the
 * longest length at each.  Behind each stands a line whose answer would move if
 * an over-long one were taken for two. */
static void too_long(void)
{
    static const size_t more[] = {1, 2, 3, 2 * LINE_DIGITS};
    unsigned i;
    size_t at, n;

    mode_5();
    for (i = 0; i < 4; i++)
        for (n = LINE_DIGITS + more[i], at = 0; at <= n + 1; at++) {
            if ((at + 8 < LINE_DIGITS || at > LINE_DIGITS + 8) && at % 31 != 0)
                continue;
            put_cut(digits(n), at);
            put(told_line());
            input_cut();
        }
    play("over-long lines cut");
}

static void session(unsigned lines)
{
    unsigned i;

    for (i = 0; i < lines; i++)
        put(i % 3 ? hard_line(i) : told_line());
}

static void by_lengths(void)
{
    mode_5();
    session(60);
    put(digits(LINE_DIGITS + 3));
    session(3);
    input_recut(1, 1);
    play("single bytes");
    session(400);
    input_recut(2, 90);
    play("several lines and the start of the next");
}

/* Last lines without LF: in the piece of the line before, in one of their own,
 * in two, and without any line before. */
static void unended(void)
{
    static const size_t lengths[] = {
        1, 2, 3, 7, 8, 251, 252, LINE_DIGITS - 1, LINE_DIGITS,
        LINE_DIGITS + 1, LINE_DIGITS + 2, 3 * LINE_DIGITS};
    enum { LENGTHS = sizeof lengths / sizeof *lengths };
    unsigned i, way;

    for (i = 0; i < LENGTHS + HARD; i++)
        for (way = 0; way < 4; way++) {
            struct line l = i < LENGTHS ? digits(lengths[i])
                                        : hard_line(i - LENGTHS);
            if (way != 3)
                mode_5();
            if (way != 0)
                input_cut();
            input_put(l.text, l.n / 2);
            if (way == 2)
                input_cut();
            input_put(l.text + l.n / 2, l.n - l.n / 2);
            play("an unended last line");
        }
    play("no input");
}

/* ------------------------------------------- pieces as long as a read */

/* Fills the input up to a length with lines, the last one faulty and as long as
 * is left. */
static void fill_up(size_t length)
{
    size_t n = told_line().n + 1;

    while (input_length() + 2 * n < length)
        put(told_line());
    while (input_length() + 1 < length)
        input_put("G", 1);
    if (input_length() < length)
        input_put("\n", 1);
}

/* Full reads that end at each place of a line, of a packet's at many; and a
 * line that goes on over several. */
static void full_reads(void)
{
    size_t at, n = told_line().n + 1, end = FEED_READ, i;

    for (at = 0; at <= n; at += n < 20 || at + 6 > n ? 1 : 7) {
        fill_up(end - at);
        put_cut(told_line(), at);
        end += FEED_READ;
    }
    fill_up(end - LINE_DIGITS);
    for (i = 0; i < 3 * FEED_READ; i++) {
        input_put("7", 1);
        if (input_length() % FEED_READ == 0)
            input_cut();
    }
    input_put("\n", 1);
    session(9);
    play("full reads that end at each place of a line");
}

/* Lines of which the last has the longest answer there is: that to a poll, or
 * an impact record. */
static void put_long_answer(void)
{
    static unsigned count;
    uint8_t bytes[126];
    unsigned place;

    if (of_bench) {
        put(line_of(bytes, frame_command(bytes, 0, HOUSEKEEPING_ID, count++)));
        poll_pieces(1);
        return;
    }
    for (place = 0; place < 7; place++, count++) {
        packet_of(bytes, ACC_I, count, place, count);
        put(line_of(bytes, 126));
    }
}

static void empty_lines(size_t n)
{
    while (n-- > 0)
        input_put("\n", 1);
}

/* Reads that are answered by far more than 64 KiB: empty lines, then long
 * answers; and empty lines with a long answer behind them that begins at many
 * places of what a buffer may hold. */
static void much_to_say(void)
{
    size_t before, end;

    empty_lines(FEED_READ);
    input_cut();
    for (end = input_length() + FEED_READ; input_length() + 2000 < end;)
        put_long_answer();
    input_cut();
    for (before = 60000; before < 66000; before += 150) {
        empty_lines(before / 3);
        put_long_answer();
        input_cut();
    }
    play("answers longer than a buffer");
}

int main(int count, char **words)
{
    if (count < 4) {
        fprintf(stderr, "usage: pieces bench|reader MODEL COMMAND...\n");
        return 2;
    }
    of_bench = strcmp(words[1], "bench") == 0;
    model[0] = words[2];
    command = words + 3;
    every_place();
    if (of_bench)
        longest_frame();
    too_long();
    by_lengths();
    unended();
    full_reads();
    much_to_say();
    printf("%s: %u runs, %lu pieces, every answer when it was due\n", words[1],
           runs, feed_pieces);
    return 0;
}
