/* calls.c: makes so many turns of one kind of call, for an instruction counter
 * to count; the difference of two runs is the cost of the turns between.
 *
 *   calls library|model|none ROW TURNS [FILE]
 *   calls rows                            prints the rows
 *
 * With none, the turns are made and nothing is called: what the loop itself
 * costs.  A row with a FILE takes its frames or packets from it, a line of
 * hexadecimal each. */
#include <stdio.h>
#include <stdlib.h>
#include <string.h>

#include "ssp.h"
#include "frames.h"
#include "model.h"

/* ------------------------------------------------- the library, the model */

static uint8_t state[SSP_STATE_BYTES], reader_state[SSP_READER_BYTES];
static struct model_controller model;
static struct model_reader reader_model;
static uint8_t out[SSP_READER_OUT_BYTES];
static enum { LIBRARY, MODEL, NONE } subject;

static int give(const uint8_t *frame, size_t n)
{
    size_t written;

    if (subject == LIBRARY)
        return ssp_frame(state, sizeof state, frame, n, out, sizeof out);
    if (subject == MODEL)
        return model_frame(&model, frame, n, out, sizeof out, &written);
    return 0;
}

static int read_packet(const uint8_t *packet, size_t n)
{
    size_t written;

    if (subject == LIBRARY)
        return ssp_reader_packet(reader_state, sizeof reader_state, packet, n,
                                 out, sizeof out);
    if (subject == MODEL)
        return model_reader_packet(&reader_model, packet, n, out, sizeof out,
                                   &written);
    return 0;
}

static void start(void)
{
    model_start(&model);
    model_reader_start(&reader_model);
    ssp_start(state, sizeof state);
    ssp_reader_start(reader_state, sizeof reader_state);
}

/* ----------------------------------------------------------- the turns */

/* Frames are made before the turns, so that only calls are counted. */
static uint8_t one[FRAME_MOST], poll[FRAME_MOST];
static size_t one_length;

static void prepared(size_t n)
{
    one_length = n;
    frame_poll(poll, 0);
}

static void turn_one(unsigned turn)
{
    (void)turn;
    give(one, one_length);
}

static void turn_and_polls(unsigned polls)
{
    give(one, one_length);
    while (polls-- > 0)
        give(poll, 2);
}

static void turn_and_poll(unsigned turn)
{
    (void)turn;
    turn_and_polls(1);
}

static void turn_and_five(unsigned turn)
{
    (void)turn;
    turn_and_polls(5);
}

static void order_mode(unsigned mode)
{
    uint8_t frame[FRAME_MOST];

    give(frame, frame_order(frame, 0, SET_MODE_ID, 1, mode));
}

static void fill(unsigned pieces)
{
    uint8_t frame[FRAME_MOST];
    size_t n = frame_command(frame, 0, HOUSEKEEPING_ID, 1);

    while (pieces-- > 0)
        give(frame, n);
}

static void tick_1(unsigned filled)
{
    fill(filled);
    prepared(frame_tick(one, 10));
}

static void tick_4(unsigned filled)
{
    fill(filled);
    order_mode(4);
    prepared(frame_tick(one, 10));
}

static void tick_collecting(unsigned filled)
{
    unsigned i;

    tick_4(filled);
    frame_tick(one, 500);
    for (i = 0; i < 3; i++)
        give(one, one_length);
}

static void broadcast(unsigned filled)
{
    fill(filled);
    prepared(frame_broadcast(one, 0, 40, 9000));
}

static void status_a(unsigned filled)
{
    fill(filled);
    prepared(frame_status(one, 0, 0x5A, 0xFF));
}

static void status_b(unsigned filled)
{
    fill(filled);
    prepared(frame_status(one, 1, 0x5A, 0xFF));
}

static void sample_of(unsigned stream)
{
    order_mode(5);
    prepared(frame_sample(one, stream, 5));
}

static void housekeeping(unsigned filled)
{
    fill(filled);
    prepared(frame_command(one, 0, HOUSEKEEPING_ID, 1));
}

static void clear_none(unsigned filled)
{
    fill(filled);
    prepared(frame_order(one, 0, CLEAR_STREAMS_ID, 1, 4));
}

static void set_mode(unsigned mode)
{
    prepared(frame_order(one, 0, SET_MODE_ID, 1, mode));
}

static void analogue(unsigned seed)
{
    prepared(frame_analogue(one, seed));
}

static void no_frame(unsigned unused)
{
    (void)unused;
    prepared(0);
}

static void empty_poll(unsigned channel)
{
    prepared(frame_poll(one, channel));
}

/* A whole datastream packet of a stream, piece by piece. */
static uint8_t pieces[7][SSP_PACKET_BYTES];
static unsigned piece_stream;

static void stream(unsigned number_of_it)
{
    unsigned i;

    piece_stream = number_of_it;
    for (i = 0; i < stream_pieces(piece_stream); i++)
        packet_of(pieces[i], piece_stream, 0, i, 5);
}

static void turn_packet(unsigned turn)
{
    unsigned i, all = stream_pieces(piece_stream);

    for (i = 0; i < all; i++) {
        put_number(pieces[i] + 6, 2, (turn * all + i) % 4096 * 16 + piece_stream);
        read_packet(pieces[i], SSP_PACKET_BYTES);
    }
}

static void turn_repeat(unsigned turn)
{
    (void)turn;
    read_packet(pieces[0], SSP_PACKET_BYTES);
}

/* --------------------------------------------------------- from a file */

static uint8_t *lines;
static size_t *ends;
static unsigned line_count;

static void load(const char *path)
{
    char text[1100];
    FILE *file = fopen(path, "r");
    size_t used = 0, i;

    if (file == NULL)
        exit(2);
    lines = malloc(64u << 20);
    ends = malloc((4u << 20) * sizeof *ends);
    while (lines != NULL && ends != NULL && fgets(text, sizeof text, file)) {
        for (i = 0; text[i] != '\n' && text[i] != 0; i += 2) {
            char digits[3] = {text[i], text[i + 1], 0};
            lines[used++] = (uint8_t)strtoul(digits, NULL, 16);
        }
        ends[line_count++] = used;
    }
    fclose(file);
}

static void nothing(unsigned unused)
{
    (void)unused;
}

static void turn_line(unsigned turn)
{
    size_t from = turn == 0 ? 0 : ends[turn - 1];

    if (turn < line_count)
        give(lines + from, ends[turn] - from);
}

static void turn_packet_line(unsigned turn)
{
    size_t from = turn == 0 ? 0 : ends[turn - 1];

    if (turn < line_count)
        read_packet(lines + from, ends[turn] - from);
}

/* ------------------------------------------------------------- the rows */

static const struct row {
    const char *name;
    void (*prepare)(unsigned);
    unsigned with;
    void (*turn)(unsigned);
    const char *text;
} rows[] = {
    {"tick-1", tick_1, 0, turn_one, "tick, mode 1"},
    {"tick-4", tick_4, 0, turn_one, "tick, mode 4"},
    {"tick-collecting", tick_collecting, 0, turn_one, "tick while collecting"},
    {"broadcast", broadcast, 0, turn_one, "broadcast"},
    {"status-a", status_a, 0, turn_one, "status word A"},
    {"status-b", status_b, 0, turn_one, "status word B"},
    {"sample-api-v", sample_of, 4, turn_one, "sample API-V (a 36th of a packet)"},
    {"sample-den", sample_of, 5, turn_one, "sample DEN (a 72nd of a packet)"},
    {"sample-til", sample_of, 9, turn_one, "sample TIL (an 18th of a packet)"},
    {"sample-acc-e", sample_of, 11, turn_and_five, "sample ACC-E and its five polls"},
    {"housekeeping", housekeeping, 0, turn_and_poll, "housekeeping command and its poll"},
    {"analogue", analogue, 1, turn_one, "analogue"},
    {"set-mode-2", set_mode, 2, turn_one, "set mode 2"},
    {"set-mode-4", set_mode, 4, turn_one, "set mode 4 (the ring is emptied)"},
    {"poll-empty", empty_poll, 0, turn_one, "poll, nothing waits"},
    {"no-frame", no_frame, 0, turn_one, "empty frame"},
    {"reader-hk", stream, 10, turn_packet, "reader: a housekeeping packet, handed out"},
    {"reader-acc-e", stream, 11, turn_packet, "reader: five ACC-E pieces, handed out"},
    {"reader-acc-i", stream, 2, turn_packet, "reader: seven ACC-I pieces, handed out"},
    {"reader-repeat", stream, 11, turn_repeat, "reader: a repeat"},
    {"tick-fill-0", tick_4, 0, turn_one, "tick, mode 4, 0 slots taken"},
    {"tick-fill-24", tick_4, 24, turn_one, "tick, mode 4, 24 slots taken"},
    {"tick-fill-48", tick_4, 48, turn_one, "tick, mode 4, 48 slots taken"},
    {"status-fill-0", status_a, 0, turn_one, "status word A, 0 slots taken"},
    {"status-fill-48", status_a, 48, turn_one, "status word A, 48 slots taken"},
    {"hk-fill-0", housekeeping, 0, turn_and_poll, "housekeeping and poll, 0 slots taken"},
    {"hk-fill-24", housekeeping, 24, turn_and_poll, "housekeeping and poll, 24 slots taken"},
    {"hk-fill-47", housekeeping, 47, turn_and_poll, "housekeeping and poll, 47 slots taken"},
    {"clear-fill-0", clear_none, 0, turn_one, "clear of another stream, 0 slots taken"},
    {"clear-fill-24", clear_none, 24, turn_one, "clear of another stream, 24 slots taken"},
    {"clear-fill-48", clear_none, 48, turn_one, "clear of another stream, 48 slots taken"},
    {"descent", nothing, 0, turn_line, "descent, a frame"},
    {"descent-packets", nothing, 0, turn_packet_line, "descent, a packet"},
};

int main(int count, char **words)
{
    unsigned i, turn, turns = count > 3 ? (unsigned)atoi(words[3]) : 0;
    const struct row *row = NULL;

    for (i = 0; i < sizeof rows / sizeof *rows; i++) {
        if (count == 2)
            printf("%s\t%s\n", rows[i].name, rows[i].text);
        else if (count > 3 && strcmp(rows[i].name, words[2]) == 0)
            row = &rows[i];
    }
    if (row == NULL)
        return count == 2 ? 0 : 2;
    subject = strcmp(words[1], "library") == 0 ? LIBRARY
              : strcmp(words[1], "model") == 0 ? MODEL
                                               : NONE;
    if (count > 4)
        load(words[4]);
    start();
    row->prepare(row->with);
    for (turn = 0; turn < turns; turn++)
        row->turn(turn);
    return 0;
}
