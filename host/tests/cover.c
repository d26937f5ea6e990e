/* cover.c: how often each reply, kind, change of mode and situation came. */
#include "cover.h"

#include <stdio.h>
#include <string.h>

#include "frames.h"
#include "ledger.h"

/* ---------------------------------------------------------- situations */

enum situation {
    TICK_448_AT_40, TICK_448_AT_41, TICK_448_AT_42, TICK_448_AT_43,
    TICK_448_AGAIN, BROADCAST_COLLECTING, BROADCAST_COLLECTING_1860,
    MODE_4_1859, MODE_4_1860, MODE_5_ENTRY_179, MODE_5_ENTRY_180,
    MODE_5_IMPACT_179, MODE_5_IMPACT_180, RECORD_LOCKED, ABANDONED,
    M_STAYS, READING_2047, READING_2048, READING_4095, READING_80,
    READING_81, QUEUE_FULL, CLEAR_HALF_POLLED, CLEAR_OPEN, CLEAR_COLLECTING,
    MODE_CHANGE_OPEN, ERRORS_WRAP, COMMANDS_WRAP, BROADCASTS_A_WRAP,
    BROADCASTS_B_WRAP, PACKETS_A_WRAP, PACKETS_B_WRAP, TELEMETRY_A_WRAP,
    TELEMETRY_B_WRAP, TELEMETRY_16384, LATE_BROADCAST,
    MISSING_NONE, MISSING_SOME, MISSING_MOST_FIRST, MISSING_MOST_BETWEEN,
    ARRIVED_WHOLE, ARRIVED_PART, SHORT_AT_LAST, DEN_0FFF, DEN_1000,
    ID_NEAR, SITUATIONS
};

static const char *const situation_names[SITUATIONS] = {
    "448th tick, 40 slots taken", "448th tick, 41 slots taken",
    "448th tick refused, 42 slots taken", "448th tick refused, 43 slots taken",
    "448th tick again after a refusal", "broadcast while collecting",
    "broadcast 1,860 past entry while collecting",
    "mode 4, T 1,859 past entry", "mode 4, T 1,860 past entry",
    "mode 5, T 179 past entry", "mode 5, T 180 past entry",
    "mode 5, T 179 past impact", "mode 5, T 180 past impact",
    "record complete in locked mode 4", "collection abandoned by command",
    "tick with m at 1,023", "reading 2,047 in mode 4",
    "reading 2,048 in mode 4", "reading 4,095 in mode 4",
    "reading 80 in mode 4", "reading 81 in mode 4", "queue full",
    "clear of a half-polled packet", "clear of open samples",
    "clear of ACC-I while collecting", "mode changed with a packet open",
    "256th error", "65,536th command", "65,536th broadcast on A",
    "65,536th broadcast on B", "65,536th command packet on A",
    "65,536th command packet on B", "65,536th poll on A",
    "65,536th poll on B", "16,384th poll", "broadcast back in time",
    "arrival right after the last", "arrival after some went missing",
    "first arrival after 4,094 missing", "arrival after 4,094 missing",
    "a packet arrived whole", "a piece arrived, its packet not yet or never",
    "finishing piece refused with 24", "DEN sample of 0FFF",
    "DEN sample of 1000", "packet whose ID is wrong in one bit"};

static unsigned long situations[SITUATIONS];

static const char *const outside_names[COVER_OUTSIDE] = {
    "state of each length to past the least",
    "output of each length to past the least",
    "reader's state of each length to past the least",
    "reader's output of each length to past the least",
    "damaged state refused with 10", "damaged state that behaves",
    "damaged reader's state refused with 25",
    "damaged reader's state that behaves",
    "state so long that its length wraps to a short one",
    "output so long that its length wraps to a short one",
    "reader's state so long that its length wraps to a short one",
    "reader's output so long that its length wraps to a short one"};

static unsigned long outside[COVER_OUTSIDE];

static void came(enum situation s, bool so)
{
    situations[s] += so;
}

void cover_outside(enum cover_outside situation)
{
    outside[situation]++;
}

/* --------------------------------------------------------------- tables */

/* Which replies a frame's kind may get; 0 stands for an unknown kind. */
static const unsigned char may[8][10] = {
    {0, 1, 0, 0, 0, 0, 0, 0, 1, 0}, {1, 1, 0, 0, 0, 1, 0, 0, 1, 0},
    {1, 1, 1, 1, 1, 0, 0, 1, 1, 0}, {1, 1, 0, 0, 1, 0, 0, 1, 1, 0},
    {1, 1, 1, 1, 1, 0, 1, 1, 1, 0}, {1, 1, 0, 0, 0, 0, 0, 0, 1, 1},
    {1, 1, 0, 0, 0, 0, 0, 0, 1, 0}, {1, 1, 0, 0, 0, 0, 0, 0, 1, 0}};

static unsigned long replies[8][10];
static unsigned long reader_replies[26];
static unsigned long commands[3][2];       /* by id, by channel */
static unsigned long changes[8][8];        /* by broadcast */
static unsigned long record_ends;          /* 4 to 5 by a record's end */
static unsigned char ordered[16][16];      /* by command */
static unsigned long closings[12];         /* refused with 7, by stream */
static unsigned long past_4096[12];        /* pieces, by stream */

static const unsigned distances[] = {0, 1, 2, 5, 6, 7, 8, 4095};
enum { DISTANCES = sizeof distances / sizeof *distances };
static unsigned long steps[12][DISTANCES]; /* d, by stream */

/* Pieces at later places that open with 88 88, and with 99 99, by stream and
 * by what became of the gathering. */
enum onward { GOES_ON, DROPPED, NONE_RAN, CAME_AGAIN, ONWARDS };
static unsigned long opened[12][2][ONWARDS];

/* Lengths that are wrong, but right after they wrapped at these. */
static const unsigned wraps[] = {256, 512, 1024, 65536};
enum { WRAPS = sizeof wraps / sizeof *wraps, PACKETS = 0 };
static unsigned long wrapped[8][WRAPS];      /* frames by kind; packets */
static unsigned long out_wrapped[2][WRAPS];  /* ssp_frame, the reader */

/* "Tested in the order": by kind, the reply given and one behind it. */
static const unsigned in_order[] = {8, 1, 2, 3, 4, 5, 6, 7, 9};
enum { ORDERED = sizeof in_order / sizeof *in_order };
static unsigned long together[8][10][10];

static const unsigned in_readers_order[] = {24, 20, 21, 22};
enum { READERS_ORDERED = sizeof in_readers_order / sizeof *in_readers_order };
static unsigned long readers_together[READERS_ORDERED][READERS_ORDERED];

/* --------------------------------------------------------------- frames */

static void cover_counts(const struct play_before *b,
                         const struct model_controller *a)
{
    unsigned i;

    came(ERRORS_WRAP, b->error_count == 255 && a->error_count == 0);
    came(COMMANDS_WRAP, b->counts[0] == 65535 && a->command_count == 0);
    for (i = 0; i < 2; i++) {
        came(BROADCASTS_A_WRAP + i,
             b->counts[1 + i] == 65535 && a->broadcast_count[i] == 0);
        came(PACKETS_A_WRAP + i,
             b->counts[3 + i] == 65535 && a->command_packet_count[i] == 0);
        came(TELEMETRY_A_WRAP + i,
             b->counts[5 + i] == 65535 && a->telemetry_count[i] == 0);
        came(TELEMETRY_16384,
             b->counts[5 + i] == 16383 && a->telemetry_count[i] == 16384);
    }
}

static void cover_tick(const struct play_before *b,
                       const struct model_controller *a, unsigned reading,
                       int reply)
{
    static bool refused;

    if (b->collecting && b->further < 447)
        refused = false;
    if (b->collecting && b->further == 447 && reading <= 4095) {
        if (b->waiting >= 40 && b->waiting <= 43)
            came(TICK_448_AT_40 + (b->waiting - 40), true);
        came(TICK_448_AGAIN, refused && reply == 0);
        came(RECORD_LOCKED, b->locked && reply == 0);
        record_ends += reply == 0 && a->mode == 5;
        refused = reply == 7;
    }
    if (reply != 0)
        return;
    came(M_STAYS, a->m == 1023);
    if (b->mode != 4 || b->impact)
        return;
    came(READING_2047, reading == 2047);
    came(READING_2048, reading == 2048);
    came(READING_4095, reading == 4095);
    came(READING_80, reading == 80);
    came(READING_81, reading == 81);
}

static void cover_broadcast(const struct play_before *b,
                            const struct model_controller *a, int reply)
{
    unsigned past = a->seconds - b->entry_second;
    bool by_entry = b->reference_second == b->entry_second;

    came(LATE_BROADCAST, reply == 5);
    if (reply != 0 || b->locked)
        return;
    changes[b->mode][a->mode]++;
    came(BROADCAST_COLLECTING, b->collecting);
    if (b->mode == 4) {
        came(BROADCAST_COLLECTING_1860, b->collecting && past >= 1860);
        came(MODE_4_1859, !b->collecting && past == 1859);
        came(MODE_4_1860, !b->collecting && past == 1860);
    } else if (b->mode == 5) {
        past = a->seconds - b->reference_second;
        came(by_entry ? MODE_5_ENTRY_179 : MODE_5_IMPACT_179, past == 179);
        came(by_entry ? MODE_5_ENTRY_180 : MODE_5_IMPACT_180, past == 180);
    }
}

static void cover_command(const struct play_before *b, const uint8_t *frame)
{
    unsigned value = frame[3] == HOUSEKEEPING_ID ? 0
                                                 : (unsigned)number(frame + 6, 2);
    unsigned channel = frame[1] == 0x0B;

    if (frame[3] == SET_MODE_ID) {
        commands[2][channel]++;
        ordered[b->mode + 8 * b->locked][value] = 1;
        came(ABANDONED, b->collecting);
    } else if (frame[3] == CLEAR_STREAMS_ID) {
        commands[0][channel]++;
        came(CLEAR_OPEN, b->open && (value & 0x0270) != 0);
        came(CLEAR_COLLECTING, b->collecting && (value & 4) != 0);
        came(CLEAR_HALF_POLLED,
             b->waiting > 0 && (value >> b->head_stream & 1) != 0 &&
                 b->head_index % stream_pieces(b->head_stream) != 0);
    } else {
        commands[1][channel]++;
    }
}

/* The length of a right frame that begins so; 0 where there is none. */
static size_t right_length(const uint8_t *frame, size_t n)
{
    static const unsigned char lengths[8] = {0, 8, 8, 3, 2, 2, 4, 59};

    if (frame[0] == 2 && n >= 4 && frame[3] == HOUSEKEEPING_ID)
        return 6;
    if (frame[0] == 4 && n >= 2)
        return 2 + sample_size(frame[1]);
    return frame[0] < 8 ? lengths[frame[0]] : 0;
}

static void cover_wrap(unsigned long *counts, size_t n, size_t right)
{
    unsigned i;

    for (i = 0; i < WRAPS; i++)
        counts[i] += n > right && n % wraps[i] == right % wraps[i];
}

static void cover_out_wrap(unsigned long *counts, size_t n, size_t least)
{
    unsigned i;

    for (i = 0; i < WRAPS; i++)
        counts[i] += n >= least && n % wraps[i] < least;
}

static bool channel_known(const uint8_t *frame, size_t n)
{
    return n >= 2 && (frame[1] == 0x0A || frame[1] == 0x0B);
}

/* Which replies a command would get if each were asked for alone: a bit each.
 * No room is what would refuse housekeeping, whatever the command is. */
static unsigned applying_to_command(const struct play_before *b,
                                    const uint8_t *frame, size_t n)
{
    unsigned bits = n < 6 || !channel_known(frame, n) ? 1u << 1 : 0;
    unsigned id, value = 0;

    bits |= b->waiting == MODEL_SLOTS ? 1u << 7 : 0;
    if (n < 6)
        return bits;
    id = (unsigned)number(frame + 2, 2);
    if (n >= 8)
        value = (unsigned)number(frame + 6, 2);
    if (id != CLEAR_STREAMS_ID && id != HOUSEKEEPING_ID && id != SET_MODE_ID)
        return bits | 1u << 2;
    if (n != (id == HOUSEKEEPING_ID ? 6 : 8))
        bits |= 1u << 3;
    if ((id == CLEAR_STREAMS_ID && (value & ~0x0E74u) != 0) ||
        (id == SET_MODE_ID && value > 15))
        bits |= 1u << 4;
    return bits;
}

static unsigned applying_to_sample(const struct play_before *b,
                                   const uint8_t *frame, size_t n)
{
    unsigned stream, pieces, bits = 0;

    if (n < 2)
        return 1u << 1;
    stream = frame[1];
    pieces = 1;
    if (sample_size(stream) == 0) {
        bits |= 1u << 2;
    } else {
        pieces = stream_pieces(stream);
        bits |= n != 2 + sample_size(stream) ? 1u << 3 : 0;
        if (stream == 5 && n >= 4 && number(frame + 2, 2) > 0x0FFF)
            bits |= 1u << 4;
    }
    if (stream == 11 ? b->mode != 5 : b->mode < 1 || b->mode > 6)
        bits |= 1u << 6;
    if ((bits & 1u << 2 || b->lacking >> stream & 1) &&
        b->waiting + pieces > MODEL_SLOTS)
        bits |= 1u << 7;
    return bits;
}

static unsigned applying(const struct play_before *b, const uint8_t *frame,
                         size_t n)
{
    switch (n == 0 ? 0 : frame[0]) {
    case 1:
        return (n != 8 || !channel_known(frame, n) ? 1u << 1 : 0) |
               (n >= 4 && number(frame + 2, 2) / 4 < b->seconds ? 1u << 5 : 0);
    case 2:
        return applying_to_command(b, frame, n);
    case 3:
        return (n != 3 ? 1u << 1 : 0) |
               (n >= 3 && number(frame + 1, 2) > 4095 ? 1u << 4 : 0) |
               (b->collecting && b->further == 447 &&
                b->waiting + 7 > MODEL_SLOTS ? 1u << 7 : 0);
    case 4:
        return applying_to_sample(b, frame, n);
    case 5:
        return (n != 2 || !channel_known(frame, n) ? 1u << 1 : 0) |
               (b->waiting == 0 ? 1u << 9 : 0);
    case 6:
        return n != 4 || !channel_known(frame, n) ? 1u << 1 : 0;
    case 7:
        return n != 59 ? 1u << 1 : 0;
    default:
        return 1u << 1;
    }
}

static void cover_order(const struct play_before *b, unsigned kind,
                        const struct play_given *g, int reply)
{
    unsigned bits = applying(b, g->bytes, g->length), i;

    if (reply == 0)
        return;
    for (i = 1; i < 10; i++)
        together[kind][reply][i] += (int)i != reply && (bits >> i & 1) != 0;
}

static void cover_frame(const struct play_before *b,
                        const struct model_controller *a,
                        const struct play_given *g, int reply)
{
    const uint8_t *frame = g->bytes;
    size_t n = g->length;
    unsigned kind = n > 0 && frame[0] < 8 ? frame[0] : 0, stream;

    replies[kind][reply]++;
    cover_order(b, kind, g, reply);
    cover_out_wrap(out_wrapped[0], g->out_length, 126);
    if (kind != 0 && reply != 8)
        cover_wrap(wrapped[kind], n, right_length(frame, n));
    if (kind == 4 && n == 4 && frame[1] == 5) {
        came(DEN_0FFF, reply == 0 && number(frame + 2, 2) == 0x0FFF);
        came(DEN_1000, reply == 4 && number(frame + 2, 2) == 0x1000);
    }
    cover_counts(b, a);
    came(QUEUE_FULL, a->waiting == MODEL_SLOTS);
    came(MODE_CHANGE_OPEN, b->open && a->mode != b->mode);
    if (kind == 3 && n == 3)
        cover_tick(b, a, (unsigned)number(frame + 1, 2), reply);
    if (kind == 1)
        cover_broadcast(b, a, reply);
    if (kind == 2 && reply == 0)
        cover_command(b, frame);
    if (kind == 4 && reply == 7)
        closings[frame[1]]++;
    for (stream = 0; stream < 12; stream++)
        past_4096[stream] += a->pieces_ever[stream] > 4096;
}

/* -------------------------------------------------------------- packets */

static bool carried(unsigned stream)
{
    return stream_pieces(stream) > 0;
}

/* Whether the head is wrong: ID, top two sequence bits, or length. */
static bool wrong_head(const uint8_t *packet)
{
    unsigned long id = number(packet, 2);

    return (id != 0x0F94 && id != 0x0FB4) || packet[2] >> 6 != 3 ||
           number(packet + 4, 2) != 0x77;
}

/* Which of 24, 20, 21 and 22 a packet would get if each were asked alone. */
static void cover_readers_order(const struct play_before *b,
                                const struct play_given *g, int reply)
{
    const uint8_t *packet = g->bytes;
    bool judged = g->length >= 8;
    unsigned stream = judged ? packet[7] % 16 : 0, i;
    bool applies[READERS_ORDERED];

    applies[0] = g->out_length < MODEL_LONGEST;
    applies[1] = g->length != 126 || wrong_head(packet);
    applies[2] = judged && !carried(stream);
    applies[3] = judged && carried(stream) &&
                 number(packet + 6, 2) / 16 == b->record.last;
    for (i = 0; i < READERS_ORDERED; i++)
        if ((unsigned)reply == in_readers_order[i]) {
            unsigned other;
            for (other = 0; other < READERS_ORDERED; other++)
                readers_together[i][other] += other != i && applies[other];
        }
}

/* A later piece that opens like a packet's start or end. */
static void cover_opening(const struct play_before *b,
                          const struct model_record *after,
                          const uint8_t *packet, unsigned stream)
{
    enum onward onward = after->last == b->record.last ? CAME_AGAIN
                         : !b->record.gathering        ? NONE_RAN
                         : after->last == (b->record.last + 1) % 4096
                             ? GOES_ON
                             : DROPPED;

    if (after->place == 0 || packet[8] != packet[9])
        return;
    opened[stream][0][onward] += packet[8] == 0x88;
    opened[stream][1][onward] += packet[8] == 0x99;
}

static void cover_packet(const struct play_before *b,
                         const struct model_reader *a,
                         const struct play_given *g, int reply)
{
    const uint8_t *packet = g->bytes;
    unsigned stream, d, i;

    reader_replies[reply]++;
    cover_readers_order(b, g, reply);
    cover_out_wrap(out_wrapped[1], g->out_length, MODEL_LONGEST);
    if (g->length >= 126 && !wrong_head(packet))
        cover_wrap(wrapped[PACKETS], g->length, 126);
    if (g->length == 126)
        came(ID_NEAR, reply == 20 && packet[0] == 0x0F &&
                          ((packet[1] ^ 0x94) & ((packet[1] ^ 0x94) - 1)) == 0);
    if (reply == 20 || reply == 21)
        return;
    stream = packet[7] % 16;
    d = ((unsigned)number(packet + 6, 2) / 16 + 4096 - b->record.last) % 4096;
    if (reply == 24) {
        came(SHORT_AT_LAST, g->length == 126 && !wrong_head(packet) &&
                                carried(stream) && b->record.gathering &&
                                d == 1 &&
                                b->record.place + 2u == stream_pieces(stream));
        return;
    }
    for (i = 0; i < DISTANCES; i++)
        steps[stream][i] += d == distances[i];
    cover_opening(b, &a->records[stream], packet, stream);
}

static void cover_arrival(bool whole, bool first, uint64_t missing)
{
    came(whole ? ARRIVED_WHOLE : ARRIVED_PART, true);
    came(MISSING_NONE, missing == 0);
    came(MISSING_SOME, missing > 0);
    came(first ? MISSING_MOST_FIRST : MISSING_MOST_BETWEEN,
         missing == LEDGER_MOST_MISSING);
}

const struct play_watcher cover_watcher = {cover_frame, cover_packet,
                                           cover_arrival};

/* --------------------------------------------------------------- report */

static bool all_came;

static void line(unsigned long count, const char *name)
{
    printf("  %10lu  %s%s\n", count, name,
           count == 0 ? "   <-- NEVER CAME" : "");
    all_came &= count > 0;
}

static void report_replies(void)
{
    static const char *const kinds[8] = {
        "unknown", "01 broadcast", "02 command", "03 tick", "04 sample",
        "05 poll", "06 status", "07 analogue"};
    static const unsigned readers[] = {0, 1, 20, 21, 22, 23, 24};
    char name[80];
    unsigned kind, reply;

    for (kind = 0; kind < 8; kind++)
        for (reply = 0; reply < 10; reply++)
            if (may[kind][reply]) {
                snprintf(name, sizeof name, "%s, reply %u", kinds[kind], reply);
                line(replies[kind][reply], name);
            }
    for (reply = 0; reply < sizeof readers / sizeof *readers; reply++) {
        snprintf(name, sizeof name, "the reader's reply %u", readers[reply]);
        line(reader_replies[readers[reply]], name);
    }
}

/* Two replies of a kind that one frame can have earned.  An unknown id or
 * stream has no length and no range; a sample frame of a wrong size has no
 * stream. */
static bool can_meet(unsigned kind, unsigned reply, unsigned other)
{
    if (!may[kind][reply] || !may[kind][other])
        return false;
    if (reply == 2 && (other == 3 || other == 4))
        return false;
    return kind != 4 || reply != 1;
}

static void report_order(void)
{
    char name[80];
    unsigned kind, i, j;

    for (kind = 0; kind < 8; kind++)
        for (i = 0; i < ORDERED; i++)
            for (j = i + 1; j < ORDERED; j++)
                if (can_meet(kind, in_order[i], in_order[j])) {
                    snprintf(name, sizeof name,
                             "kind %u, reply %u where %u applies too", kind,
                             in_order[i], in_order[j]);
                    line(together[kind][in_order[i]][in_order[j]], name);
                }
    for (i = 0; i < READERS_ORDERED; i++)
        for (j = i + 1; j < READERS_ORDERED; j++) {
            if (in_readers_order[i] == 21) /* no count to be repeated */
                continue;
            snprintf(name, sizeof name,
                     "the reader's reply %u where %u applies too",
                     in_readers_order[i], in_readers_order[j]);
            line(readers_together[i][j], name);
        }
}

static void report_lengths(void)
{
    char name[80];
    unsigned kind, i;

    for (i = 0; i < WRAPS; i++) {
        for (kind = 0; kind < 8; kind++) {
            if (kind == PACKETS)
                snprintf(name, sizeof name,
                         "packet, length right modulo %u alone", wraps[i]);
            else
                snprintf(name, sizeof name,
                         "kind %u, length right modulo %u alone", kind,
                         wraps[i]);
            line(wrapped[kind][i], name);
        }
        snprintf(name, sizeof name, "output short modulo %u alone", wraps[i]);
        line(out_wrapped[0][i], name);
        snprintf(name, sizeof name, "reader's output short modulo %u alone",
                 wraps[i]);
        line(out_wrapped[1][i], name);
    }
}

static void report_openings(void)
{
    static const char *const onwards[ONWARDS] = {
        "its gathering goes on", "its gathering is dropped",
        "no gathering runs", "it came before"};
    static const unsigned longs[] = {2, 11};
    char name[80];
    unsigned i, which, onward;

    for (i = 0; i < 2; i++)
        for (which = 0; which < 2; which++)
            for (onward = 0; onward < ONWARDS; onward++) {
                snprintf(name, sizeof name,
                         "stream %X, later piece opens with %s, %s", longs[i],
                         which == 0 ? "88 88" : "99 99", onwards[onward]);
                line(opened[longs[i]][which][onward], name);
            }
}

static void report_modes(void)
{
    static const unsigned char pairs[][2] = {{1, 2}, {1, 3}, {1, 4}, {2, 3},
                                             {2, 4}, {3, 4}, {4, 5}, {5, 6}};
    char name[80];
    unsigned i, seen = 0;

    for (i = 0; i < sizeof pairs / sizeof *pairs; i++) {
        snprintf(name, sizeof name, "mode %u to %u by broadcast", pairs[i][0],
                 pairs[i][1]);
        line(changes[pairs[i][0]][pairs[i][1]], name);
    }
    line(record_ends, "mode 4 to 5 by a record's end");
    for (i = 0; i < 256; i++)
        seen += ordered[i / 16][i % 16];
    snprintf(name, sizeof name, "of 256 pairs of modes by command, locks too");
    line(seen, name);
    all_came &= seen == 256;
}

static void report_streams(void)
{
    char name[80];
    unsigned stream, i;

    for (i = 0; i < 6; i++) {
        snprintf(name, sizeof name, "command %s on %c",
                 i / 2 == 0 ? "0013" : i / 2 == 1 ? "0016" : "0032",
                 i % 2 == 0 ? 'A' : 'B');
        line(commands[i / 2][i % 2], name);
    }
    for (stream = 0; stream < 12; stream++) {
        if (stream_pieces(stream) == 0)
            continue;
        snprintf(name, sizeof name, "stream %X past 4,096 pieces", stream);
        line(past_4096[stream], name);
        if (sample_size(stream) > 0) {
            snprintf(name, sizeof name, "stream %X, closing sample refused",
                     stream);
            line(closings[stream], name);
        }
        for (i = 0; i < DISTANCES; i++) {
            snprintf(name, sizeof name, "stream %X, count at last + %u",
                     stream, distances[i]);
            line(steps[stream][i], name);
        }
    }
}

bool cover_report(void)
{
    unsigned i;

    all_came = true;
    report_replies();
    report_order();
    report_lengths();
    report_modes();
    report_streams();
    report_openings();
    for (i = 0; i < SITUATIONS; i++)
        line(situations[i], situation_names[i]);
    for (i = 0; i < COVER_OUTSIDE; i++)
        line(outside[i], outside_names[i]);
    return all_came;
}
