/* selftest.c: the model's own test, against document 01 ("the paper").
 *
 * Holds, in this order: the checks, the ledger (kept from the history
 * call-back, with numbers of its own), the giving of frames with the rules
 * every call must keep, helpers that observe the controller through its
 * frames, the tests of the controller, the tests of the reader, and the
 * sessions that join the two.  Prints what failed; the exit status is not
 * zero on any failure.  Wanted values are written out by hand from the paper.
 */
#include "model.h"

#include <stdio.h>
#include <stdlib.h>
#include <string.h>

#include "frames.h"
#include "lines.h"

/* ------------------------------------------------------------ the checks */

static unsigned long checks_made;
static unsigned long checks_failed;
static const char *part_name = "";

static void part(const char *name)
{
    part_name = name;
}

static void fail(int line, const char *what)
{
    checks_failed++;
    if (checks_failed <= 50)
        printf("FAILED line %d (%s): %s", line, part_name, what);
}

static void check_same(int line, const char *what, unsigned long got,
                       unsigned long wanted)
{
    checks_made++;
    if (got == wanted)
        return;
    fail(line, what);
    if (checks_failed <= 50)
        printf(": %lu (%lX), wanted %lu (%lX)\n", got, got, wanted, wanted);
}

static void check_bytes(int line, const char *what, const uint8_t *got,
                        const uint8_t *wanted, size_t n)
{
    size_t i;

    checks_made++;
    for (i = 0; i < n && got[i] == wanted[i]; i++)
        ;
    if (i == n)
        return;
    fail(line, what);
    if (checks_failed <= 50)
        printf(": byte %lu is %02X, wanted %02X\n", (unsigned long)i, got[i],
               wanted[i]);
}

#define SAME(got, wanted)                                                   \
    check_same(__LINE__, #got, (unsigned long)(got), (unsigned long)(wanted))
#define BYTES(got, wanted, n) check_bytes(__LINE__, #got, got, wanted, n)

/* ------------------------------------------------------------ the ledger */

/* What the history call-back told: the last 64 packets queued (the queue has
 * 48 slots, so no waiting piece belongs to an older one), the pieces that
 * must be waiting, in order, and how many of everything there ever were. */
struct ledger_packet {
    unsigned stream;
    uint64_t first;
    size_t length;
    uint8_t bytes[MODEL_LONGEST];
};

static struct {
    struct ledger_packet packets[64];
    unsigned long queued;
    struct {
        unsigned long packet;
        unsigned place;
    } waiting[MODEL_SLOTS], polled;
    unsigned waits;
    uint64_t ever[MODEL_STREAMS];
    unsigned long polls[2];
    unsigned long told_polled;
    unsigned long handed_out;
    unsigned long cleared;
} ledger;

static unsigned channel_asked; /* the channel of the frame being given */

static unsigned pieces_for(size_t length)
{
    return (unsigned)((length + 117) / 118);
}

static struct ledger_packet *ledger_at(unsigned long packet)
{
    return &ledger.packets[packet % 64];
}

/* The newest packet of the ledger. */
static struct ledger_packet *newest(void)
{
    return ledger_at(ledger.queued - 1);
}

/* Housekeeping's counts against the ledger's. */
static void check_housekeeping(const uint8_t *bytes)
{
    unsigned stream;

    for (stream = 0; stream < MODEL_STREAMS; stream++)
        SAME(number(bytes + 34 + 2 * stream, 2),
             ledger.ever[stream] % 4096 * 16);
    SAME(number(bytes + 26, 2), ledger.polls[0] % 65536);
    SAME(number(bytes + 28, 2), ledger.polls[1] % 65536);
}

static void note_queued(unsigned stream, uint64_t index, const uint8_t *bytes,
                        size_t length)
{
    struct ledger_packet *packet = ledger_at(ledger.queued);
    unsigned place;

    SAME(index, ledger.ever[stream]);
    if (stream == MODEL_HK)
        check_housekeeping(bytes);
    packet->stream = stream;
    packet->first = index;
    packet->length = length;
    memcpy(packet->bytes, bytes, length);
    for (place = 0; place < pieces_for(length); place++) {
        if (ledger.waits == MODEL_SLOTS) {
            SAME(ledger.waits + 1, MODEL_SLOTS);
            return;
        }
        ledger.waiting[ledger.waits].packet = ledger.queued;
        ledger.waiting[ledger.waits].place = place;
        ledger.waits++;
    }
    ledger.ever[stream] += pieces_for(length);
    ledger.queued++;
}

/* Takes the waiting piece number i out of the ledger's list. */
static void take_out(unsigned i)
{
    ledger.waits--;
    memmove(&ledger.waiting[i], &ledger.waiting[i + 1],
            (ledger.waits - i) * sizeof ledger.waiting[0]);
}

static void note_polled(unsigned stream, uint64_t index)
{
    struct ledger_packet *packet;

    SAME(ledger.waits > 0, 1);
    if (ledger.waits == 0)
        return;
    ledger.polled.packet = ledger.waiting[0].packet;
    ledger.polled.place = ledger.waiting[0].place;
    packet = ledger_at(ledger.polled.packet);
    SAME(stream, packet->stream);
    SAME(index, packet->first + ledger.polled.place);
    take_out(0);
    ledger.told_polled++;
}

static void note_cleared(unsigned stream, uint64_t index)
{
    unsigned i;

    for (i = 0; i < ledger.waits; i++) {
        struct ledger_packet *packet = ledger_at(ledger.waiting[i].packet);
        if (packet->stream == stream &&
            packet->first + ledger.waiting[i].place == index)
            break;
    }
    SAME(i < ledger.waits, 1);
    if (i < ledger.waits)
        take_out(i);
    ledger.cleared++;
}

static void note(void *context, enum model_event event, unsigned stream,
                 uint64_t index, const uint8_t *bytes, size_t length)
{
    SAME(context == &ledger, 1);
    if (event == MODEL_QUEUED) {
        note_queued(stream, index, bytes, length);
        return;
    }
    SAME(bytes == NULL && length == 0, 1);
    if (event == MODEL_POLLED)
        note_polled(stream, index);
    else
        note_cleared(stream, index);
}

/* ------------------------------------------------------ giving a frame */

static struct model_controller ssp;
static struct model_controller before;
static struct model_reader reader;
static uint8_t out[800];
static size_t written;
static uint8_t handed[800];
static size_t handed_length;
static size_t out_length = 126;

static void fresh(void)
{
    memset(&ledger, 0, sizeof ledger);
    model_start(&ssp);
    model_history(&ssp, note, &ledger);
    model_reader_start(&reader);
    out_length = 126;
}

/* The state after a refusal: "A broadcast refused with 5 raises only its
 * channel's broadcast count.  A command refused with 2, 3, 4 or 7 raises its
 * channel's command packet count and the error count and sets the error code
 * to the reply number.  Every other refusal changes nothing." */
static void check_refused(const uint8_t *frame, int reply)
{
    if (reply == 5) {
        before.broadcast_count[channel_asked]++;
    } else if (frame != NULL && frame[0] == 2 &&
               (reply == 2 || reply == 3 || reply == 4 || reply == 7)) {
        before.command_packet_count[channel_asked]++;
        before.error_count++;
        before.error_code = (uint8_t)reply;
    }
    SAME(memcmp(&before, &ssp, sizeof ssp), 0);
}

/* "Accepted polls write 126 bytes, status 2, others none; later output bytes
 * stay."; "No refusal touches the output." */
static void check_written(const uint8_t *frame, int reply)
{
    size_t wanted = 0, i;

    if (reply == 0 && frame[0] == 5)
        wanted = 126;
    if (reply == 0 && frame[0] == 6)
        wanted = 2;
    SAME(written, wanted);
    for (i = wanted; i < sizeof out && out[i] == 0xE7; i++)
        ;
    SAME(i, sizeof out);
}

/* What the poll gave, from the ledger alone. */
static void check_polled(void)
{
    struct ledger_packet *packet = ledger_at(ledger.polled.packet);
    size_t from = ledger.polled.place * 118u, i;
    uint64_t count = (packet->first + ledger.polled.place) % 4096;

    SAME(number(out, 2), channel_asked == 0 ? 0x0F94 : 0x0FB4);
    SAME(number(out + 2, 2), 0xC000 + ledger.polls[channel_asked] % 16384);
    SAME(number(out + 4, 2), 0x0077);
    SAME(number(out + 6, 2), count * 16 + packet->stream);
    for (i = 0; i < 118; i++) {
        uint8_t wanted =
            from + i < packet->length ? packet->bytes[from + i] : 0x99;
        if (out[8 + i] != wanted)
            break;
    }
    SAME(i, 118);
    ledger.polls[channel_asked]++;
    SAME(ledger.told_polled, ledger.polls[0] + ledger.polls[1]);
}

/* Every polled packet goes to the reader: it hands out at the last piece of
 * a packet, the packet the ledger has, and never else. */
static void read_polled(void)
{
    struct ledger_packet *packet = ledger_at(ledger.polled.packet);
    bool last = ledger.polled.place + 1 == pieces_for(packet->length);
    int reply = model_reader_packet(&reader, out, 126, handed, sizeof handed,
                                    &handed_length);

    SAME(reply, last ? 1 : 0);
    SAME(handed_length, last ? packet->length : 0);
    if (reply == 1 && last) {
        BYTES(handed, packet->bytes, packet->length);
        ledger.handed_out++;
    }
}

/* Gives one frame, in a buffer of exactly its size, and checks what every
 * frame must keep. */
static int give(const uint8_t *bytes, size_t n)
{
    uint8_t *frame = n == 0 ? NULL : malloc(n);
    int reply;

    if (n > 0 && frame == NULL)
        abort();
    if (n > 0)
        memcpy(frame, bytes, n);
    memcpy(&before, &ssp, sizeof ssp);
    memset(out, 0xE7, sizeof out);
    channel_asked = n > 1 && bytes[1] == 0x0B;
    written = 12345;
    reply = model_frame(&ssp, frame, n, out, out_length, &written);
    check_written(frame, reply);
    if (reply != 0)
        check_refused(frame, reply);
    SAME(ssp.waiting, ledger.waits);
    if (reply == 0 && frame[0] == 5) {
        check_polled();
        read_polled();
    }
    free(frame);
    return reply;
}

/* --------------------------------------------------- frames and looking */

static int text(const char *hex)
{
    uint8_t frame[LINE_BYTES];

    return give(frame, line_bytes(hex, strlen(hex), frame));
}

static int broadcast(unsigned channel, unsigned seconds, unsigned altitude)
{
    uint8_t frame[FRAME_MOST];

    return give(frame, frame_broadcast(frame, channel, seconds * 4, altitude));
}

static int tick(unsigned reading)
{
    uint8_t frame[FRAME_MOST];

    return give(frame, frame_tick(frame, reading));
}

static int ticks(unsigned count, unsigned reading)
{
    int reply = 0;

    while (count-- > 0 && reply == 0)
        reply = tick(reading);
    return reply;
}

static int order(unsigned id, unsigned value)
{
    uint8_t frame[FRAME_MOST];

    return give(frame, frame_order(frame, 0, id, 1, value));
}

static int set_mode(unsigned value)
{
    return order(SET_MODE_ID, value);
}

static int clear_streams(unsigned mask)
{
    return order(CLEAR_STREAMS_ID, mask);
}

static int housekeeping(void)
{
    return text("020A00160003");
}

static int poll_on(unsigned channel)
{
    uint8_t frame[FRAME_MOST];

    return give(frame, frame_poll(frame, channel));
}

/* Gives one sample of the stream whose bytes follow from seed. */
static int sample(unsigned stream, unsigned seed)
{
    uint8_t frame[FRAME_MOST];

    return give(frame, frame_sample(frame, stream, seed));
}

static void samples(unsigned count, unsigned stream)
{
    while (count-- > 0)
        SAME(sample(stream, count), 0);
}

/* Housekeeping until so many pieces wait. */
static void fill_queue(unsigned pieces)
{
    unsigned waits;

    for (waits = ledger.waits; waits < pieces; waits++)
        SAME(housekeeping(), 0);
    SAME(ledger.waits, pieces);
}

static void poll_all(void)
{
    unsigned waits;

    for (waits = ledger.waits; waits > 0; waits--)
        SAME(poll_on(waits & 1), 0);
    SAME(poll_on(0), 9);
}

/* Housekeeping as it would be built now, at the table's offsets, seen on a
 * copy of the controller (whose command counts are two higher). */
static uint8_t hk[126];

static void look(void)
{
    static struct model_controller copy;
    static const uint8_t clear[8] = {2, 0x0A, 0, 0x13, 0, 0, 0x0E, 0x74};
    static const uint8_t send[6] = {2, 0x0A, 0, 0x16, 0, 0};
    static const uint8_t poll[2] = {5, 0x0A};
    size_t n;

    memcpy(&copy, &ssp, sizeof copy);
    model_history(&copy, NULL, NULL);
    SAME(model_frame(&copy, clear, 8, hk, 126, &n), 0);
    SAME(model_frame(&copy, send, 6, hk, 126, &n), 0);
    SAME(model_frame(&copy, poll, 2, hk, 126, &n), 0);
    SAME(n, 126);
}

static unsigned long field(unsigned offset, unsigned size)
{
    look();
    return number(hk + offset, size);
}

/* Mode plus 8 if locked, as housekeeping shows it. */
static unsigned long mode_now(void)
{
    return field(13, 1);
}

static unsigned long time_now(void)
{
    return field(10, 3);
}

/* The impact flag, by the A word. */
static unsigned impact_now(void)
{
    SAME(text("060A0000"), 0);
    return out[0] >> 7;
}

/* ----------------------------------------------- the paper's own session */

/* One line of bench: the reply as two hexadecimal digits, then the output
 * bytes, in capitals. */
static size_t bench_line(const char *line, size_t digits, char *printed)
{
    uint8_t frame[LINE_BYTES];
    size_t n = line_bytes(line, digits, frame), i, at;

    at = (size_t)sprintf(printed, "%02X", (unsigned)give(frame, n));
    for (i = 0; i < written; i++)
        at += (size_t)sprintf(printed + at, "%02X", out[i]);
    printed[at++] = '\n';
    printed[at] = 0;
    return at;
}

/* Either case, faulty and over-long lines. */
static void test_bench_lines(void)
{
    char line[LINE_DIGITS + 3];

    fresh();
    SAME(text("060a5a07"), 0);
    SAME(text("060a5a0"), 1);
    SAME(text("060a5x07"), 1);
    SAME(text("060a5a07 "), 1);
    SAME(set_mode(5), 0);
    memset(line, 'c', LINE_DIGITS + 2);
    memcpy(line, "040B", 4);
    line[LINE_DIGITS + 2] = 0;
    SAME(text(line), 1);
    line[2 * FRAME_MOST] = 0;
    SAME(text(line), 0);
    SAME(ledger.waits, 5);
}

static void test_session(void)
{
    static const char input[] =
        "010A096002BD0000\n060A5A07\n060B5A07\n010A095C02BD0000\n"
        "020A003200010010\n020A00320002000D\n060A5A07\n050A\n\n";
    static const char wanted[] =
        "00\n00655A\n00205A\n05\n04\n00\n007B5A\n09\n01\n";
    char printed[4096];
    size_t at = 0, lines = 0;
    const char *line = input;

    part("session");
    fresh();
    while (*line != 0) {
        size_t digits = strcspn(line, "\n");
        at += bench_line(line, digits, printed + at);
        line += digits + 1;
        lines++;
    }
    SAME(lines, 9);
    SAME(strcmp(printed, wanted), 0);
    if (strcmp(printed, wanted) != 0)
        printf("%s", printed);
    test_bench_lines();
}

/* -------------------------------------------------------- the examples */

static void test_example_times(void)
{
    static const char *const frames[] = {
        "010A096002BD0000", "010A096102BD0000", "010A096202BD0000",
        "010A096302BD0000"};
    unsigned i;

    part("example: time 0960 to 0963, 095C");
    for (i = 0; i < 4; i++) {
        fresh();
        SAME(text(frames[i]), 0);
        SAME(time_now(), 0x096000);
        SAME(time_now() / 1024, 600);
    }
    fresh();
    SAME(text("010A095C02BD0000"), 0);
    SAME(time_now(), 0x095C00);
    SAME(time_now() / 1024, 599);
    SAME(text("010A095F02BD0000"), 0);
    SAME(time_now() / 1024, 599);
}

static unsigned long mode_after(const char *frame)
{
    fresh();
    SAME(text(frame), 0);
    return mode_now();
}

static void test_example_modes(void)
{
    part("example: modes of a fresh controller");
    SAME(mode_after("010A096002BD0000"), 2);
    SAME(mode_after("010A096002BC0000"), 4);
    SAME(mode_after("010A096082BC0000"), 4);
    SAME(mode_after("010A4FB002BD0000"), 3);
    SAME(mode_after("010A708002BD0000"), 4);
    part("edges: altitude 700 and 701, with and without bit 15");
    SAME(mode_after("010A095C02BC0000"), 4);
    SAME(field(14, 2), 0x02BC);
    SAME(field(22, 2), 0x02BC);
    SAME(mode_after("010A095C02BD0000"), 1);
    SAME(field(14, 2), 0x02BD);
    SAME(mode_after("010A095C82BC0000"), 4);
    SAME(field(14, 2), 0x82BC);
    SAME(field(22, 2), 0x82BC);
    SAME(mode_after("010A095C82BD0000"), 1);
    SAME(field(14, 2), 0x82BD);
    SAME(mode_after("010A000000000000"), 4);
    SAME(mode_after("010A000080000000"), 4);
    part("edges: T 599/600, 5099/5100, 7199/7200");
    SAME(mode_after("010A095F7FFF0000"), 1);
    SAME(mode_after("010A0960FFFF0000"), 2);
    SAME(mode_after("010A4FAF7FFF0000"), 2);
    SAME(mode_after("010A4FB0FFFF0000"), 3);
    SAME(mode_after("010A707F7FFF0000"), 3);
    SAME(mode_after("010A7080FFFF0000"), 4);
    SAME(mode_after("010AFFFFFFFF0000"), 4);
}

/* Gives ticks in a fresh mode 4; the number of the impact tick, 0 if none. */
static unsigned impact_tick(const unsigned *readings, unsigned count)
{
    unsigned i, at = 0;

    fresh();
    SAME(broadcast(0, 0, 700), 0);
    for (i = 0; i < count; i++) {
        SAME(tick(readings[i]), 0);
        if (at == 0 && impact_now())
            at = i + 1;
    }
    return at;
}

static void test_example_impact(void)
{
    static const unsigned eighty[] = {80, 80, 80, 80, 80, 80};
    static const unsigned above[] = {81, 81, 81};
    static const unsigned two[] = {81, 81, 80, 80, 80};
    static const unsigned minus_one[] = {4095, 4095, 4095, 4095, 4095};
    static const unsigned minus_most[] = {2048, 2048, 2048, 2048, 2048};
    static const unsigned most[] = {2047, 2047, 2047};
    static const unsigned fifth[] = {81, 81, 0, 0, 81};
    static const unsigned none[] = {81, 81, 0, 0, 0, 81};
    static const unsigned sliding[] = {81, 0, 0, 81, 0, 81, 81};

    part("example: 80 not above, 81 above, 0FFF is -1");
    SAME(impact_tick(eighty, 6), 0);
    SAME(impact_tick(above, 3), 3);
    SAME(impact_tick(two, 5), 0);
    SAME(impact_tick(minus_one, 5), 0);
    SAME(impact_tick(minus_most, 5), 0);
    SAME(impact_tick(most, 3), 3);
    part("example: three of the last five");
    SAME(impact_tick(fifth, 5), 5);
    SAME(impact_tick(none, 6), 0);
    SAME(impact_tick(sliding, 7), 7);
}

static void test_example_packing(void)
{
    unsigned i;

    part("example: 123, ABC pack to 123ABC");
    fresh();
    for (i = 0; i < 36; i++) {
        SAME(ledger.queued, 0);
        SAME(text("04050123"), 0);
        SAME(text("04050ABC"), 0);
    }
    SAME(ledger.queued, 1);
    SAME(newest()->stream, 5);
    SAME(newest()->length, 116);
    for (i = 0; i < 36; i++)
        SAME(number(newest()->bytes + 6 + 3 * i, 3), 0x123ABC);
    SAME(number(newest()->bytes, 6) & 0xFFFF, 0x0001);
    SAME(number(newest()->bytes, 2), 0x8888);
    SAME(number(newest()->bytes + 114, 2), 0x9999);
    poll_all();
    SAME(ledger.handed_out, 1);
}

/* -------------------------------------------------- replies, their order */

static void test_reply_sizes(void)
{
    static const char *const frames[] = {
        "", "00", "08", "FF", "0801", "01", "010A", "010A0960000000",
        "010A09600000000000", "010C096000000000", "01000960000000AA",
        "02", "020A", "020A001600", "020C00160000", "020900010000",
        "03", "0300", "03000000", "04", "05", "050C", "050A00", "0500",
        "06", "060A", "060A5A", "060A5A0700", "060C5A07", "07", "0700"};
    uint8_t frame[60] = {7};
    unsigned i;

    part("reply 1");
    fresh();
    for (i = 0; i < sizeof frames / sizeof *frames; i++)
        SAME(text(frames[i]), 1);
    SAME(give(frame, 58), 1);
    SAME(give(frame, 60), 1);
    SAME(give(frame, 59), 0);
    part("reply 8 is tested first, for every kind of frame");
    out_length = 125;
    for (i = 0; i < sizeof frames / sizeof *frames; i++)
        SAME(text(frames[i]), 8);
    SAME(housekeeping(), 8);
    SAME(broadcast(0, 600, 701), 8);
    SAME(tick(0), 8);
    SAME(tick(4096), 8);
    SAME(sample(5, 1), 8);
    SAME(poll_on(0), 8);
    SAME(text("060A5A07"), 8);
    SAME(give(frame, 59), 8);
    out_length = 0;
    SAME(housekeeping(), 8);
    out_length = 127;
    SAME(housekeeping(), 0);
    SAME(poll_on(0), 0);
}

static void test_command_replies(void)
{
    unsigned bit;

    part("replies to commands");
    fresh();
    for (bit = 0; bit < 16; bit++)
        SAME(clear_streams(1u << bit), 0x0E74 >> bit & 1 ? 0 : 4);
    for (bit = 4; bit < 16; bit++) {
        uint8_t frame[8] = {2, 0x0B, 0, 0x32, 0, 0, (uint8_t)(1 << bit >> 8),
                            (uint8_t)(1 << bit)};
        SAME(give(frame, 8), 4);
    }
    SAME(text("020A00000000"), 2);
    SAME(text("020A00120000"), 2);
    SAME(text("020A01130000"), 2);
    SAME(text("020A00330000FFFF"), 2);
    SAME(text("020A00130000"), 3);
    SAME(text("020A00130000FF"), 3);
    SAME(text("020A00130000FFFFFF"), 3);
    SAME(text("020A0016000000"), 3);
    SAME(text("020A00320000"), 3);
    SAME(text("020A00320000FF"), 3);
    SAME(text("020A00320000000001"), 3);
    SAME(text("020A001300000001"), 4);
    SAME(text("020A001300008000"), 4);
    SAME(text("020A001300000E75"), 4);
    SAME(text("020A00130000F18B"), 4);
    SAME(text("020A003200000010"), 4);
    SAME(text("020A003200000100"), 4);
    SAME(text("020A00320000FFFF"), 4);
    SAME(text("020A001300000E74"), 0);
    SAME(text("020A001300000000"), 0);
    fill_queue(48);
    SAME(housekeeping(), 7);
    SAME(text("020B0016000000"), 3);
    SAME(text("020C00160000"), 1);
    SAME(poll_on(1), 0);
    SAME(housekeeping(), 0);
    SAME(housekeeping(), 7);
}

static void test_sample_replies(void)
{
    static const char *const others[] = {
        "0400", "0401", "0402", "0403", "0407", "0408", "040A", "040C",
        "040F", "0414", "0415000000", "04FF", "0402000000"};
    unsigned i;

    part("replies to samples and ticks, in their order");
    fresh();
    for (i = 0; i < sizeof others / sizeof *others; i++)
        SAME(text(others[i]), 2);
    SAME(text("0404"), 3);
    SAME(text("04040000"), 3);
    SAME(text("040400000000"), 3);
    SAME(text("0405000000"), 3);
    SAME(text("0405FF"), 3);
    SAME(text("04060000"), 3);
    SAME(text("04090000000000"), 3);
    SAME(text("040B00"), 3);
    SAME(text("04051000"), 4);
    SAME(text("0405FFFF"), 4);
    SAME(text("04050FFF"), 0);
    SAME(set_mode(0), 0);
    SAME(text("040500"), 3);
    SAME(text("04051000"), 4);
    SAME(text("04050FFF"), 6);
    SAME(set_mode(4), 0);
    fill_queue(48);
    SAME(sample(0xB, 1), 6);
    SAME(set_mode(5), 0);
    SAME(sample(0xB, 1), 7);
    SAME(tick(4096), 4);
    SAME(tick(65535), 4);
    SAME(tick(4095), 0);
    poll_all();
}

static void test_sample_modes(void)
{
    static const unsigned list[] = {4, 5, 6, 9};
    unsigned value, i;

    part("modes in which samples are taken");
    for (value = 0; value < 16; value++) {
        unsigned mode = value % 8;
        fresh();
        SAME(set_mode(value), 0);
        SAME(mode_now(), value);
        for (i = 0; i < 4; i++)
            SAME(sample(list[i], i), mode >= 1 && mode <= 6 ? 0 : 6);
        SAME(sample(0xB, 3), mode == 5 ? 0 : 6);
        if (mode == 5)
            SAME(newest()->bytes[5], 0x10 + value);
        SAME(housekeeping(), 0);
        SAME(newest()->bytes[5], value);
        poll_all();
    }
}

/* "A closing sample without room gets 7 and isn't kept." */
static void test_closing_without_room(void)
{
    part("closing sample without room");
    fresh();
    samples(71, 5);
    fill_queue(48);
    SAME(sample(5, 99), 7);
    SAME(sample(5, 99), 7);
    SAME(poll_on(0), 0);
    SAME(text("04050ABC"), 0);
    SAME(newest()->stream, 5);
    SAME(number(newest()->bytes + 111, 3) & 0xFFF, 0xABC);
    poll_all();
    SAME(set_mode(5), 0);
    fill_queue(44);
    SAME(sample(0xB, 5), 7);
    SAME(poll_on(0), 0);
    SAME(sample(0xB, 5), 0);
    SAME(ledger.waits, 48);
    poll_all();
    SAME(ledger.handed_out, ledger.queued);
}

/* ---------------------------------------------------- time and the modes */

static void test_time(void)
{
    part("m, and the seconds");
    fresh();
    SAME(time_now(), 0);
    SAME(ticks(3, 0), 0);
    SAME(time_now(), 3);
    SAME(ticks(1020, 0), 0);
    SAME(time_now(), 1023);
    SAME(ticks(5, 0), 0);
    SAME(time_now(), 1023);
    SAME(broadcast(1, 100, 9000), 0);
    SAME(time_now(), 102400);
    SAME(ticks(7, 0), 0);
    SAME(tick(4096), 4);
    SAME(broadcast(0, 99, 0), 5);
    SAME(time_now(), 102407);
    SAME(field(14, 2), 9000);
    SAME(mode_now(), 1);
    SAME(broadcast(0, 100, 9001), 0);
    SAME(time_now(), 102400);
    SAME(field(26, 2), 2);
    SAME(field(28, 2), 1);
    SAME(broadcast(0, 16383, 9001), 0);
    SAME(ticks(1023, 0), 0);
    SAME(time_now(), 0xFFFFFF);
    SAME(broadcast(0, 16382, 9001), 5);
}

static void test_entries(void)
{
    part("entries by broadcast");
    fresh();
    SAME(field(18, 3), 0);
    SAME(field(21, 1), 0);
    SAME(field(22, 2), 0);
    SAME(broadcast(0, 599, 0x9000), 0);
    SAME(field(18, 3), 0);
    SAME(broadcast(0, 600, 0x9000), 0);
    SAME(mode_now(), 2);
    SAME(field(18, 3), 600 * 1024);
    SAME(field(21, 1), 1);
    SAME(field(22, 2), 0x9000);
    SAME(broadcast(0, 700, 0x1000), 0);
    SAME(field(18, 3), 600 * 1024);
    SAME(field(22, 2), 0x9000);
    SAME(field(14, 2), 0x1000);
    part("set-mode to the same mode is an entry");
    SAME(ticks(5, 0), 0);
    SAME(set_mode(2), 0);
    SAME(mode_now(), 2);
    SAME(field(18, 3), 700 * 1024 + 5);
    SAME(field(21, 1), 2);
    SAME(field(22, 2), 0x1000);
    SAME(set_mode(10), 0);
    SAME(field(21, 1), 2);
    SAME(tick(0), 0);
    SAME(set_mode(10), 0);
    SAME(field(18, 3), 700 * 1024 + 6);
    SAME(field(21, 1), 10);
    SAME(mode_now(), 10);
}

static void test_locked_and_staying(void)
{
    unsigned value;

    part("locked modes, and modes 0, 6 and 7, stay");
    for (value = 0; value < 16; value++) {
        if (value >= 1 && value <= 5)
            continue;
        fresh();
        SAME(set_mode(value), 0);
        SAME(broadcast(0, 8000, 100), 0);
        SAME(broadcast(1, 16383, 0), 0);
        SAME(mode_now(), value);
    }
    part("the mode becomes the greater of itself and the target");
    fresh();
    SAME(set_mode(3), 0);
    SAME(broadcast(0, 700, 9000), 0);
    SAME(mode_now(), 3);
    SAME(field(21, 1), 1);
    part("at most one change per broadcast");
    fresh();
    SAME(broadcast(0, 9000, 100), 0);
    SAME(mode_now(), 4);
    SAME(broadcast(0, 16000, 100), 0);
    SAME(mode_now(), 5);
    SAME(field(18, 3), 16000ul * 1024);
    SAME(broadcast(0, 16000, 100), 0);
    SAME(mode_now(), 5);
    SAME(broadcast(0, 16383, 100), 0);
    SAME(mode_now(), 6);
}

static void test_timeouts(void)
{
    part("edges: 1859/1860 and 179/180");
    fresh();
    SAME(broadcast(0, 640, 700), 0);
    SAME(mode_now(), 4);
    SAME(broadcast(0, 640 + 1859, 9000), 0);
    SAME(mode_now(), 4);
    SAME(broadcast(0, 640 + 1860, 9000), 0);
    SAME(mode_now(), 5);
    SAME(field(18, 3), 2500 * 1024);
    SAME(field(21, 1), 4);
    SAME(broadcast(0, 2500 + 179, 9000), 0);
    SAME(mode_now(), 5);
    SAME(broadcast(0, 2500 + 180, 9000), 0);
    SAME(mode_now(), 6);
    SAME(field(21, 1), 5);
    part("set-mode restarts both");
    fresh();
    SAME(broadcast(0, 640, 700), 0);
    SAME(broadcast(0, 1000, 700), 0);
    SAME(set_mode(4), 0);
    SAME(broadcast(0, 1000 + 1859, 700), 0);
    SAME(mode_now(), 4);
    SAME(broadcast(0, 1000 + 1860, 700), 0);
    SAME(mode_now(), 5);
    SAME(broadcast(0, 3000, 700), 0);
    SAME(set_mode(5), 0);
    SAME(broadcast(0, 3179, 700), 0);
    SAME(mode_now(), 5);
    SAME(broadcast(0, 3180, 700), 0);
    SAME(mode_now(), 6);
}

/* --------------------------------------------------------------- impact */

/* The readings given to the ring since the entry to mode 4. */
static unsigned given[4096];
static unsigned given_count;

static void enter_four(unsigned value, unsigned seconds)
{
    SAME(broadcast(0, seconds, 9000), 0);
    SAME(set_mode(value), 0);
    given_count = 0;
}

static int ring_tick(unsigned reading)
{
    int reply = tick(reading);

    if (reply == 0)
        given[given_count++] = reading;
    return reply;
}

/* The wanted 776 bytes: the last 512 readings, zeros before the first. */
static void check_acc_i(unsigned long time, unsigned mode)
{
    uint8_t wanted[776] = {0x88, 0x88};
    unsigned nibble, place;

    wanted[2] = (uint8_t)(time >> 16);
    wanted[3] = (uint8_t)(time >> 8);
    wanted[4] = (uint8_t)time;
    wanted[5] = (uint8_t)mode;
    for (nibble = 0; nibble < 512 * 3; nibble++) {
        place = nibble / 3;
        if (place + given_count >= 512) {
            unsigned reading = given[place + given_count - 512];
            unsigned part4 = reading >> (8 - 4 * (nibble % 3)) & 0xF;
            wanted[6 + nibble / 2] |= (uint8_t)(part4 << (nibble % 2 ? 0 : 4));
        }
    }
    wanted[774] = wanted[775] = 0x99;
    SAME(newest()->stream, MODEL_ACC_I);
    SAME(newest()->length, 776);
    BYTES(newest()->bytes, wanted, 776);
}

/* Impact, then 447 further ticks: the record lacks one. */
static void up_to_the_last(unsigned quiet)
{
    unsigned i;

    for (i = 0; i < quiet; i++)
        SAME(ring_tick(3000 + i % 1000), 0);
    SAME(ring_tick(81), 0);
    SAME(ring_tick(2047), 0);
    SAME(impact_now(), 0);
    SAME(ring_tick(500), 0);
    SAME(impact_now(), 1);
    for (i = 1; i <= 447; i++)
        SAME(ring_tick((i * 29 + 100) % 4096), 0);
}

static void test_record(unsigned quiet, unsigned waiting)
{
    unsigned before_last = waiting;

    fresh();
    enter_four(4, 1000);
    fill_queue(waiting);
    up_to_the_last(quiet);
    SAME(mode_now(), 4);
    SAME(ledger.waits, waiting);
    SAME(tick(4096), 4);
    while (before_last > 41) {
        SAME(ring_tick(777), 7);
        SAME(ring_tick(888), 7);
        SAME(tick(4096), 4);
        SAME(mode_now(), 4);
        SAME(poll_on(1), 0);
        before_last--;
    }
    SAME(ring_tick(999), 0);
    SAME(mode_now(), 5);
    SAME(impact_now(), 1);
    SAME(ledger.waits, before_last + 7);
    check_acc_i(1000ul * 1024 + quiet + 3, 4);
    SAME(field(18, 3), 1000ul * 1024 + (quiet + 451 < 1023 ? quiet + 451
                                                           : 1023));
    SAME(field(21, 1), 4);
    poll_all();
    SAME(ledger.handed_out, ledger.queued);
    SAME(ticks(1000, 500), 0);
    SAME(ledger.waits, 0);
}

static void test_records(void)
{
    part("record, 41 waiting pieces, 61 places missing");
    test_record(0, 41);
    part("record, 42 waiting pieces");
    test_record(0, 42);
    part("record, 48 waiting pieces");
    test_record(61, 48);
    part("record, ring gone round");
    test_record(700, 41);
    part("record, empty queue, one place missing");
    test_record(60, 0);
}

static void test_locked_record(void)
{
    part("record in locked mode 4");
    fresh();
    enter_four(12, 2000);
    up_to_the_last(5);
    SAME(broadcast(0, 2001, 100), 0);
    SAME(ring_tick(1), 0);
    SAME(mode_now(), 12);
    check_acc_i(2000ul * 1024 + 8, 12);
    SAME(field(18, 3), 2000ul * 1024);
    SAME(impact_now(), 1);
    SAME(ticks(66000, 500), 0);
    SAME(ledger.queued, 1);
    SAME(impact_now(), 1);
    SAME(mode_now(), 12);
    SAME(broadcast(0, 9000, 100), 0);
    SAME(mode_now(), 12);
    part("the next entry to mode 4 detects anew");
    enter_four(4, 9001);
    SAME(impact_now(), 0);
    up_to_the_last(2);
    SAME(ring_tick(7), 0);
    check_acc_i(9001ul * 1024 + 5, 4);
    SAME(mode_now(), 5);
    poll_all();
    SAME(ledger.handed_out, 2);
}

static void test_abandoned(void)
{
    part("an entry by command abandons a running collection");
    fresh();
    enter_four(4, 100);
    up_to_the_last(0);
    SAME(set_mode(4), 0);
    SAME(impact_now(), 0);
    SAME(ticks(600, 80), 0);
    SAME(ledger.queued, 0);
    SAME(ticks(2, 81), 0);
    SAME(set_mode(4), 0);
    SAME(tick(81), 0);
    SAME(impact_now(), 0);
    SAME(ticks(2, 81), 0);
    SAME(impact_now(), 1);
    SAME(set_mode(3), 0);
    SAME(impact_now(), 1);
    SAME(ticks(600, 500), 0);
    SAME(ledger.queued, 0);
    SAME(broadcast(0, 100, 700), 0);
    SAME(mode_now(), 4);
    SAME(impact_now(), 0);
    part("no detection outside mode 4");
    SAME(set_mode(5), 0);
    SAME(ticks(5, 500), 0);
    SAME(impact_now(), 0);
    SAME(set_mode(4), 0);
    SAME(impact_now(), 0);
    SAME(tick(81), 0);
    SAME(impact_now(), 0);
}

/* "The reference second of mode 5 is T at impact if the record's end caused
 * the entry, else T at entry." */
static void test_reference_second(void)
{
    part("reference second: T at impact");
    fresh();
    enter_four(4, 1000);
    up_to_the_last(0);
    SAME(broadcast(0, 1100, 100), 0);
    SAME(ring_tick(5), 0);
    SAME(mode_now(), 5);
    SAME(field(18, 3), 1100ul * 1024 + 1);
    SAME(broadcast(0, 1179, 100), 0);
    SAME(mode_now(), 5);
    SAME(broadcast(0, 1180, 100), 0);
    SAME(mode_now(), 6);
    part("no time-out while the record is collected");
    fresh();
    enter_four(4, 1000);
    up_to_the_last(0);
    SAME(broadcast(0, 2900, 100), 0);
    SAME(mode_now(), 4);
    SAME(ring_tick(5), 0);
    SAME(mode_now(), 5);
    check_acc_i(1000ul * 1024 + 3, 4);
    SAME(broadcast(0, 2900, 100), 0);
    SAME(mode_now(), 6);
    part("reference second: T at entry");
    fresh();
    enter_four(4, 1000);
    up_to_the_last(0);
    SAME(broadcast(0, 1100, 100), 0);
    SAME(set_mode(5), 0);
    SAME(broadcast(0, 1279, 100), 0);
    SAME(mode_now(), 5);
    SAME(broadcast(0, 1280, 100), 0);
    SAME(mode_now(), 6);
}

/* ------------------------------------------------- packets and streams */

/* Every kind of packet with its time, its mode and its samples in order. */
static void test_packet_of(unsigned stream, unsigned per_packet, unsigned size)
{
    unsigned i, j;

    fresh();
    SAME(broadcast(0, 610, 9000), 0);
    SAME(ticks(4, 0), 0);
    for (i = 0; i < per_packet; i++) {
        SAME(sample(stream, i), 0);
        SAME(ledger.queued, i + 1 == per_packet);
        if (i == 0) {
            SAME(ticks(4, 0), 0);
            SAME(set_mode(14), 0);
        }
    }
    SAME(newest()->stream, stream);
    SAME(newest()->length, 116);
    SAME(number(newest()->bytes, 2), 0x8888);
    SAME(number(newest()->bytes + 2, 3), 610 * 1024 + 4);
    SAME(newest()->bytes[5], 2);
    for (i = 0; i < per_packet; i++)
        for (j = 0; j < size; j++)
            SAME(newest()->bytes[6 + i * size + j],
                 (i * 37 + j * 11) % 256);
    SAME(number(newest()->bytes + 114, 2), 0x9999);
    SAME(sample(stream, 1), 0);
    SAME(ledger.queued, 1);
    poll_all();
    SAME(number(out, 1), 0xE7);
    SAME(ledger.handed_out, 1);
}

static void test_packets(void)
{
    unsigned i;

    part("API-V, PER and TIL packets");
    test_packet_of(4, 36, 3);
    test_packet_of(6, 36, 3);
    test_packet_of(9, 18, 6);
    part("ACC-E packet");
    fresh();
    SAME(broadcast(0, 610, 9000), 0);
    SAME(set_mode(13), 0);
    SAME(tick(9), 0);
    SAME(sample(0xB, 7), 0);
    SAME(newest()->length, 520);
    SAME(number(newest()->bytes, 2), 0x8888);
    SAME(number(newest()->bytes + 2, 3), 610 * 1024 + 1);
    SAME(newest()->bytes[5], 0x1D);
    for (i = 0; i < 512; i++)
        SAME(newest()->bytes[6 + i], (7 * 37 + i * 11) % 256);
    SAME(number(newest()->bytes + 518, 2), 0x9999);
    SAME(ledger.waits, 5);
    poll_all();
    SAME(ledger.handed_out, 1);
}

static void test_housekeeping(void)
{
    static const char wanted[] =
        "0F94C0020077000A88880970030B830056F3"
        "0970030283000002000200020002000100020001"
        "0102CD16"
        "000000000000000000100010000000000000002000000000"
        "0102030405060708090A0B0C0D0E0F101112131415161718191A1B1C1D"
        "1E1F202122232425262728292A2B2C2D2E2F303132333435363738393A9999";
    uint8_t bytes[126], frame[59] = {7};
    unsigned i;

    part("housekeeping, every byte");
    fresh();
    SAME(text("010A096382BD1234"), 0);
    SAME(text("010B097083001111"), 0);
    SAME(text("010B0970830056F3"), 0);
    SAME(text("010A095C00000000"), 5);
    SAME(ticks(3, 0), 0);
    SAME(text("020B00010000"), 2);
    SAME(text("020A00321234000B"), 0);
    samples(72, 5);
    samples(36, 4);
    samples(36, 9);
    for (i = 1; i <= 58; i++)
        frame[i] = (uint8_t)i;
    SAME(give(frame, 59), 0);
    SAME(poll_on(1), 0);
    SAME(poll_on(0), 0);
    SAME(poll_on(0), 0);
    SAME(text("020A0016ABCD"), 0);
    SAME(poll_on(1), 0);
    SAME(poll_on(0), 0);
    SAME(line_bytes(wanted, strlen(wanted), bytes), 126);
    BYTES(out, bytes, 126);
    part("housekeeping of a fresh controller has zeros from 66 on");
    fresh();
    SAME(housekeeping(), 0);
    for (i = 58; i < 116; i++)
        SAME(newest()->bytes[i], 0);
    SAME(newest()->bytes[5], 1);
}

static void test_clearing(void)
{
    part("clearing named streams");
    fresh();
    samples(36, 4);
    samples(36, 6);
    SAME(housekeeping(), 0);
    samples(37, 4);
    samples(35, 6);
    samples(71, 5);
    SAME(ledger.waits, 4);
    SAME(clear_streams(0), 0);
    SAME(ledger.cleared, 0);
    SAME(text("020A00130000FFFF"), 4);
    SAME(clear_streams(1 << 4), 0);
    SAME(ledger.cleared, 2);
    SAME(ledger.waits, 2);
    samples(35, 4);
    SAME(ledger.waits, 2);
    samples(1, 6);
    samples(1, 5);
    SAME(ledger.waits, 4);
    samples(1, 4);
    SAME(ledger.waits, 5);
    SAME(newest()->first, 2);
    SAME(clear_streams(0x0E74 & ~(1 << 6)), 0);
    SAME(ledger.waits, 2);
    poll_all();
    part("slots are free again");
    fill_queue(48);
    SAME(housekeeping(), 7);
    SAME(clear_streams(1 << 10), 0);
    SAME(ledger.waits, 0);
    fill_queue(48);
    poll_all();
    part("cleared pieces have used their counts");
    SAME(housekeeping(), 0);
    SAME(newest()->first, 1 + 47 + 1 + 48);
    poll_all();
}

static void test_clearing_while_collecting(void)
{
    part("clearing stream 2 leaves a running collection");
    fresh();
    enter_four(4, 1000);
    up_to_the_last(10);
    SAME(clear_streams(0x0E74), 0);
    SAME(ring_tick(5), 0);
    check_acc_i(1000ul * 1024 + 13, 4);
    part("clearing stream 2 leaves the ring and the window");
    enter_four(4, 1001);
    SAME(ring_tick(81), 0);
    SAME(ring_tick(81), 0);
    SAME(clear_streams(0x0E74), 0);
    SAME(ring_tick(81), 0);
    SAME(impact_now(), 1);
}

/* A half-polled ACC-I packet goes; the next one is handed out whole. */
static void test_half_polled(void)
{
    part("clearing a half-polled ACC-I packet");
    fresh();
    enter_four(4, 1000);
    fill_queue(2);
    up_to_the_last(10);
    SAME(ring_tick(5), 0);
    SAME(housekeeping(), 0);
    SAME(sample(0xB, 1), 0);
    SAME(poll_on(0), 0);
    SAME(poll_on(0), 0);
    SAME(poll_on(1), 0);
    SAME(poll_on(0), 0);
    SAME(poll_on(0), 0);
    SAME(ledger.waits, 4 + 1 + 5);
    SAME(clear_streams(1 << 2), 0);
    SAME(ledger.cleared, 4);
    SAME(ledger.waits, 6);
    SAME(field(46, 2), 7 * 16);
    SAME(poll_on(0), 0);
    SAME(out[7], 0x2A);
    poll_all();
    enter_four(4, 1001);
    up_to_the_last(500);
    SAME(ring_tick(6), 0);
    SAME(newest()->first, 7);
    SAME(poll_on(0), 0);
    SAME(number(out + 6, 2), 7 * 16 + 2);
    poll_all();
    SAME(ledger.handed_out, 2 + 1 + 1 + 1);
}

/* ------------------------------------------------------------ the counts */

static void test_many_polls(void)
{
    unsigned long i;

    part("4,096 pieces, 65,536 commands, 65,536 polls");
    fresh();
    for (i = 0; i < 65540; i++) {
        SAME(housekeeping(), 0);
        SAME(number(newest()->bytes + 16, 2), (i + 1) % 65536);
        SAME(number(newest()->bytes + 22, 2), (i + 1) % 65536);
        SAME(number(newest()->bytes + 26, 2), i % 65536);
        SAME(number(newest()->bytes + 54, 2), i % 4096 * 16);
        SAME(poll_on(0), 0);
        SAME(number(out + 2, 2), 0xC000 + i % 16384);
        SAME(number(out + 6, 2), i % 4096 * 16 + 10);
    }
    SAME(poll_on(1), 9);
    SAME(housekeeping(), 0);
    SAME(poll_on(1), 0);
    SAME(number(out + 2, 2), 0xC000);
    SAME(number(out, 2), 0x0FB4);
    SAME(ledger.handed_out, 65541);
}

/* Pieces of a five-piece stream past 4,096, and on both channels. */
static void test_five_piece_wrap(void)
{
    unsigned i;

    part("4,100 pieces of ACC-E");
    fresh();
    SAME(set_mode(5), 0);
    for (i = 0; i < 822; i++) {
        SAME(sample(0xB, i), 0);
        poll_all();
    }
    SAME(ledger.ever[11], 4110);
    SAME(field(64, 2), 14 * 16);
    SAME(ledger.handed_out, 822);
}

static void test_many_errors(void)
{
    unsigned i;

    part("256 errors");
    fresh();
    for (i = 1; i <= 256; i++) {
        SAME(text("020B00990000"), 2);
        SAME(field(38, 1), i % 256);
        SAME(field(39, 1), 2);
    }
    SAME(text("020A001300000001"), 4);
    SAME(field(38, 1), 1);
    SAME(field(39, 1), 4);
    SAME(text("020A003200007777"), 4);
    SAME(text("020A0016000099"), 3);
    SAME(field(38, 1), 3);
    SAME(field(39, 1), 3);
    SAME(field(32, 2), 256);
    SAME(field(30, 2), 3 + 2);
    SAME(field(24, 2), 2);
    SAME(field(41, 1), 0x16);
    part("a refusal leaves the last sequence and id");
    SAME(text("020A00131234000F"), 4);
    SAME(ssp.last_sequence, 0);
    SAME(text("020A0013ABCD0010"), 0);
    SAME(ssp.last_sequence, 0xCD);
    SAME(ssp.last_id, 0x13);
    SAME(field(39, 1), 4);
}

static void test_many_broadcasts(void)
{
    unsigned long i;

    part("65,536 broadcasts, accepted or refused with 5");
    fresh();
    SAME(broadcast(1, 100, 9000), 0);
    for (i = 0; i < 65536; i++)
        SAME(broadcast(0, i % 2 ? 99 : 100, 9000), i % 2 ? 5 : 0);
    SAME(field(26, 2), 0);
    SAME(field(28, 2), 1);
    SAME(broadcast(0, 1, 9000), 5);
    SAME(field(26, 2), 1);
}

static void test_status(void)
{
    static const unsigned high_a[8] = {0x40, 0x20, 0x01, 0, 0, 0, 0, 0};
    static const unsigned high_b[8] = {0, 0x20, 0, 0x08, 0x04, 0x02, 0x01,
                                       0x40};
    unsigned value, bit;

    part("status words, a bit at a time");
    for (value = 0; value < 16; value++) {
        unsigned a = value % 8 << 1 | 0x10, b = 0x10;
        fresh();
        SAME(set_mode(value), 0);
        for (bit = 0; bit < 8; bit++) {
            uint8_t frame[4] = {6, 0x0A, (uint8_t)(3 + bit * 31),
                                (uint8_t)(1 << bit)};
            SAME(give(frame, 4), 0);
            SAME(number(out, 2), (a | high_a[bit]) << 8 | frame[2]);
            frame[1] = 0x0B;
            SAME(give(frame, 4), 0);
            SAME(number(out, 2), (b | high_b[bit]) << 8 | frame[2]);
        }
        SAME(clear_streams(0), 0);
        SAME(text("060B00FF"), 0);
        SAME(number(out, 2), 0x6F00);
        SAME(text("060AFF00"), 0);
        SAME(number(out, 2), (a & ~0x10u) << 8 | 0xFF);
    }
    part("impact flag in both words");
    fresh();
    SAME(set_mode(12), 0);
    SAME(ticks(3, 81), 0);
    SAME(text("060A0000"), 0);
    SAME(number(out, 2), 0x9800);
    SAME(text("060B0000"), 0);
    SAME(number(out, 2), 0x9000);
}

/* ------------------------------------------------------------ the reader */

static const unsigned length_of[MODEL_STREAMS] = {
    [2] = 776, [4] = 116, [5] = 116, [6] = 116, [9] = 116, [10] = 118,
    [11] = 520};

/* Byte j of the packet whose first piece has index k times its pieces. */
static uint8_t packet_byte(unsigned stream, unsigned long k, unsigned j)
{
    if (j < 2)
        return 0x88;
    if (j >= length_of[stream] - 2)
        return 0x99;
    return (uint8_t)(k * 31 + j * 7);
}

/* The packet a poll would give for piece number index of the stream. */
static void make_packet(uint8_t *packet, unsigned stream, unsigned long index)
{
    unsigned pieces = pieces_for(length_of[stream]), i;
    unsigned source = (unsigned)(index % 4096) * 16 + stream;

    packet[0] = 0x0F;
    packet[1] = index % 2 ? 0xB4 : 0x94;
    packet[2] = 0xC0;
    packet[3] = (uint8_t)index;
    packet[4] = 0x00;
    packet[5] = 0x77;
    packet[6] = (uint8_t)(source >> 8);
    packet[7] = (uint8_t)source;
    for (i = 0; i < 118; i++)
        packet[8 + i] = packet_byte(stream, index / pieces,
                                    (unsigned)(index % pieces) * 118 + i);
}

/* "Only 23 changes state; no refusal writes output, and bytes past what is
 * handed out stay." */
static int read_bytes(const uint8_t *bytes, size_t n, size_t room)
{
    static struct model_reader was;
    uint8_t *packet = malloc(n + 1);
    size_t i;
    int reply;

    if (packet == NULL)
        abort();
    memcpy(packet + 1, bytes, n);
    memcpy(&was, &reader, sizeof was);
    memset(handed, 0xE7, sizeof handed);
    handed_length = 12345;
    reply = model_reader_packet(&reader, packet + 1, n, handed, room,
                                &handed_length);
    free(packet);
    if (reply >= 20 && reply != 23)
        SAME(memcmp(&was, &reader, sizeof was), 0);
    if (reply != 1)
        SAME(handed_length, 0);
    for (i = handed_length; i < sizeof handed && handed[i] == 0xE7; i++)
        ;
    SAME(i, sizeof handed);
    return reply;
}

static int read_piece(unsigned stream, unsigned long index)
{
    uint8_t packet[126];
    unsigned pieces = pieces_for(length_of[stream]), j;
    int reply;

    make_packet(packet, stream, index);
    reply = read_bytes(packet, 126, 776);
    if (reply != 1)
        return reply;
    SAME(handed_length, length_of[stream]);
    for (j = 0; j < handed_length; j++)
        if (handed[j] != packet_byte(stream, index / pieces, j))
            break;
    SAME(j, length_of[stream]);
    return 1;
}

static void test_example_reader(void)
{
    static const unsigned streams[] = {2, 4, 5, 6, 9, 10, 11};
    unsigned long index;
    unsigned i;

    part("example: ACC-E pieces 0, 1, 3 to 9");
    model_reader_start(&reader);
    SAME(read_piece(11, 0), 0);
    SAME(read_piece(11, 1), 0);
    for (index = 3; index < 9; index++)
        SAME(read_piece(11, index), 0);
    SAME(read_piece(11, 9), 1);
    part("every stream by itself, past 4,096 pieces");
    model_reader_start(&reader);
    for (i = 0; i < 7; i++) {
        unsigned pieces = pieces_for(length_of[streams[i]]);
        for (index = 0; index < 4110; index++)
            SAME(read_piece(streams[i], index),
                 index % pieces == pieces - 1 ? 1 : 0);
    }
    part("streams between one another");
    model_reader_start(&reader);
    for (index = 0; index < 70; index++)
        for (i = 0; i < 7; i++) {
            unsigned pieces = pieces_for(length_of[streams[i]]);
            SAME(read_piece(streams[i], index),
                 index % pieces == pieces - 1 ? 1 : 0);
        }
}

/* After pieces 0 and 1 comes the piece at last + d; then pieces follow one by
 * one.  reply is the one to the piece at last + d, following the number of
 * further pieces up to the first packet handed out. */
static void test_distances(void)
{
    static const struct {
        unsigned stream, d;
        int reply;
        unsigned following;
    } cases[] = {
        {11, 0, 22, 3}, {11, 1, 0, 2}, {11, 2, 0, 6}, {11, 3, 0, 5},
        {11, 4, 0, 4}, {11, 5, 0, 8}, {11, 6, 0, 7}, {11, 7, 0, 6},
        {11, 8, 0, 5}, {11, 4095, 0, 8},
        {2, 0, 22, 5}, {2, 1, 0, 4}, {2, 2, 0, 10}, {2, 5, 0, 7},
        {2, 6, 0, 6}, {2, 7, 0, 12}, {2, 8, 0, 11}, {2, 4095, 0, 12},
        {10, 0, 22, 1}, {10, 1, 1, 1}, {10, 2, 1, 1}, {10, 5, 1, 1},
        {10, 6, 1, 1}, {10, 7, 1, 1}, {10, 8, 1, 1}, {10, 4095, 1, 1}};
    unsigned i;

    part("counts at last + d");
    for (i = 0; i < sizeof cases / sizeof *cases; i++) {
        unsigned stream = cases[i].stream, following = 1;
        unsigned long index = 1 + cases[i].d;

        model_reader_start(&reader);
        SAME(read_piece(stream, 0), stream == 10 ? 1 : 0);
        SAME(read_piece(stream, 1), stream == 10 ? 1 : 0);
        SAME(read_piece(stream, index), cases[i].reply);
        while (following < 20 && read_piece(stream, ++index) == 0)
            following++;
        SAME(following, cases[i].following);
    }
}

static void test_fresh_record(void)
{
    unsigned stream;

    part("fresh records");
    for (stream = 0; stream < 12; stream++) {
        if (length_of[stream] == 0)
            continue;
        model_reader_start(&reader);
        SAME(read_piece(stream, 4095), 22);
        SAME(read_piece(stream, 0), pieces_for(length_of[stream]) == 1);
        SAME(read_piece(stream, 0), 22);
    }
    part("a middle piece first");
    model_reader_start(&reader);
    SAME(read_piece(11, 3), 0);
    SAME(read_piece(11, 4), 0);
    SAME(read_piece(11, 5), 0);
    SAME(read_piece(11, 6), 0);
    SAME(read_piece(11, 6), 22);
    SAME(read_piece(11, 7), 0);
    SAME(read_piece(11, 8), 0);
    SAME(read_piece(11, 8), 22);
    SAME(read_piece(11, 9), 1);
    SAME(read_piece(11, 9), 22);
}

static void spoil_and_read(const uint8_t *packet, unsigned at, uint8_t value,
                           int reply)
{
    uint8_t spoilt[126];

    memcpy(spoilt, packet, 126);
    spoilt[at] = value;
    SAME(read_bytes(spoilt, 126, 776), reply);
}

static void test_reader_replies(void)
{
    uint8_t packet[128] = {0};
    unsigned low;

    part("the reader's replies, in their order");
    model_reader_start(&reader);
    SAME(read_bytes(packet, 0, 775), 24);
    SAME(read_bytes(packet, 0, 0), 24);
    SAME(read_bytes(packet, 0, 776), 20);
    make_packet(packet, 10, 4095);
    SAME(read_bytes(packet, 126, 775), 24);
    SAME(read_bytes(packet, 125, 776), 20);
    SAME(read_bytes(packet, 127, 776), 20);
    SAME(read_bytes(packet, 126, 776), 22);
    packet[7] = 0xF3; /* a stream not carried, after each 20 */
    spoil_and_read(packet, 0, 0x1F, 20);
    spoil_and_read(packet, 1, 0x95, 20);
    spoil_and_read(packet, 1, 0xA4, 20);
    spoil_and_read(packet, 2, 0x80, 20);
    spoil_and_read(packet, 2, 0x40, 20);
    spoil_and_read(packet, 2, 0x3F, 20);
    spoil_and_read(packet, 4, 0x01, 20);
    spoil_and_read(packet, 5, 0x76, 20);
    for (low = 0; low < 16; low++)
        if (low >= 12 || length_of[low] == 0)
            spoil_and_read(packet, 7, (uint8_t)(0xF0 + low), 21);
    packet[7] = 0xFA; /* a repeat, before wrong opening */
    spoil_and_read(packet, 8, 0x00, 22);
    make_packet(packet, 10, 0);
    spoil_and_read(packet, 2, 0xFF, 1);
    make_packet(packet, 10, 1);
    spoil_and_read(packet, 8, 0x00, 23);
    SAME(read_piece(10, 1), 22);
    SAME(read_piece(10, 2), 1);
}

/* One wrong byte in an ACC-E packet, at byte j of its 590. */
static void test_spoilt_at(unsigned j, int reply)
{
    uint8_t packet[126];
    unsigned place;

    model_reader_start(&reader);
    for (place = 0; place < 5; place++) {
        make_packet(packet, 11, place);
        if (j / 118 == place)
            packet[8 + j % 118] ^= 0x55;
        if (place < 4 || reply != 1)
            SAME(read_bytes(packet, 126, 776), place < 4 ? 0 : reply);
        else
            SAME(read_bytes(packet, 126, 800), reply);
    }
    SAME(read_piece(11, 4), 22);
    for (place = 5; place < 9; place++)
        SAME(read_piece(11, place), 0);
    SAME(read_piece(11, 9), 1);
}

static void test_spoilt(void)
{
    static const unsigned lengths[] = {5, 10};
    uint8_t packet[126];
    unsigned i;

    part("opening, closing or fill bytes wrong");
    test_spoilt_at(0, 23);
    test_spoilt_at(1, 23);
    test_spoilt_at(2, 1);
    test_spoilt_at(517, 1);
    for (i = 518; i < 590; i++)
        test_spoilt_at(i, 23);
    for (i = 0; i < 2; i++) {
        unsigned length = length_of[lengths[i]], j;
        for (j = 0; j < 118; j++) {
            model_reader_start(&reader);
            make_packet(packet, lengths[i], 0);
            spoil_and_read(packet, 8 + j, 0x77,
                           j < 2 || j >= length - 2 ? 23 : 1);
        }
    }
    part("88 88 within the data starts nothing");
    model_reader_start(&reader);
    for (i = 0; i < 5; i++) {
        make_packet(packet, 11, i);
        packet[8] = packet[9] = 0x88;
        SAME(read_bytes(packet, 126, 776), i < 4 ? 0 : 1);
    }
    for (i = 1; i < 5; i++)
        SAME(number(handed + 118 * i, 2), 0x8888);
}

/* ---------------------------------------------------------- the sessions */

static unsigned wanted_mode(unsigned seconds, bool ended)
{
    if (seconds < 600)
        return 1;
    if (seconds < 5100)
        return 2;
    if (seconds < 7150)
        return 3;
    if (!ended)
        return 4;
    return seconds < 8000 + 180 ? 5 : 6;
}

/* The samples and the polls of one broadcast interval. */
static void descent_interval(unsigned seconds)
{
    unsigned step = seconds / 2, i;

    SAME(sample(5, step), 0);
    SAME(sample(6, step), 0);
    if (step % 2)
        SAME(sample(4, step), 0);
    if (step % 3 == 0)
        SAME(sample(9, step), 0);
    if (step % 32 == 0)
        SAME(housekeeping(), 0);
    if (step % 50 == 0) {
        uint8_t frame[59] = {7};
        for (i = 1; i < 59; i++)
            frame[i] = (uint8_t)(step + i);
        SAME(give(frame, 59), 0);
    }
    for (i = 0; i < 20; i++)
        SAME(tick((step * 7 + i * 13) % 80 + (i % 2 ? 4000 : 0)), 0);
    if (seconds > 8000 && seconds < 8100 && step % 10 == 0)
        SAME(sample(11, step), 0);
    if (ledger.waits > 0 && step % 4 != 0)
        SAME(poll_on(step % 3 == 0), 0);
}

/* Broadcasts every two seconds from T 0, 7 km at T 7150, impact at T 8000. */
static void test_descent(void)
{
    unsigned seconds;
    bool ended = false;

    part("one descent with impact");
    fresh();
    for (seconds = 0; seconds <= 8400; seconds += 2) {
        unsigned altitude = seconds < 7500 ? 15000 - 2 * seconds : 0;
        SAME(broadcast(seconds / 2 % 2, seconds,
                       altitude | (seconds % 8 ? 0 : 0x8000)), 0);
        SAME(mode_now(), wanted_mode(seconds, ended));
        if (seconds == 8000) {
            SAME(tick(300), 0);
            SAME(tick(81), 0);
            SAME(tick(2047), 0);
            SAME(impact_now(), 1);
            SAME(ticks(447, 4095), 0);
            SAME(mode_now(), 4);
            SAME(tick(0), 0);
            SAME(mode_now(), 5);
            ended = true;
        }
        descent_interval(seconds);
    }
    SAME(mode_now(), 6);
    SAME(impact_now(), 1);
    poll_all();
    SAME(ledger.handed_out, ledger.queued);
    SAME(ledger.ever[2], 7);
    SAME(ledger.ever[4], 58);
    SAME(ledger.ever[5], 58);
    SAME(ledger.ever[6], 116);
    SAME(ledger.ever[9], 77);
    SAME(ledger.ever[10], 132);
    SAME(ledger.ever[11], 20);
}

static uint32_t dice_state = 12345;

static unsigned dice(unsigned sides)
{
    dice_state ^= dice_state << 13;
    dice_state ^= dice_state >> 17;
    dice_state ^= dice_state << 5;
    return dice_state % sides;
}

/* One throw of the random session; its rules are those give() checks. */
static void random_frame(unsigned *seconds)
{
    static const unsigned list[] = {4, 5, 6, 9, 11};
    unsigned i, n;

    switch (dice(12)) {
    case 0:
        *seconds += dice(40);
        broadcast(dice(2), *seconds - dice(3), dice(2) ? dice(1400) : 9000);
        break;
    case 1:
        set_mode(dice(18));
        break;
    case 2:
        clear_streams(dice(4) ? 1u << dice(12) : dice(65536) & 0x0E74);
        break;
    case 3:
    case 4:
        housekeeping();
        break;
    case 5:
        n = dice(3) ? dice(30) : 400 + dice(200);
        for (i = 0; i < n; i++)
            tick(dice(20) ? dice(90) : dice(4100));
        break;
    case 6:
        sample(11, dice(1000));
        break;
    case 7:
        i = list[dice(5)];
        for (n = dice(100); n > 0 && i != 11; n--)
            sample(i, dice(1000));
        break;
    default:
        for (n = dice(8); n > 0; n--)
            poll_on(dice(2));
    }
}

static void test_random(void)
{
    unsigned session, i, records = 0;

    part("random sessions");
    for (session = 0; session < 20; session++) {
        unsigned seconds = 10;
        fresh();
        for (i = 0; i < 600; i++)
            random_frame(&seconds);
        records += ledger.ever[2] > 0;
        poll_all();
    }
    SAME(records > 5, 1);
}

/* Bytes of any length under the kinds of frames: nothing but replies. */
static void test_noise(void)
{
    static unsigned seen[10];
    uint8_t frame[520];
    unsigned i, j, n;

    part("noise");
    fresh();
    for (i = 0; i < 40000; i++) {
        n = dice(12);
        for (j = 0; j < n; j++)
            frame[j] = (uint8_t)dice(dice(2) ? 256 : 4);
        if (n > 0 && dice(8))
            frame[0] = (uint8_t)dice(9);
        if (n > 1 && dice(8))
            frame[1] = (uint8_t)(0x0A + dice(2));
        if (n > 3 && frame[0] == 2 && dice(4))
            memcpy(frame + 2, dice(2) ? "\0\x16" : "\0\x32", 2);
        out_length = dice(50) ? 126 : 125;
        j = (unsigned)give(frame, n);
        SAME(j <= 9, 1);
        seen[j <= 9 ? j : 0]++;
    }
    out_length = 126;
    for (i = 0; i < 10; i++)
        if (i != 6 && i != 7)
            SAME(seen[i] > 0, 1);
}

static void test_controller(void)
{
    test_session();
    test_example_times();
    test_example_modes();
    test_example_impact();
    test_example_packing();
    test_reply_sizes();
    test_command_replies();
    test_sample_replies();
    test_sample_modes();
    test_closing_without_room();
    test_time();
    test_entries();
    test_locked_and_staying();
    test_timeouts();
    test_records();
    test_locked_record();
    test_abandoned();
    test_reference_second();
    test_packets();
    test_housekeeping();
    test_clearing();
    test_clearing_while_collecting();
    test_half_polled();
    test_many_polls();
    test_five_piece_wrap();
    test_many_errors();
    test_many_broadcasts();
    test_status();
}

int main(void)
{
    test_controller();
    test_example_reader();
    test_distances();
    test_fresh_record();
    test_reader_replies();
    test_spoilt();
    test_descent();
    test_random();
    test_noise();
    printf("%lu checks, %lu failed\n", checks_made, checks_failed);
    return checks_failed == 0 ? EXIT_SUCCESS : EXIT_FAILURE;
}
