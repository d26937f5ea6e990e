/* header.c: holds every number and rule of include/ssp.h to what the library
 * does, and every name of include/ssp_names.h to the rules.
 *
 *   header INCLUDE CHANGELOG
 *
 * Each name of the header is compared with a number found by calling the
 * entries; then both headers are read as text, and a name in them that was not
 * compared is a failure.  In this order: lengths, kinds and channels, time,
 * altitude and readings, commands and modes, streams and samples, status words,
 * replies, the reader's promise, the headers' text.  Packets are in layout.c,
 * names in names.c. */
#include <stdbool.h>
#include <stdio.h>
#include <string.h>

#include "frames.h"
#include "held.h"

static uint8_t reader[HELD_ROOM];

/* ------------------------------------------------------------- lengths */

static size_t least_start(uint8_t (*start)(uint8_t *, size_t), uint8_t *bytes)
{
    size_t n;

    for (n = 0; n < HELD_ROOM && start(bytes, n) != 0; n++)
        ;
    return n;
}

static size_t least_out(void)
{
    uint8_t frame[4] = {SSP_STATUS, SSP_CHANNEL_A, 0, 0};
    size_t n;

    fresh();
    for (n = 0; n < HELD_ROOM; n++)
        if (ssp_frame(held_state, HELD_ROOM, frame, 4, held_out, n) !=
            SSP_CONTROLLER_SHORT_OUTPUT)
            break;
    return n;
}

static size_t least_reader_out(void)
{
    size_t n;

    ssp_reader_start(reader, HELD_ROOM);
    for (n = 0; n < HELD_ROOM; n++)
        if (ssp_reader_packet(reader, HELD_ROOM, NULL, 0, held_out, n) !=
            SSP_READER_SHORT_OUTPUT)
            break;
    return n;
}

/* How many bytes of the output an accepted frame writes: those that come out
 * alike from two fills. */
static size_t bytes_written(const uint8_t *frame, size_t n)
{
    static uint8_t first[sizeof held_out];
    size_t count = 0;

    fresh();
    give_housekeeping();
    memset(held_out, 0, sizeof held_out);
    give(frame, n);
    memcpy(first, held_out, sizeof held_out);
    fresh();
    give_housekeeping();
    memset(held_out, 0xFF, sizeof held_out);
    give(frame, n);
    while (count < sizeof held_out && first[count] == held_out[count])
        count++;
    return count;
}

static unsigned slots(void)
{
    unsigned count = 0;

    fresh();
    while (give_housekeeping() == SSP_CONTROLLER_ACCEPTED)
        count++;
    return count;
}

static void hold_lengths(void)
{
    static const uint8_t poll[2] = {SSP_POLL, SSP_CHANNEL_A};
    static const uint8_t status[4] = {SSP_STATUS, SSP_CHANNEL_A, 1, 2};

    HOLDS(SSP_STATE_BYTES, least_start(ssp_start, held_state));
    HOLDS(SSP_READER_BYTES, least_start(ssp_reader_start, reader));
    HOLDS(SSP_OUT_BYTES, least_out());
    HOLDS(SSP_READER_OUT_BYTES, least_reader_out());
    HOLDS(SSP_PACKET_BYTES, bytes_written(poll, 2));
    HOLDS(SSP_STATUS_WORD_BYTES, bytes_written(status, 4));
    HOLDS(SSP_QUEUE_SLOTS, slots());
}

/* ---------------------------------------------------- kinds and channels */

/* The shortest frame of a kind that is not refused for its shape, and in
 * *only whether a longer one is. */
static unsigned shortest(unsigned kind, bool *only)
{
    uint8_t frame[FRAME_MOST] = {(uint8_t)kind, SSP_CHANNEL_A};
    unsigned n = 0;

    fresh();
    while (n < FRAME_MOST && give(frame, n) == SSP_CONTROLLER_NO_FRAME)
        n++;
    *only = give(frame, n + 1) == SSP_CONTROLLER_NO_FRAME;
    return n;
}

/* The one kind whose frames have this shortest length and, where only, no
 * other. */
static unsigned kind_of(unsigned length, bool only)
{
    unsigned kind, found = 999;
    bool fixed;

    for (kind = 0; kind < 256; kind++)
        if (shortest(kind, &fixed) == length && fixed == only)
            found = found == 999 ? kind : 998;
    return found;
}

/* The length of the longest frame of zeros that is accepted, from far above
 * down; in mode 5, where every sample is taken. */
static unsigned longest(void)
{
    uint8_t frame[2200] = {0};
    unsigned n, i;

    fresh();
    give_order(SSP_SET_MODE, SSP_MODE_SURFACE);
    for (n = sizeof frame; n > 0; n--)
        for (i = 0; i < 16 * 16; i++) {
            frame[0] = (uint8_t)(i / 16);
            frame[1] = (uint8_t)(i % 16);
            if (give(frame, n) == SSP_CONTROLLER_ACCEPTED)
                return n;
        }
    return 0;
}

static void hold_kinds(void)
{
    bool only;

    HOLDS(SSP_BROADCAST_FRAME_BYTES, shortest(SSP_BROADCAST, &only));
    HOLDS(SSP_COMMAND_FRAME_BYTES, shortest(SSP_COMMAND, &only));
    HOLDS(SSP_TICK_FRAME_BYTES, shortest(SSP_TICK, &only));
    HOLDS(SSP_SAMPLE_FRAME_BYTES, shortest(SSP_SAMPLE, &only));
    HOLDS(SSP_POLL_FRAME_BYTES, shortest(SSP_POLL, &only));
    HOLDS(SSP_STATUS_FRAME_BYTES, shortest(SSP_STATUS, &only));
    HOLDS(SSP_ANALOGUE_FRAME_BYTES, shortest(SSP_ANALOGUE, &only));
    HOLDS(SSP_LONGEST_FRAME_BYTES, longest());
    HOLDS(SSP_BROADCAST, kind_of(SSP_BROADCAST_FRAME_BYTES, true));
    HOLDS(SSP_COMMAND, kind_of(SSP_COMMAND_FRAME_BYTES, false));
    HOLDS(SSP_TICK, kind_of(SSP_TICK_FRAME_BYTES, true));
    HOLDS(SSP_SAMPLE, kind_of(SSP_SAMPLE_FRAME_BYTES, false));
    HOLDS(SSP_POLL, kind_of(SSP_POLL_FRAME_BYTES, true));
    HOLDS(SSP_STATUS, kind_of(SSP_STATUS_FRAME_BYTES, true));
    HOLDS(SSP_ANALOGUE, kind_of(SSP_ANALOGUE_FRAME_BYTES, true));
}

/* The channel byte on which polled packets have this ID. */
static unsigned channel_with(unsigned id)
{
    unsigned byte;

    for (byte = 0; byte < 256; byte++) {
        fresh();
        give_housekeeping();
        if (poll_with(byte) == SSP_CONTROLLER_ACCEPTED &&
            number(held_out, 2) == id)
            break;
    }
    return byte;
}

static void hold_channels(void)
{
    HOLDS(SSP_CHANNEL_A, channel_with(0x0F94));
    HOLDS(SSP_CHANNEL_B, channel_with(0x0FB4));
}

/* ------------------------------------------- time, altitude and readings */

/* The first time word that a broadcast at time 0 makes late. */
static unsigned quarters(void)
{
    unsigned time;

    for (time = 0; time < 100; time++) {
        fresh();
        give_broadcast(time, 9000);
        if (give_broadcast(0, 9000) == SSP_CONTROLLER_TIME_BACK)
            break;
    }
    return time;
}

/* The mode of a fresh controller after a broadcast. */
static unsigned mode_at(unsigned seconds, unsigned altitude)
{
    fresh();
    give_broadcast(seconds * SSP_TIME_WORD_UNITS, altitude);
    return mode_now();
}

/* The bits of an altitude word, from one above 7 km on, that do not count as
 * height. */
static unsigned not_height(void)
{
    unsigned bit, all = 0;

    for (bit = 10; bit < 16; bit++)
        if (mode_at(0, 1u << bit) == SSP_MODE_PROXIMITY)
            all |= 1u << bit;
    return all;
}

/* The greatest altitude word that is 7 km or less. */
static unsigned seven_kilometres(void)
{
    unsigned altitude = 0;

    while (mode_at(0, altitude + 1) == SSP_MODE_PROXIMITY)
        altitude++;
    return altitude;
}

static unsigned greatest_reading(void)
{
    unsigned reading = 0;

    fresh();
    while (give_tick(reading + 1) == SSP_CONTROLLER_ACCEPTED)
        reading++;
    return reading;
}

/* The least reading above 80 of which three declare no impact. */
static unsigned first_negative(void)
{
    unsigned reading = 80, i;

    do {
        reading++;
        fresh();
        give_order(SSP_SET_MODE, SSP_MODE_PROXIMITY);
        for (i = 0; i < 3; i++)
            give_tick(reading);
    } while ((word_with(SSP_CHANNEL_A, 0, 0) & SSP_A_IMPACT) != 0);
    return reading;
}

static void hold_values(void)
{
    HOLDS(SSP_TIME_WORD_UNITS, quarters());
    HOLDS(SSP_ALTITUDE_PREDICTED, not_height());
    HOLDS(SSP_ALTITUDE_HEIGHT, 0xFFFF ^ not_height());
    HOLDS(SSP_ALTITUDE_METRES, 7000 / seven_kilometres());
    HOLDS(SSP_READING_MOST, greatest_reading());
    HOLDS(SSP_READING_NEGATIVE, first_negative());
    HOLDS(SSP_READING_SPAN, 2 * first_negative());
}

/* --------------------------------------------------- commands and modes */

/* The command id that, accepted with these parameters, does what done sees. */
static unsigned id_that(size_t parameters, bool (*done)(void))
{
    uint8_t frame[FRAME_MOST];
    unsigned id;

    for (id = 0; id < 65536; id++) {
        fresh();
        give(frame, frame_command(frame, 0, SSP_SEND_HOUSEKEEPING, 1));
        frame_order(frame, 0, id, 1, 4);
        frame[6] = parameters == 2 ? frame[6] : 0;
        if (give(frame, 6 + parameters) == SSP_CONTROLLER_ACCEPTED && done())
            break;
    }
    return id;
}

static bool mode_is_4(void)
{
    return mode_now() == 4;
}

static bool two_wait(void)
{
    return poll_with(SSP_CHANNEL_A) == 0 && poll_with(SSP_CHANNEL_A) == 0;
}

static bool mode_stays(void)
{
    return !mode_is_4();
}

/* The bits that are accepted alone in a mask. */
static unsigned clearable(void)
{
    unsigned bit, all = 0;

    fresh();
    for (bit = 0; bit < 16; bit++)
        if (give_order(SSP_CLEAR_STREAMS, 1u << bit) ==
            SSP_CONTROLLER_ACCEPTED)
            all |= 1u << bit;
    return all;
}

/* What set-mode adds so that a broadcast at 7 km leaves mode 1. */
static unsigned lock(void)
{
    unsigned added;

    for (added = 0; added < 64; added++) {
        fresh();
        if (give_order(SSP_SET_MODE, 1 + added) != SSP_CONTROLLER_ACCEPTED)
            continue;
        give_broadcast(0, 100);
        if (mode_now() == 1)
            break;
    }
    return added;
}

/* The modes, a bit each, in which a sample of this stream is taken. */
static unsigned modes_of(unsigned stream, unsigned size)
{
    unsigned mode, all = 0;

    for (mode = 0; mode < 8; mode++) {
        fresh();
        give_order(SSP_SET_MODE, mode);
        if (give_sample(stream, size) == SSP_CONTROLLER_ACCEPTED)
            all |= 1u << mode;
    }
    return all;
}

/* The modes of a descent by its clock and its end; EMC and diagnostic are the
 * two in which no sample is taken. */
static void hold_modes(void)
{
    unsigned sampled = modes_of(SSP_STREAM_DEN, 2), mode, silent[8], count = 0;

    for (mode = 0; mode < 8; mode++)
        if ((sampled >> mode & 1) == 0)
            silent[count++] = mode;
    hold("modes without samples", 2, count);
    HOLDS(SSP_MODE_EMC, silent[0]);
    HOLDS(SSP_MODE_DIAGNOSTIC, silent[1]);
    HOLDS(SSP_MODE_UPPER_ATMOSPHERE, mode_at(0, 9000));
    HOLDS(SSP_MODE_MID_ATMOSPHERE, mode_at(600, 9000));
    HOLDS(SSP_MODE_LOWER_ATMOSPHERE, mode_at(5100, 9000));
    HOLDS(SSP_MODE_PROXIMITY, mode_at(7200, 9000));
    give_broadcast((7200 + 1860) * SSP_TIME_WORD_UNITS, 9000);
    HOLDS(SSP_MODE_SURFACE, mode_now());
    give_broadcast((7200 + 1860 + 180) * SSP_TIME_WORD_UNITS, 9000);
    HOLDS(SSP_MODE_EXTENDED_SURFACE, mode_now());
}

static void hold_commands(void)
{
    HOLDS(SSP_CLEAR_STREAMS, id_that(2, mode_stays));
    HOLDS(SSP_SEND_HOUSEKEEPING, id_that(0, two_wait));
    HOLDS(SSP_SET_MODE, id_that(2, mode_is_4));
    HOLDS(SSP_CLEARABLE, clearable());
    HOLDS(SSP_LOCKED, lock());
}

/* ----------------------------------------------------- streams, samples */

/* The stream from this one on that takes samples of this size. */
static unsigned stream_with(unsigned from, unsigned size)
{
    fresh();
    give_order(SSP_SET_MODE, 5);
    while (from < 256 && give_sample(from, size) != SSP_CONTROLLER_ACCEPTED)
        from++;
    return from;
}

/* The stream of the record that an impact leaves. */
static unsigned impact_stream(void)
{
    fresh();
    give_order(SSP_SET_MODE, 4);
    give_record();
    poll_with(SSP_CHANNEL_A);
    return held_out[7] % 16;
}

static unsigned housekeeping_stream(void)
{
    fresh();
    give_housekeeping();
    poll_with(SSP_CHANNEL_A);
    return held_out[7] % 16;
}

static unsigned sample_bytes(unsigned stream)
{
    unsigned size = 0;

    fresh();
    while (size < FRAME_MOST &&
           give_sample(stream, size) == SSP_CONTROLLER_WRONG_LENGTH)
        size++;
    return size;
}

/* How many samples bring a stream's first piece. */
static unsigned samples(unsigned stream)
{
    unsigned count = 0, size = sample_bytes(stream);

    fresh();
    give_order(SSP_SET_MODE, SSP_MODE_SURFACE);
    do {
        give_sample(stream, size);
        count++;
    } while (count < 1000 && poll_with(SSP_CHANNEL_A) != 0);
    return count;
}

static unsigned greatest_den(void)
{
    uint8_t frame[4] = {SSP_SAMPLE, SSP_STREAM_DEN, 0, 0};
    unsigned value, most = 0;

    for (value = 0; value < 65536; value++) {
        fresh();
        put_number(frame + 2, 2, value);
        if (give(frame, 4) == SSP_CONTROLLER_ACCEPTED)
            most = value;
    }
    return most;
}

static void hold_samples(void)
{
    unsigned early = 0x7E, stream; /* modes 1 to 6 */

    HOLDS(SSP_API_V_SAMPLE_BYTES, sample_bytes(SSP_STREAM_API_V));
    HOLDS(SSP_DEN_SAMPLE_BYTES, sample_bytes(SSP_STREAM_DEN));
    HOLDS(SSP_PER_SAMPLE_BYTES, sample_bytes(SSP_STREAM_PER));
    HOLDS(SSP_TIL_SAMPLE_BYTES, sample_bytes(SSP_STREAM_TIL));
    HOLDS(SSP_ACC_E_SAMPLE_BYTES, sample_bytes(SSP_STREAM_ACC_E));
    HOLDS(SSP_API_V_SAMPLES, samples(SSP_STREAM_API_V));
    HOLDS(SSP_DEN_SAMPLES, samples(SSP_STREAM_DEN));
    HOLDS(SSP_PER_SAMPLES, samples(SSP_STREAM_PER));
    HOLDS(SSP_TIL_SAMPLES, samples(SSP_STREAM_TIL));
    HOLDS(SSP_ACC_E_SAMPLES, samples(SSP_STREAM_ACC_E));
    HOLDS(SSP_DEN_MOST, greatest_den());
    for (stream = 0; stream < 12; stream++)
        if (stream != SSP_STREAM_ACC_E && sample_size(stream) > 0)
            hold("modes of samples", early,
                 modes_of(stream, sample_size(stream)));
    hold("modes of ACC-E samples", 1u << SSP_MODE_SURFACE,
         modes_of(SSP_STREAM_ACC_E, SSP_ACC_E_SAMPLE_BYTES));
}

static void hold_streams(void)
{
    unsigned carried = 0, stream;

    HOLDS(SSP_STREAM_ACC_I, impact_stream());
    HOLDS(SSP_STREAM_API_V, stream_with(0, 3));
    HOLDS(SSP_STREAM_DEN, stream_with(0, 2));
    HOLDS(SSP_STREAM_PER, stream_with(SSP_STREAM_API_V + 1, 3));
    HOLDS(SSP_STREAM_TIL, stream_with(0, 6));
    HOLDS(SSP_STREAM_HK, housekeeping_stream());
    HOLDS(SSP_STREAM_ACC_E, stream_with(0, 512));
    for (stream = 0; stream < 256; stream++) {
        if (ssp_stream_length((uint8_t)stream) != stream_listed(stream))
            hold("ssp_stream_length", stream_listed(stream),
                 ssp_stream_length((uint8_t)stream));
        if (ssp_stream_length((uint8_t)stream) > 0)
            carried |= 1u << stream;
    }
    hold("streams carried", carried, SSP_CLEARABLE);
}

/* --------------------------------------------------------- status words */

static unsigned low_bits(unsigned channel)
{
    fresh();
    return word_with(channel, 0, 0) ^ word_with(channel, 0xFF, 0);
}

/* The bits that two commands change: the first sets mode 4 and the second
 * again; only the count's lowest bit differs. */
static unsigned count_bits(unsigned channel)
{
    unsigned once;

    fresh();
    give_order(SSP_SET_MODE, 4);
    once = word_with(channel, 0, 0);
    give_order(SSP_SET_MODE, 4);
    return once ^ word_with(channel, 0, 0);
}

static unsigned impact_bits(unsigned channel)
{
    unsigned before, i;

    fresh();
    give_order(SSP_SET_MODE, 4);
    before = word_with(channel, 0, 0);
    for (i = 0; i < 3; i++)
        give_tick(500);
    return before ^ word_with(channel, 0, 0);
}

/* The bits that modes 0 to 7 change, two commands apart. */
static unsigned mode_bits(unsigned channel, unsigned modes)
{
    unsigned mode, first = 0, all = 0;

    fresh();
    for (mode = 0; mode < modes; mode++) {
        give_order(SSP_SET_MODE, 0);
        give_order(SSP_SET_MODE, mode);
        if (mode == 0)
            first = word_with(channel, 0, 0);
        all |= first ^ word_with(channel, 0, 0);
    }
    return all;
}

static void hold_flags(void)
{
    HOLDS(SSP_FLAG_WATCHDOG_OK, 1 << 0);
    HOLDS(SSP_FLAG_ALL_OK, 1 << 1);
    HOLDS(SSP_FLAG_12V_OK, 1 << 2);
    HOLDS(SSP_FLAG_DDB_LOSS, 1 << 3);
    HOLDS(SSP_FLAG_BCP_LOSS, 1 << 4);
    HOLDS(SSP_FLAG_REDUNDANT_12V, 1 << 5);
    HOLDS(SSP_FLAG_NOMINAL_12V, 1 << 6);
    HOLDS(SSP_FLAG_SOUNDER, 1 << 7);
}

static void hold_words(void)
{
    HOLDS(SSP_A_IMPACT, impact_bits(SSP_CHANNEL_A));
    HOLDS(SSP_A_WATCHDOG_OK, changed_by(SSP_CHANNEL_A, SSP_FLAG_WATCHDOG_OK));
    HOLDS(SSP_A_ALL_OK, changed_by(SSP_CHANNEL_A, SSP_FLAG_ALL_OK));
    HOLDS(SSP_A_COMMAND_COUNT_BIT, count_bits(SSP_CHANNEL_A));
    HOLDS(SSP_A_MODE, mode_bits(SSP_CHANNEL_A, 8));
    HOLDS(SSP_A_MODE_UNIT, mode_bits(SSP_CHANNEL_A, 2));
    HOLDS(SSP_A_12V_OK, changed_by(SSP_CHANNEL_A, SSP_FLAG_12V_OK));
    HOLDS(SSP_A_LOW, low_bits(SSP_CHANNEL_A));
    HOLDS(SSP_B_IMPACT, impact_bits(SSP_CHANNEL_B));
    HOLDS(SSP_B_SOUNDER, changed_by(SSP_CHANNEL_B, SSP_FLAG_SOUNDER));
    HOLDS(SSP_B_ALL_OK, changed_by(SSP_CHANNEL_B, SSP_FLAG_ALL_OK));
    HOLDS(SSP_B_COMMAND_COUNT_BIT, count_bits(SSP_CHANNEL_B));
    HOLDS(SSP_B_DDB_LOSS, changed_by(SSP_CHANNEL_B, SSP_FLAG_DDB_LOSS));
    HOLDS(SSP_B_BCP_LOSS, changed_by(SSP_CHANNEL_B, SSP_FLAG_BCP_LOSS));
    HOLDS(SSP_B_REDUNDANT_12V,
          changed_by(SSP_CHANNEL_B, SSP_FLAG_REDUNDANT_12V));
    HOLDS(SSP_B_NOMINAL_12V, changed_by(SSP_CHANNEL_B, SSP_FLAG_NOMINAL_12V));
    HOLDS(SSP_B_LOW, low_bits(SSP_CHANNEL_B));
    /* Every flag that a channel's word does not name leaves the word. */
    hold("A's other flags", 0, changed_by(SSP_CHANNEL_A, 0xF8));
    hold("B's other flags", 0, changed_by(SSP_CHANNEL_B, 0x05));
}

/* -------------------------------------------------------------- replies */

static uint8_t time_back(void)
{
    fresh();
    give_broadcast(400, 9000);
    return give_broadcast(396, 9000);
}

/* What is judged of a state: its length and the mark, and nothing behind. */
static void hold_judged_state(void)
{
    size_t i;

    memset(held_state, 0, HELD_ROOM);
    hold("a controller that was never started", SSP_CONTROLLER_UNFIT_STATE,
         give(NULL, 0));
    ssp_reader_start(held_state, HELD_ROOM);
    hold("a reader as a controller", SSP_CONTROLLER_UNFIT_STATE,
         give(NULL, 0));
    fresh();
    for (i = 2; i < SSP_STATE_BYTES; i++)
        held_state[i] = (uint8_t)(i * 37 + i / 256);
    hold("a controller written into", SSP_CONTROLLER_ACCEPTED, give_tick(1));
    held_state[1] ^= 1;
    hold("a controller without its mark", SSP_CONTROLLER_UNFIT_STATE,
         give_tick(1));
}

static void hold_replies(void)
{
    fresh();
    HOLDS(SSP_CONTROLLER_ACCEPTED, give_tick(4095));
    HOLDS(SSP_CONTROLLER_NO_FRAME, give(NULL, 0));
    HOLDS(SSP_CONTROLLER_NOT_CARRIED, give_sample(SSP_STREAM_HK, 1));
    HOLDS(SSP_CONTROLLER_WRONG_LENGTH, give_sample(SSP_STREAM_DEN, 1));
    HOLDS(SSP_CONTROLLER_OUT_OF_RANGE, give_tick(4096));
    HOLDS(SSP_CONTROLLER_TIME_BACK, time_back());
    HOLDS(SSP_CONTROLLER_NOT_IN_THIS_MODE, give_sample(SSP_STREAM_ACC_E, 512));
    HOLDS(SSP_CONTROLLER_NOTHING_WAITS, poll_with(SSP_CHANNEL_B));
    slots();
    HOLDS(SSP_CONTROLLER_NO_ROOM, give_housekeeping());
    HOLDS(SSP_CONTROLLER_SHORT_OUTPUT,
          ssp_frame(held_state, HELD_ROOM, NULL, 0, NULL, 0));
    HOLDS(SSP_CONTROLLER_UNFIT_STATE, ssp_frame(NULL, 0, NULL, 0, NULL, 0));
    hold("start on nothing", SSP_CONTROLLER_UNFIT_STATE, ssp_start(NULL, 0));
    hold_judged_state();
}

static uint8_t read_piece(unsigned stream, unsigned count, unsigned place)
{
    uint8_t packet[SSP_PACKET_BYTES];

    packet_of(packet, stream, count, place, 1);
    return ssp_reader_packet(reader, HELD_ROOM, packet, sizeof packet,
                             held_out, sizeof held_out);
}

static uint8_t read_nothing(void)
{
    return ssp_reader_packet(reader, HELD_ROOM, NULL, 0, held_out,
                             sizeof held_out);
}

static void hold_judged_reader(void)
{
    size_t i;

    memset(reader, 0, HELD_ROOM);
    hold("a reader that was never started", SSP_READER_UNFIT_STATE,
         read_nothing());
    ssp_start(reader, HELD_ROOM);
    hold("a controller as a reader", SSP_READER_UNFIT_STATE, read_nothing());
    ssp_reader_start(reader, HELD_ROOM);
    for (i = 2; i < SSP_READER_BYTES; i++)
        reader[i] = (uint8_t)(i * 37 + i / 256);
    hold("a reader written into", SSP_READER_NO_PACKET, read_nothing());
    reader[0] ^= 1;
    hold("a reader without its mark", SSP_READER_UNFIT_STATE, read_nothing());
}

static void hold_reader_replies(void)
{
    ssp_reader_start(reader, HELD_ROOM);
    HOLDS(SSP_READER_TAKEN, read_piece(SSP_STREAM_ACC_E, 0, 0));
    HOLDS(SSP_READER_REPEAT, read_piece(SSP_STREAM_ACC_E, 0, 0));
    HOLDS(SSP_READER_HANDED_OUT, read_piece(SSP_STREAM_DEN, 0, 0));
    HOLDS(SSP_READER_SPOILT, read_piece(SSP_STREAM_DEN, 1, 2));
    HOLDS(SSP_READER_NOT_CARRIED, read_piece(3, 0, 0));
    HOLDS(SSP_READER_NO_PACKET, read_nothing());
    HOLDS(SSP_READER_SHORT_OUTPUT,
          ssp_reader_packet(reader, HELD_ROOM, NULL, 0, NULL, 0));
    HOLDS(SSP_READER_UNFIT_STATE,
          ssp_reader_packet(NULL, 0, NULL, 0, NULL, 0));
    hold("reader's start on nothing", SSP_READER_UNFIT_STATE,
         ssp_reader_start(NULL, 0));
    hold_judged_reader();
}

/* -------------------------------------------------- the reader's promise */

/* How many of these ACC-E pieces, given by their counts, end a packet that is
 * handed out. */
static unsigned handed_out(const unsigned *counts, unsigned n)
{
    unsigned i, all = 0;

    for (i = 0; i < n; i++)
        all += read_piece(SSP_STREAM_ACC_E, counts[i], counts[i] % 5) ==
               SSP_READER_HANDED_OUT;
    return all;
}

/* How many pieces may be missing before a first arrival. */
static unsigned most_missing(void)
{
    unsigned missing = 0;

    do {
        missing++;
        ssp_reader_start(reader, HELD_ROOM);
    } while (read_piece(SSP_STREAM_HK, missing, 0) == SSP_READER_HANDED_OUT);
    return missing - 1;
}

static void hold_promise(void)
{
    static const unsigned whole[] = {0, 1, 2, 3, 4}, back[] = {0, 1, 2, 1, 3, 4},
                          again[] = {0, 1, 1, 2, 2, 2, 3, 4, 4};

    HOLDS(SSP_MOST_MISSING, most_missing());
    ssp_reader_start(reader, HELD_ROOM);
    hold("a packet whole", 1, handed_out(whole, 5));
    hold("the same recording again", 0, handed_out(whole, 5));
    ssp_reader_start(reader, HELD_ROOM);
    hold("the same recording, a fresh reader", 1, handed_out(whole, 5));
    ssp_reader_start(reader, HELD_ROOM);
    hold("pieces 0 1 2 1 3 4", 0, handed_out(back, 6));
    ssp_reader_start(reader, HELD_ROOM);
    hold("repeats as next arrivals", 1, handed_out(again, 9));
}

/* ----------------------------------------------------- the headers' text */

/* The version is that of the newest part of the changelog, "## N". */
static void hold_version(const char *path)
{
    char line[400];
    unsigned version = 0;
    FILE *file = fopen(path, "r");

    while (file != NULL && version == 0 &&
           fgets(line, sizeof line, file) != NULL)
        sscanf(line, "## %u", &version);
    if (file != NULL)
        fclose(file);
    HOLDS(SSP_VERSION, version);
}

/* The name that a line of a header defines, or an empty one. */
static void name_in(const char *line, char *name)
{
    *name = 0;
    if (sscanf(line, "#define %99[A-Za-z0-9_]", name) == 1)
        return;
    sscanf(line, "static inline const char *%99[a-z_]", name);
}

/* Every name that a header defines was held. */
static unsigned read_header(const char *folder, const char *header)
{
    char line[200], name[100], path[1000];
    unsigned names = 0;
    FILE *file;

    snprintf(path, sizeof path, "%s/%s", folder, header);
    file = fopen(path, "r");
    while (file != NULL && fgets(line, sizeof line, file) != NULL) {
        name_in(line, name);
        if (*name == 0 || strcmp(name, "SSP_H") == 0 ||
            strcmp(name, "SSP_NAMES_H") == 0)
            continue;
        names++;
        if (!was_held(name)) {
            held_wrong++;
            printf("header: %s is held to nothing\n", name);
        }
    }
    if (file != NULL)
        fclose(file);
    return names;
}

int main(int count, char **words)
{
    const char *folder = count > 1 ? words[1] : "include";
    unsigned numbers, names;

    hold_lengths();
    hold_kinds();
    hold_channels();
    hold_values();
    hold_commands();
    hold_modes();
    hold_streams();
    hold_samples();
    hold_flags();
    hold_words();
    hold_replies();
    hold_reader_replies();
    hold_promise();
    hold_layouts();
    hold_names();
    hold_version(count > 2 ? words[2] : "CHANGELOG.md");
    numbers = read_header(folder, "ssp.h");
    names = read_header(folder, "ssp_names.h");
    held_wrong += numbers < 100 || names < 8; /* a header was not read */
    printf("header: %u numbers and %u lists of names held to the library, "
           "%u wrong\n", numbers, names, held_wrong);
    return held_wrong != 0;
}
