/* layout.c: holds what include/ssp.h says of polled packets, datastream
 * packets and housekeeping to what the library writes.  A field's place is
 * found by the byte that changes where only that field changes. */
#include <string.h>

#include "frames.h"
#include "held.h"

/* ------------------------------------------------------- polled packets */

/* Where a number first stands in bytes. */
static unsigned place_of(const uint8_t *bytes, unsigned long value,
                         unsigned size)
{
    unsigned at = 0;

    while (at < 200 && number(bytes + at, size) != value)
        at++;
    return at;
}

/* In the output: housekeeping's sixth packet, the fourth on channel A. */
static void poll_sixth(void)
{
    unsigned i;

    fresh();
    for (i = 0; i < 6; i++) {
        give_housekeeping();
        poll_with(i < 2 ? SSP_CHANNEL_B : SSP_CHANNEL_A);
    }
}

static void hold_polled(void)
{
    poll_sixth();
    HOLDS(SSP_PACKET_ID_AT, place_of(held_out, SSP_PACKET_ID_A, 2));
    HOLDS(SSP_PACKET_SEQUENCE_AT,
          place_of(held_out, SSP_PACKET_SEQUENCE_TOP + 3, 2));
    HOLDS(SSP_PACKET_LENGTH_AT, place_of(held_out, SSP_PACKET_LENGTH, 2));
    HOLDS(SSP_PACKET_COUNT_AT, place_of(held_out, 5 * 16 + SSP_STREAM_HK, 2));
    HOLDS(SSP_PACKET_PIECE_AT, place_of(held_out, SSP_OPENING, 2));
    HOLDS(SSP_PIECE_BYTES, SSP_PACKET_BYTES - place_of(held_out, SSP_OPENING, 2));
    HOLDS(SSP_PACKET_ID_A, number(held_out, 2));
    HOLDS(SSP_PACKET_SEQUENCE_TOP, number(held_out + 2, 2) - 3);
    HOLDS(SSP_PACKET_LENGTH, number(held_out + 4, 2));
    give_housekeeping();
    poll_with(SSP_CHANNEL_B);
    HOLDS(SSP_PACKET_ID_B, number(held_out, 2));
}

/* --------------------------------------------------- datastream packets */

static uint8_t reader[SSP_READER_BYTES], read_out[SSP_READER_OUT_BYTES];

/* Polls all that waits and reads it; what was handed out last. */
static const uint8_t *handed(void)
{
    ssp_reader_start(reader, sizeof reader);
    while (poll_with(SSP_CHANNEL_A) == SSP_CONTROLLER_ACCEPTED)
        ssp_reader_packet(reader, sizeof reader, held_out, SSP_PACKET_BYTES,
                          read_out, sizeof read_out);
    return read_out;
}

/* A controller in this mode, its last broadcast at this second. */
static void in_mode(unsigned mode, unsigned seconds)
{
    fresh();
    give_broadcast(seconds * SSP_TIME_WORD_UNITS, 9000);
    give_order(SSP_SET_MODE, mode);
}

static void give_den(unsigned value)
{
    uint8_t frame[4] = {SSP_SAMPLE, SSP_STREAM_DEN, 0, 0};

    put_number(frame + 2, 2, value);
    give(frame, 4);
}

/* DEN packets of two values in turn, ACC-E ones of frame_sample. */
static const uint8_t *den_packet(unsigned first, unsigned second)
{
    unsigned i;

    for (i = 0; i < SSP_DEN_SAMPLES; i++)
        give_den(i % 2 == 0 ? first : second);
    return handed();
}

static const uint8_t *acc_e_packet(void)
{
    uint8_t frame[FRAME_MOST];

    give(frame, frame_sample(frame, SSP_STREAM_ACC_E, 1));
    return handed();
}

/* The bits of a mode byte in which modes 0 to 7 differ. */
static unsigned mode_byte_bits(void)
{
    unsigned mode, all = 0;

    for (mode = 0; mode < 8; mode++) {
        in_mode(mode, 0);
        give_housekeeping();
        all |= handed()[SSP_MODE_AT];
    }
    return all;
}

/* The oldest reading of a record, where this one stands there: of 512 ticks
 * before the record's own, those of a number as great are pushed out. */
static int oldest_reading(unsigned reading)
{
    const uint8_t *d;
    int value;

    in_mode(SSP_MODE_PROXIMITY, 0);
    for (value = 0; value < SSP_ACC_I_READINGS; value++)
        give_tick(value == RECORD_TICKS ? reading : 0);
    give_record();
    d = handed() + SSP_DATA_AT;
    value = d[0] * 16 + d[1] / 16;
    return value >= SSP_READING_NEGATIVE ? value - SSP_READING_SPAN : value;
}

static void hold_datastream(void)
{
    uint8_t frame[FRAME_MOST];
    const uint8_t *p;
    unsigned length;

    in_mode(SSP_MODE_SURFACE + SSP_LOCKED, 0x135);
    p = acc_e_packet();
    length = ssp_stream_length(SSP_STREAM_ACC_E);
    HOLDS(SSP_OPENING, number(p, 2));
    HOLDS(SSP_CLOSING, number(p + length - 2, 2));
    HOLDS(SSP_TIME_AT, place_of(p, 0x135ul * SSP_TIME_UNITS, 3));
    HOLDS(SSP_TIME_UNITS, number(p + 2, 3) / 0x135);
    HOLDS(SSP_MODE_AT, place_of(p, 0x1D, 1));
    frame_sample(frame, SSP_STREAM_ACC_E, 1);
    HOLDS(SSP_DATA_AT, place_of(p, number(frame + 2, 4), 4));
    hold("samples as they came", 0,
         memcmp(p + SSP_DATA_AT, frame + 2, SSP_ACC_E_SAMPLE_BYTES) != 0);
    hold("data up to the closing", length,
         SSP_DATA_AT + SSP_ACC_E_SAMPLE_BYTES + 2);
    hold("mode, lock and mark", p[SSP_MODE_AT],
         SSP_ACC_E_MARK + SSP_LOCKED + SSP_MODE_SURFACE);
    in_mode(SSP_MODE_SURFACE, 0);
    HOLDS(SSP_ACC_E_MARK,
          acc_e_packet()[SSP_MODE_AT] ^ den_packet(0, 0)[SSP_MODE_AT]);
    HOLDS(SSP_MODE_BITS, mode_byte_bits());
    in_mode(SSP_MODE_SURFACE, 0);
    p = den_packet(0x123, 0xABC) + SSP_DATA_AT;
    hold("first of two packed values", p[0] * 16 + p[1] / 16, 0x123);
    hold("second of two packed values", p[1] % 16 * 256 + p[2], 0xABC);
    length = ssp_stream_length(SSP_STREAM_ACC_I);
    HOLDS(SSP_ACC_I_READINGS, (length - SSP_DATA_AT - 2) / 3 * 2);
    hold("oldest reading of a record, 0x0FFF", 1,
         oldest_reading(0x0FFF) == -1);
    hold("oldest reading of a record, 0x0050", 1,
         oldest_reading(0x0050) == 80);
}

/* m stays at one less than a second's units. */
static void hold_time(void)
{
    unsigned i;

    in_mode(SSP_MODE_UPPER_ATMOSPHERE, 3);
    for (i = 0; i < 5000; i++)
        give_tick(0);
    give_housekeeping();
    hold("m after 5,000 ticks", 4ul * SSP_TIME_UNITS - 1,
         number(handed() + SSP_TIME_AT, 3));
}

/* --------------------------------------------------------- housekeeping */

typedef void doing(void);

/* Housekeeping as it is then built, on a copy of the controller. */
static void housekeeping_now(uint8_t *packet, unsigned sequence)
{
    static uint8_t kept[HELD_ROOM];
    uint8_t frame[FRAME_MOST];

    memcpy(kept, held_state, sizeof kept);
    give_order(SSP_CLEAR_STREAMS, SSP_CLEARABLE);
    give(frame, frame_command(frame, 0, SSP_SEND_HOUSEKEEPING, sequence));
    memcpy(packet, handed(), SSP_PIECE_BYTES);
    memcpy(held_state, kept, sizeof kept);
}

struct places {
    unsigned first, last;
};

static struct places unlike(const uint8_t *one, const uint8_t *other)
{
    struct places p = {999, 999};
    unsigned i;

    for (i = 0; i < SSP_PIECE_BYTES; i++)
        if (one[i] != other[i]) {
            p.first = p.first == 999 ? i : p.first;
            p.last = i;
        }
    return p;
}

/* The places where housekeeping shows which of two things was done. */
static struct places shown(doing *one, doing *other)
{
    uint8_t first[SSP_PIECE_BYTES], second[SSP_PIECE_BYTES];

    in_mode(SSP_MODE_UPPER_ATMOSPHERE + SSP_LOCKED, 7);
    give_order(0, 0); /* refused with 2 */
    give_housekeeping();
    one();
    housekeeping_now(first, 1);
    in_mode(SSP_MODE_UPPER_ATMOSPHERE + SSP_LOCKED, 7);
    give_order(0, 0);
    give_housekeeping();
    other();
    housekeeping_now(second, 1);
    return unlike(first, second);
}

static void broadcast_words(unsigned altitude, unsigned spin, unsigned phase)
{
    uint8_t frame[FRAME_MOST];
    size_t n = frame_broadcast(frame, 0, 28, altitude);

    frame[6] = (uint8_t)spin;
    frame[7] = (uint8_t)phase;
    give(frame, n);
}

static void nothing(void) {}
static void words_1(void) { broadcast_words(0x9111, 1, 1); }
static void words_2(void) { broadcast_words(0x1111, 1, 1); }
static void words_3(void) { broadcast_words(0x9111, 2, 1); }
static void words_4(void) { broadcast_words(0x9111, 1, 2); }
static void tick_then_enter(void)
{
    give_tick(0);
    give_order(SSP_SET_MODE, 9);
}
static void enter_then_tick(void)
{
    give_order(SSP_SET_MODE, 9);
    give_tick(0);
}
static void enter_from_2(void)
{
    give_order(SSP_SET_MODE, 2);
    give_order(SSP_SET_MODE, 9);
}
static void enter_from_15(void)
{
    give_order(SSP_SET_MODE, 15);
    give_order(SSP_SET_MODE, 9);
}
static void enter_at_1(void)
{
    words_1();
    give_order(SSP_SET_MODE, 9);
    words_2();
}
static void enter_at_2(void)
{
    words_2();
    give_order(SSP_SET_MODE, 9);
    words_2();
}
static void accepted_command(void) { give_order(SSP_CLEAR_STREAMS, 0); }
static void refused_command(void) { give_order(0, 0); }
static void wrong_length(void)
{
    uint8_t frame[FRAME_MOST];

    give(frame, frame_command(frame, 0, SSP_SET_MODE, 1));
}
static void refused_on_b(void)
{
    uint8_t frame[FRAME_MOST];

    give(frame, frame_order(frame, 1, 0, 1, 0));
}
static void broadcast_a(void)
{
    uint8_t frame[FRAME_MOST];

    give(frame, frame_broadcast(frame, 0, 0, 0)); /* late */
}
static void broadcast_b(void)
{
    uint8_t frame[FRAME_MOST];

    give(frame, frame_broadcast(frame, 1, 0, 0));
}
static void poll_a(void) { poll_with(SSP_CHANNEL_A); }
static void poll_b(void) { poll_with(SSP_CHANNEL_B); }
static void queue_den(void)
{
    unsigned i;

    for (i = 0; i < SSP_DEN_SAMPLES; i++)
        give_den(0);
}
static void analogue(void)
{
    uint8_t frame[SSP_ANALOGUE_FRAME_BYTES];

    memset(frame, 0xEE, sizeof frame);
    frame[0] = SSP_ANALOGUE;
    give(frame, sizeof frame);
}

static void hold_housekeeping(void)
{
    uint8_t one[SSP_PIECE_BYTES], other[SSP_PIECE_BYTES];
    struct places p;

    HOLDS(SSP_HK_ALTITUDE_AT, shown(words_1, words_2).first);
    HOLDS(SSP_HK_SPIN_AT, shown(words_1, words_3).first);
    HOLDS(SSP_HK_PHASE_AT, shown(words_1, words_4).first);
    HOLDS(SSP_HK_ENTRY_TIME_AT,
          shown(tick_then_enter, enter_then_tick).first - 2);
    HOLDS(SSP_HK_OLD_MODE_AT, shown(enter_from_2, enter_from_15).first);
    HOLDS(SSP_HK_ENTRY_ALTITUDE_AT, shown(enter_at_1, enter_at_2).first);
    HOLDS(SSP_HK_COMMAND_COUNT_AT, shown(nothing, accepted_command).first - 1);
    HOLDS(SSP_HK_BROADCASTS_A_AT, shown(nothing, broadcast_a).first - 1);
    HOLDS(SSP_HK_BROADCASTS_B_AT, shown(nothing, broadcast_b).first - 1);
    HOLDS(SSP_HK_COMMAND_PACKETS_A_AT,
          shown(nothing, refused_command).first - 1);
    HOLDS(SSP_HK_COMMAND_PACKETS_B_AT, shown(nothing, refused_on_b).first - 1);
    HOLDS(SSP_HK_TELEMETRY_A_AT, shown(nothing, poll_a).first - 1);
    HOLDS(SSP_HK_TELEMETRY_B_AT, shown(nothing, poll_b).first - 1);
    HOLDS(SSP_HK_ERROR_COUNT_AT, shown(nothing, refused_command).last);
    HOLDS(SSP_HK_ERROR_CODE_AT, shown(refused_command, wrong_length).last);
    HOLDS(SSP_HK_STREAM_COUNTS_AT,
          shown(nothing, queue_den).first - 1 - 2 * SSP_STREAM_DEN);
    p = shown(nothing, analogue);
    HOLDS(SSP_HK_ANALOGUE_AT, p.first);
    HOLDS(SSP_HK_ANALOGUE_BYTES, p.last - p.first + 1);
    in_mode(SSP_MODE_UPPER_ATMOSPHERE, 7);
    housekeeping_now(one, 0x0134);
    housekeeping_now(other, 0x0156);
    HOLDS(SSP_HK_LAST_SEQUENCE_AT, unlike(one, other).last);
    hold("low byte of the sequence", 0x34, one[SSP_HK_LAST_SEQUENCE_AT]);
    HOLDS(SSP_HK_LAST_ID_AT, place_of(one, SSP_SEND_HOUSEKEEPING, 1));
    hold("the altitude word, bit 15 too", 9000,
         number(one + SSP_HK_ALTITUDE_AT, 2));
}

void hold_layouts(void)
{
    hold_polled();
    hold_datastream();
    hold_time();
    hold_housekeeping();
}
