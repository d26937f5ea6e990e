/* sessions.c: the sequences on which library and model are compared.  Each is
 * made while it is played, biased by what the model then holds to what random
 * frames do not reach.  In this order: lengths, data like sync bytes, giving,
 * single frames, mixed frames, several refusals at once, edges of queue and
 * time, long counts, the way to the reader, packets from nowhere, long frames
 * and packets.
 *
 * No expression draws two random numbers (random.h says why). */
#include "sessions.h"

#include <string.h>

#include "frames.h"
#include "play.h"
#include "random.h"

static const unsigned streams[] = {2, 4, 5, 6, 9, 10, 11};
static const unsigned sampled[] = {4, 5, 6, 9};

/* -------------------------------------------------------------- lengths */

/* What a length may be too long by where it is kept in 8, 9, 10, 11, 12 or 16
 * bits. */
static const unsigned wraps[] = {256, 512, 1024, 2048, 4096, 65536};
enum { WRAPS = sizeof wraps / sizeof *wraps };

/* The length of an output: short, longer, at the least, or so long that what
 * is left of it after a wrap is short. */
static size_t some_output(unsigned least)
{
    unsigned wrap;

    switch (below(8)) {
    case 0:
    case 1:
    case 2:
        return below(least);
    case 3:
    case 4:
    case 5:
        return least + below(200);
    case 6:
        return least - 1 + below(3);
    default:
        wrap = ONE_OF(wraps);
        return wrap + below(least);
    }
}

/* ------------------------------------------------- data like sync bytes */

/* A datastream packet's start is known by its place: the bytes 88 88 and
 * 99 99 are in data too, where they tempt most at the ends of pieces. */
static const unsigned sync[] = {0x88, 0x99};

/* Two bytes of an ACC-E sample, by their place in the datastream packet. */
static void sync_at(uint8_t *frame, unsigned at)
{
    memset(frame + at - 4, (int)ONE_OF(sync), 2);
}

/* Sync bytes at the ends of some pieces' data, or all over the sample. */
static void sync_in_sample(uint8_t *frame, unsigned stream)
{
    unsigned place;

    if (stream != 11 || once_in(4)) {
        memset(frame + 2, (int)ONE_OF(sync), sample_size(stream));
        if (stream == 5)
            frame[2] &= 0x0F;
        return;
    }
    for (place = 0; place < 5; place++) {
        if (!once_in(3))
            sync_at(frame, place == 0 ? 6 : 118 * place);
        if (once_in(3))
            sync_at(frame, place == 4 ? 516 : 118 * place + 116);
    }
}

static size_t right_sample(uint8_t *frame, unsigned stream)
{
    size_t n = frame_sample(frame, stream, below(100000));

    if (sample_size(stream) > 0 && once_in(stream == 11 ? 2 : 16))
        sync_in_sample(frame, stream);
    return n;
}

/* Sync bytes at the ends of a later piece, where those are data. */
static void sync_in_piece(uint8_t *packet, unsigned stream, unsigned place)
{
    if (place == 0)
        return;
    if (!once_in(3))
        memset(packet + 8, (int)ONE_OF(sync), 2);
    if (place + 1 < stream_pieces(stream) && once_in(3))
        memset(packet + 124, (int)ONE_OF(sync), 2);
}

/* --------------------------------------------------------------- giving */

static unsigned lost_in_hundred; /* of the polled packets */

static int give_with(const uint8_t *frame, size_t n, size_t out_length)
{
    enum fate fate = below(100) < lost_in_hundred ? LOST : CAME;

    return play_frame(frame, n, out_length, fate);
}

static int give(const uint8_t *frame, size_t n)
{
    size_t out_length = 126;

    if (once_in(64))
        out_length = some_output(126);
    return give_with(frame, n, out_length);
}

static int give_exactly(const uint8_t *frame, size_t n)
{
    return give_with(frame, n, 126);
}

static int tick(unsigned reading)
{
    uint8_t frame[FRAME_MOST];

    return give_exactly(frame, frame_tick(frame, reading));
}

static int order(unsigned id, unsigned value)
{
    uint8_t frame[FRAME_MOST];
    unsigned channel = below(2), sequence = below(65536);

    return give_exactly(frame, frame_order(frame, channel, id, sequence,
                                           value));
}

static int housekeeping_on(unsigned channel)
{
    uint8_t frame[FRAME_MOST];

    return give_exactly(frame, frame_command(frame, channel, HOUSEKEEPING_ID,
                                             below(65536)));
}

static int sample(unsigned stream)
{
    uint8_t frame[FRAME_MOST];

    return give_exactly(frame, right_sample(frame, stream));
}

static int poll_on(unsigned channel)
{
    uint8_t frame[FRAME_MOST];

    return give_exactly(frame, frame_poll(frame, channel));
}

static int broadcast_on(unsigned channel, unsigned seconds, unsigned altitude)
{
    uint8_t frame[FRAME_MOST];

    return give_exactly(frame, frame_broadcast(frame, channel,
                                               seconds * 4 + below(4),
                                               altitude));
}

static int broadcast(unsigned seconds, unsigned altitude)
{
    unsigned channel = below(2);

    return broadcast_on(channel, seconds, altitude);
}

static unsigned waiting(void)
{
    return play_controller()->waiting;
}

/* Housekeeping or polls until so many pieces wait. */
static void bring_queue_to(unsigned pieces)
{
    while (waiting() < pieces)
        housekeeping_on(below(2));
    while (waiting() > pieces)
        poll_on(below(2));
}

/* Samples until a stream's open packet lacks one. */
static void all_but_one(unsigned stream)
{
    while (play_controller()->open[stream].kept + 1u < stream_samples(stream))
        sample(stream);
}

/* In mode 4 (locked or not) up to the tick before the record's last.  A share
 * of the readings comes in runs of 888 or 999, which pack to sync bytes. */
static void collect(unsigned mode)
{
    static const unsigned packed[] = {0x888, 0x999};
    unsigned i, run = 0, reading = 0;

    order(SET_MODE_ID, mode);
    for (i = below(600); i > 0; i--)
        tick(below(81));
    for (i = 0; i < 3; i++)
        tick(81 + below(1000));
    while (play_controller()->further < 447) {
        if (run > 0) {
            run--;
        } else if (once_in(90)) {
            run = below(240);
            reading = ONE_OF(packed);
        } else {
            reading = below(200);
            if (once_in(9))
                reading = below(4096);
        }
        tick(reading);
    }
}

/* -------------------------------------------------------- single frames */

static unsigned some_reading(void)
{
    static const unsigned edges[] = {0, 79, 80, 81, 82, 2047, 2048, 4095,
                                     4096, 65535};

    if (once_in(3))
        return ONE_OF(edges);
    if (once_in(4))
        return below(4096);
    return below(120);
}

static unsigned some_seconds(void)
{
    static const unsigned edges[] = {599, 600, 5099, 5100, 7199, 7200};
    const struct model_controller *c = play_controller();
    unsigned from = ONE_OF(edges);

    if (c->mode == 4)
        from = c->entry_time / 1024 + 1859;
    else if (c->mode == 5)
        from = c->reference_second + 179u;
    if (once_in(12))
        return from + below(2);
    if (once_in(20) && c->seconds > 0)
        return c->seconds - 1 - below(c->seconds < 5 ? c->seconds : 5);
    if (once_in(200))
        return below(16384);
    return c->seconds + below(3);
}

static size_t some_broadcast(uint8_t *frame)
{
    static const unsigned altitudes[] = {0, 699, 700, 701, 702, 32767};
    unsigned channel = below(2), altitude = 701 + below(32000);
    unsigned time = (some_seconds() & 0x3FFF) * 4;

    if (once_in(4))
        altitude = ONE_OF(altitudes);
    if (once_in(2))
        altitude |= 0x8000;
    time += below(4);
    return frame_broadcast(frame, channel, time, altitude);
}

static size_t some_command(uint8_t *frame)
{
    static const unsigned ids[] = {0x13, 0x16, 0x16, 0x16, 0x32, 0x33, 0x113};
    static const unsigned bits[] = {4, 0x10, 0x20, 0x40, 0x200, 0x400, 0x800};
    unsigned id = ONE_OF(ids), channel = below(2), sequence = below(65536);
    unsigned value;
    size_t n;

    if (id == SET_MODE_ID) {
        value = below(17);
        if (once_in(3))
            value = 4;
    } else {
        value = ONE_OF(bits);
        value |= ONE_OF(bits);
    }
    if (once_in(15))
        value = below(65536);
    n = frame_order(frame, channel, id, sequence, value);
    if (id == HOUSEKEEPING_ID)
        n -= 2;
    return n;
}

static size_t some_sample(uint8_t *frame)
{
    static const unsigned edges[] = {0x0FFF, 0x1000, 0x1001, 0xFFFF};
    unsigned stream = ONE_OF(sampled);
    size_t n;

    if (once_in(6))
        stream = 11;
    else if (once_in(30))
        stream = below(256);
    n = right_sample(frame, stream);
    if (stream == 5 && once_in(20))
        frame[2] = (uint8_t)below(256);
    if (stream == 5 && once_in(20))
        put_number(frame + 2, 2, ONE_OF(edges));
    return n;
}

/* A frame is cut or lengthened, or loses its kind or its channel. */
static size_t damaged(uint8_t *frame, size_t n)
{
    bool near = once_in(2);

    switch (below(4)) {
    case 0:
        return below((unsigned)n + 1);
    case 1:
        frame[0] = (uint8_t)below(near ? 10 : 256);
        return n;
    case 2:
        if (n > 1)
            frame[1] = (uint8_t)below(near ? 14 : 256);
        return n;
    default:
        random_bytes(frame + n, 4);
        return n + 1 + below(3);
    }
}

enum mood { MIXED, TICKS, SAMPLES, ORDERS, POLLS, MOODS };

/* How often in a hundred the kinds 1 to 7 come, the rest being random bytes. */
static const unsigned char share[MOODS][7] = {{14, 15, 15, 25, 20, 5, 4},
                                              {2, 1, 90, 3, 2, 1, 1},
                                              {2, 3, 5, 80, 7, 1, 1},
                                              {5, 70, 10, 5, 5, 3, 1},
                                              {5, 10, 10, 10, 55, 5, 4}};

static size_t some_frame(uint8_t *frame, enum mood mood)
{
    unsigned kind, channel, low, left = below(100);

    for (kind = 0; kind < 7 && left >= share[mood][kind]; kind++)
        left -= share[mood][kind];
    switch (kind) {
    case 0:
        return some_broadcast(frame);
    case 1:
        return some_command(frame);
    case 2:
        return frame_tick(frame, some_reading());
    case 3:
        return some_sample(frame);
    case 4:
        return frame_poll(frame, below(2));
    case 5:
        channel = below(2);
        low = below(256);
        return frame_status(frame, channel, low, below(256));
    case 6:
        return frame_analogue(frame, below(1000));
    default:
        random_bytes(frame, 16);
        return below(16);
    }
}

/* --------------------------------------------------------- mixed frames */

static void mixed(void)
{
    uint8_t frame[FRAME_MOST + 8];
    enum mood mood = MIXED;
    unsigned i;

    lost_in_hundred = below(60);
    for (i = 0; i < 20000; i++) {
        size_t n;
        if (once_in(300))
            mood = (enum mood)below(MOODS);
        n = some_frame(frame, mood);
        if (once_in(40))
            n = damaged(frame, n);
        give(frame, n);
        if (once_in(2000))
            play_look();
    }
}

/* Every kind of frame at its length, one less and one more, on each channel
 * byte that is near, with outputs around the least. */
static void shapes(void)
{
    uint8_t frame[FRAME_MOST + 8] = {0};
    unsigned kind, second, n, out_length;

    for (kind = 0; kind < 10; kind++)
        for (second = 0; second < 16; second++)
            for (n = 0; n <= 64; n++) {
                frame[0] = (uint8_t)kind;
                frame[1] = (uint8_t)second;
                play_frame(frame, n, 126, CAME);
            }
    for (kind = 0; kind < 10; kind++)
        for (out_length = 0; out_length < 130; out_length++) {
            size_t length = some_frame(frame, MIXED);
            frame[0] = (uint8_t)kind;
            play_frame(frame, length, out_length, CAME);
        }
    for (n = 505; n <= FRAME_MOST + 8; n++) {
        frame_sample(frame, 11, n);
        play_frame(frame, n, 126, CAME);
    }
}

/* Each mask of one bit, each mode and some beyond, ids around those carried,
 * readings and DEN samples at the end of their range. */
static void values(void)
{
    static const unsigned ids[] = {CLEAR_STREAMS_ID, HOUSEKEEPING_ID,
                                   SET_MODE_ID};
    uint8_t frame[FRAME_MOST];
    unsigned i, value;

    for (i = 0; i < 3; i++) {
        order(ids[i] - 1, 0);
        order(ids[i] + 1, 0);
        order(ids[i] + 0x0100, 0);
        order(ids[i] + 0x8000, 0);
    }
    for (i = 0; i < 16; i++)
        order(CLEAR_STREAMS_ID, 1u << i);
    for (value = 0; value < 0x10000; value += value < 20 ? 1 : value)
        order(SET_MODE_ID, value);
    order(SET_MODE_ID, 1);
    for (value = 4094; value < 4098; value++) {
        tick(value);
        frame_sample(frame, 5, 0);
        put_number(frame + 2, 2, value);
        give_exactly(frame, 4);
    }
}

/* All ways in which the first eight ticks of mode 4 are above or not, the
 * flag read off after each. */
static void windows(void)
{
    static const unsigned above[] = {81, 82, 2047};
    static const unsigned others[] = {0, 80, 2048, 4095};
    uint8_t frame[FRAME_MOST];
    unsigned pattern, i, reading;

    for (pattern = 0; pattern < 256; pattern++) {
        order(SET_MODE_ID, pattern % 2 == 0 ? 4 : 12);
        for (i = 0; i < 8; i++) {
            reading = ONE_OF(others);
            if (pattern >> i & 1)
                reading = ONE_OF(above);
            tick(reading);
            give_exactly(frame, frame_status(frame, i % 2, pattern, 0));
        }
    }
}

/* A descent as a package would meet it: a broadcast each second, ticks, some
 * samples, an impact, then the surface. */
static void descent(void)
{
    unsigned seconds, i, height = 900 + below(300);

    lost_in_hundred = below(30);
    for (seconds = 590; seconds < 2900; seconds += 1 + below(12)) {
        height = seconds < 650 ? height : height > 10 ? height - 8 : 0;
        broadcast(seconds, height + 0x8000 * below(2));
        for (i = 0; i < 20; i++)
            tick(below(60) + (height == 0 && seconds < 2600 ? 60 : 0));
        for (i = 0; i < 6; i++)
            sample(ONE_OF(sampled));
        if (play_controller()->mode == 5)
            sample(11);
        if (once_in(10))
            housekeeping_on(below(2));
        while (waiting() > 10)
            poll_on(below(2));
        if (once_in(40))
            play_look();
    }
}

/* ------------------------------------------- several refusals at once */

/* What can be wrong with a frame by itself; time, mode and room are up to
 * what the controller holds. */
enum {
    WRONG_CHANNEL = 1,
    WRONG_SIZE = 2,
    NOT_CARRIED = 4,
    WRONG_LENGTH = 8,
    OUT_OF_RANGE = 16,
    LATE = 32,
    ALL_FLAWS = 63
};

/* A command with these flaws.  One that would be accepted would end what the
 * session holds the controller in, unless it sends housekeeping. */
static size_t flawed_command(uint8_t *frame, unsigned flaws)
{
    static const unsigned ids[] = {CLEAR_STREAMS_ID, HOUSEKEEPING_ID,
                                   SET_MODE_ID};
    unsigned id = ONE_OF(ids);
    size_t n;

    if (id != HOUSEKEEPING_ID && (flaws & ~LATE) == 0)
        flaws |= OUT_OF_RANGE;
    n = frame_order(frame, 0, flaws & NOT_CARRIED ? id + 1 : id, 7,
                    flaws & OUT_OF_RANGE ? 0x8010 : 4);
    if (id == HOUSEKEEPING_ID)
        n -= 2;
    if (flaws & WRONG_LENGTH)
        n += 1 + below(3);
    return flaws & WRONG_SIZE ? below(6) : n;
}

static size_t flawed_sample(uint8_t *frame, unsigned flaws)
{
    static const unsigned others[] = {0, 1, 2, 3, 7, 8, 10, 12, 255};
    unsigned stream = ONE_OF(sampled);
    size_t n;

    if (once_in(3))
        stream = 11;
    else if (once_in(2))
        stream = 5;
    n = right_sample(frame, stream);
    if (stream == 5 && flaws & OUT_OF_RANGE)
        frame[2] |= (uint8_t)(0x10 << below(4));
    if (flaws & NOT_CARRIED)
        frame[1] = (uint8_t)ONE_OF(others);
    if (flaws & WRONG_LENGTH)
        n = once_in(2) ? n + 1 : n - 1;
    return flaws & WRONG_SIZE ? below(2) : n;
}

/* A frame of this kind with these flaws, as far as they can be in it. */
static size_t flawed(uint8_t *frame, unsigned kind, unsigned flaws)
{
    const struct model_controller *c = play_controller();
    size_t n;

    memset(frame, 0, FRAME_MOST + 8);
    switch (kind) {
    case 1:
        n = frame_broadcast(frame, 1, 4 * (c->seconds - !!(flaws & LATE)),
                            9000);
        break;
    case 2:
        n = flawed_command(frame, flaws);
        break;
    case 3:
        n = frame_tick(frame, flaws & OUT_OF_RANGE ? 4096 + below(61440) : 9);
        break;
    case 4:
        return flawed_sample(frame, flaws);
    case 5:
        n = frame_poll(frame, 0);
        break;
    case 6:
        n = frame_status(frame, 1, 0x33, 0xCC);
        break;
    default:
        n = frame_analogue(frame, 5);
        break;
    }
    if (flaws & WRONG_CHANNEL && kind != 3 && kind != 7)
        frame[1] = (uint8_t)(0x0C + below(2));
    if (flaws & WRONG_SIZE && kind != 2)
        n = once_in(2) ? n + 1 : n - 1;
    return n;
}

/* Frames with several flaws, where every stream's packet lacks one sample,
 * the queue has little room or none, and the mode takes few samples or a
 * record lacks its last tick. */
static void refusals(void)
{
    static const unsigned taken[] = {0, 42, 44, 48, 48};
    static const unsigned modes[] = {0, 1, 5, 7, 8, 14, 15};
    uint8_t frame[FRAME_MOST + 8];
    unsigned turn, i, pieces, kind, flaws;
    size_t n, out_length;

    broadcast(5, 9000);
    for (turn = 0; turn < 20; turn++) {
        order(SET_MODE_ID, 5);
        for (i = 0; i < 4; i++)
            all_but_one(sampled[i]);
        pieces = ONE_OF(taken);
        if (turn % 2 == 0)
            collect(4);
        else
            order(SET_MODE_ID, ONE_OF(modes));
        for (i = 0; i < 250; i++) {
            if (i % 10 == 0)
                bring_queue_to(pieces);
            kind = 1 + below(7);
            flaws = below(ALL_FLAWS + 1);
            flaws &= below(ALL_FLAWS + 1);
            n = flawed(frame, kind, flaws);
            out_length = once_in(3) ? 125 : 126;
            give_with(frame, n, out_length);
        }
        play_look();
    }
}

/* ------------------------------------------------ edges, queue and time */

/* The record's last tick with 38 to 48 slots taken, out of range too, and
 * again with room. */
static void tight_queue(void)
{
    unsigned taken;

    for (taken = 38; taken <= 48; taken++) {
        collect(once_in(4) ? 12 : 4);
        bring_queue_to(taken);
        if (once_in(2))
            broadcast(play_controller()->seconds, 5000);
        tick(4096 + below(61440));
        while (tick(below(4096)) == 7) {
            if (once_in(4))
                tick(4096 + below(61440));
            poll_on(below(2));
        }
        play_look();
        if (once_in(2))
            order(CLEAR_STREAMS_ID, 0x0E74);
    }
}

/* The closing sample of each stream and housekeeping with 43 to 48 slots
 * taken, first with an output that is too short. */
static void tight_samples(void)
{
    uint8_t frame[FRAME_MOST];
    unsigned taken, i;
    size_t n;

    for (taken = 43; taken <= 48; taken++) {
        order(SET_MODE_ID, 5);
        for (i = 0; i < 4; i++)
            all_but_one(sampled[i]);
        bring_queue_to(taken);
        for (i = 0; i < 5; i++) {
            n = right_sample(frame, i < 4 ? sampled[i] : 11);
            give_with(frame, n, 125);
            give_exactly(frame, n);
        }
        n = frame_command(frame, 0, HOUSEKEEPING_ID, taken);
        give_with(frame, n, 125);
        give_exactly(frame, n);
        play_look();
    }
}

/* Clears with every mask, where packets are polled in part, samples stand in
 * open packets, and a record is being collected. */
static void clears(void)
{
    unsigned mask, i;

    for (mask = 0; mask < 128; mask++) {
        unsigned named = 0, polls = below(9);
        for (i = 0; i < 7; i++)
            named |= (mask >> i & 1) << streams[i];
        order(SET_MODE_ID, 5);
        for (i = 0; i < 3; i++)
            sample(11);
        for (i = 0; i < 60; i++)
            sample(ONE_OF(sampled));
        bring_queue_to(waiting() + 3 > 48 ? 40 : waiting() + 3);
        if (once_in(3))
            collect(4);
        else if (once_in(3)) {
            collect(4);
            tick(1);
        }
        while (polls-- > 0)
            poll_on(below(2));
        order(CLEAR_STREAMS_ID, named);
        if (once_in(8))
            play_look();
        if (once_in(4))
            bring_queue_to(below(8));
    }
}

/* Each mode, locked and not, after each other one. */
static void mode_orders(void)
{
    unsigned from, to;

    for (from = 0; from < 16; from++)
        for (to = 0; to < 16; to++) {
            order(SET_MODE_ID, from);
            tick(100);
            sample(ONE_OF(sampled));
            sample(11);
            order(SET_MODE_ID, to);
            broadcast(play_controller()->seconds + once_in(16), 9000);
            if (waiting() > 20)
                bring_queue_to(0);
        }
}

/* Housekeeping shows the mode and how it was entered. */
static void show_entry(void)
{
    housekeeping_on(0);
    bring_queue_to(0);
}

/* Seconds and altitudes at the edges of the changes by broadcast from modes 1
 * to 3, each from each mode. */
static void mode_edges(void)
{
    static const unsigned edges[] = {599, 600, 5099, 5100, 7199, 7200};
    unsigned i, mode, altitude;

    for (i = below(2); i < 6; i++) {
        broadcast(edges[i], 701 + below(9000));
        show_entry();
        for (mode = 1; mode <= 3; mode++)
            for (altitude = 700; altitude <= 702; altitude++) {
                order(SET_MODE_ID, once_in(6) ? mode + 8 : mode);
                broadcast(edges[i], altitude + 0x8000 * below(2));
                show_entry();
            }
    }
}

/* The like from modes 4 and 5, by time past entry and past impact. */
static void mode_times(void)
{
    unsigned i, from, turn;

    mode_edges();
    for (turn = below(2); play_controller()->seconds < 12000; turn++) {
        order(SET_MODE_ID, 4);
        from = play_controller()->entry_time / 1024;
        if (turn % 2 == 0) {
            for (i = 0; i < 4; i++)
                tick(2047);
            broadcast(from + (once_in(2) ? 1860 : 100), 9000);
            broadcast(play_controller()->seconds + 1 + below(90), 9000);
            while (play_controller()->collecting)
                if (tick(below(4096)) == 7)
                    bring_queue_to(0);
        } else {
            broadcast(from + 1859, 9000);
            broadcast(from + 1860, 9000);
        }
        from = play_controller()->reference_second;
        if (from + 179 >= play_controller()->seconds)
            broadcast(from + 179, 9000);
        broadcast(from + 180 > play_controller()->seconds
                      ? from + 180 : play_controller()->seconds, 9000);
        show_entry();
    }
}

/* ---------------------------------------------------------- long counts */

/* 65,536 broadcasts, commands and polls on one channel, then on the other. */
static void long_counts(void)
{
    unsigned i;

    lost_in_hundred = 1;
    for (i = 0; i < 2 * 65600; i++) {
        unsigned channel = i / 65600;
        broadcast_on(channel, i / 2000, 9000);
        housekeeping_on(channel);
        poll_on(channel);
        if (i % 16384 == 0)
            play_look();
    }
}

/* 256 errors and more, of every kind. */
static void long_errors(void)
{
    unsigned i;

    bring_queue_to(48);
    for (i = 0; i < 1200; i++) {
        unsigned id = below(0x33);
        housekeeping_on(below(2));
        order(id, below(65536));
        order(SET_MODE_ID, 16 + below(100));
        if (once_in(100))
            play_look();
    }
}

/* More than 4,096 pieces of every stream but housekeeping. */
static void long_streams(void)
{
    const uint64_t *ever = play_controller()->pieces_ever;
    unsigned i;

    lost_in_hundred = 2;
    order(SET_MODE_ID, 13);
    for (i = 0; i < 4; i++)
        while (ever[sampled[i]] <= 4100)
            if (sample(sampled[i]) == 7)
                bring_queue_to(below(40));
    while (ever[11] <= 4110)
        if (sample(11) == 7)
            bring_queue_to(below(40));
    while (ever[2] <= 4110) {
        collect(4);
        if (tick(7) == 7) {
            bring_queue_to(below(41));
            tick(7);
        }
    }
}

/* ------------------------------------------------ the way to the reader */

/* A packet with a wrong head; its count is often the one that its stream had
 * last or that would be next. */
static void noise(void)
{
    static const unsigned not_carried[] = {0, 1, 3, 7, 8, 12, 13, 14, 15};
    uint8_t packet[140];
    unsigned stream = below(16), place = below(7), count = below(4096), at;
    size_t n = 126, out_length = 776;

    if (stream < MODEL_STREAMS && !once_in(3))
        count = play_reader()->records[stream].last + below(2);
    random_bytes(packet + 126, sizeof packet - 126);
    packet_of(packet, stream, count, place, below(1000));
    switch (below(7)) {
    case 0:
        random_bytes(packet, 2);
        packet[1] &= 0x0F;
        break;
    case 1:
        packet[2] = (uint8_t)(packet[2] - 0x40 * (1 + below(3)));
        break;
    case 2:
        at = 4 + below(2);
        packet[at] ^= (uint8_t)(1 << below(8));
        break;
    case 3:
        n = below(139);
        n += n >= 126;
        break;
    case 4:
        packet[7] = (uint8_t)((packet[7] & 0xF0) | ONE_OF(not_carried));
        break;
    case 5:
        /* The bit in which the two IDs differ stays. */
        at = below(2);
        packet[at] ^= (uint8_t)(1 << below(at == 0 ? 8 : 5));
        break;
    default:
        random_bytes(packet, sizeof packet);
        packet[0] = 0xFF;
        break;
    }
    if (once_in(6))
        out_length = some_output(776);
    play_packet(packet, n, out_length);
}

/* Housekeeping, accelerometer packets and samples, under loss, repetition and
 * noise; clears now and then. */
static void channel(void)
{
    unsigned i;

    lost_in_hundred = below(70);
    if (once_in(3))
        lost_in_hundred = 0;
    order(SET_MODE_ID, 13);
    for (i = 0; i < 1500; i++) {
        if (once_in(3))
            sample(11);
        if (once_in(2))
            housekeeping_on(below(2));
        if (once_in(8)) {
            collect(12);
            if (tick(5) == 7)
                bring_queue_to(30);
            tick(5);
            order(SET_MODE_ID, 13);
        }
        if (once_in(80))
            order(CLEAR_STREAMS_ID, 0x0E74 & below(65536));
        while (waiting() > below(40)) {
            poll_on(below(2));
            while (once_in(5))
                play_again(ONE_OF(streams));
            while (once_in(5))
                noise();
        }
    }
}

/* So many pieces of a stream are queued, polled and lost. */
static void lose(unsigned stream, unsigned pieces)
{
    lost_in_hundred = 100;
    while (pieces > 0) {
        if (waiting() == 0 && stream == 11)
            sample(11);
        else if (waiting() == 0)
            housekeeping_on(0);
        poll_on(below(2));
        pieces--;
    }
}

/* As many pieces missing as the rule allows, before the first arrival and
 * between two. */
static void most_missing(void)
{
    static const unsigned both[] = {10, 11};
    unsigned i, turn;

    order(SET_MODE_ID, 13);
    for (i = 0; i < 2; i++)
        for (turn = 0; turn < 3; turn++) {
            lose(both[i], 4094);
            lost_in_hundred = 0;
            bring_queue_to(0);
            if (both[i] == 10)
                housekeeping_on(1);
            else
                sample(11);
            bring_queue_to(0);
            play_again(both[i]);
        }
    /* One more breaks the rule: the ledger holds nothing, but library and
     * model still agree. */
    lose(10, 4095);
    lost_in_hundred = 0;
    housekeeping_on(0);
    bring_queue_to(0);
}

/* -------------------------------------------------- packets from nowhere */

/* The next packet of a stream at distance d, the bytes as they belong to its
 * place, or spoilt. */
static void packet_at(unsigned stream, unsigned d, bool spoilt)
{
    const struct model_record *record = &play_reader()->records[stream];
    unsigned place = (record->place + d) % stream_pieces(stream);
    uint8_t packet[126];
    size_t out_length = 776;

    packet_of(packet, stream, record->last + d, place, below(100000));
    if (once_in(3))
        sync_in_piece(packet, stream, place);
    if (spoilt) {
        unsigned at = 100 + below(18);
        if (once_in(3))
            at = below(118);
        else if (once_in(2))
            at = below(2);
        packet[8 + at] ^= (uint8_t)(1 << below(8));
    }
    if (once_in(25))
        out_length = some_output(776);
    play_packet(packet, 126, out_length);
}

static void from_nowhere(void)
{
    static const unsigned distances[] = {0, 1, 2, 5, 6, 7, 8, 4095};
    unsigned i, run, d, stream = 2, damage = once_in(2) ? 30 : 1000000;

    for (i = 0; i < 2500; i++) {
        if (once_in(4))
            stream = ONE_OF(streams);
        for (run = below(9); run > 0; run--)
            packet_at(stream, 1, once_in(damage));
        d = ONE_OF(distances);
        if (once_in(6))
            d = below(4096);
        packet_at(stream, d, once_in(damage));
        if (once_in(10))
            noise();
        if (once_in(500))
            play_look();
    }
}

/* Each distance in each stream from each place, gathering or not. */
static void distances(void)
{
    unsigned i, d, place;

    for (i = 0; i < 7; i++)
        for (place = 0; place < stream_pieces(streams[i]); place++)
            for (d = 0; d < 4096; d += d < 40 || d > 4080 ? 1 : 41) {
                while (play_reader()->records[streams[i]].place != place)
                    packet_at(streams[i], 1, false);
                packet_at(streams[i], d, false);
                packet_at(streams[i], 1, false);
            }
}

/* --------------------------------------------- long frames and packets */

/* Right frames, one of each kind, id and stream. */
enum { RIGHT_FRAMES = 15 };

static size_t right_frame(uint8_t *frame, unsigned which)
{
    static const unsigned in_samples[] = {4, 5, 6, 9, 11, 2};
    unsigned channel = below(2);

    switch (which) {
    case 0:
        return frame_broadcast(frame, channel,
                               4u * play_controller()->seconds, 9000);
    case 1:
        return frame_order(frame, channel, CLEAR_STREAMS_ID, which, 0x0210);
    case 2:
        return frame_command(frame, channel, HOUSEKEEPING_ID, which);
    case 3:
        return frame_order(frame, channel, SET_MODE_ID, which, 13);
    case 4:
        return frame_command(frame, channel, 0x0033, which);
    case 5:
        return frame_tick(frame, 80);
    case 6:
        return frame_poll(frame, channel);
    case 7:
        return frame_status(frame, channel, 0x5A, 0xA5);
    case 8:
        return frame_analogue(frame, which);
    default:
        return right_sample(frame, in_samples[which - 9]);
    }
}

static uint8_t long_bytes[PLAY_LONGEST];

/* Each right frame, so much longer that its length is right after a wrap;
 * then as it is, with outputs that are short after a wrap. */
static void long_frames(void)
{
    unsigned which, i, rest;
    size_t n;

    order(SET_MODE_ID, 13);
    random_bytes(long_bytes, sizeof long_bytes);
    for (which = 0; which < RIGHT_FRAMES; which++)
        for (i = 0; i < WRAPS; i++) {
            bring_queue_to(7);
            n = right_frame(long_bytes, which);
            give_exactly(long_bytes, n + wraps[i]);
            rest = below(126);
            give_with(long_bytes, n, wraps[i] + rest);
        }
    for (i = 0; i < 150; i++) {
        which = below(RIGHT_FRAMES);
        right_frame(long_bytes, which);
        give(long_bytes, below(PLAY_LONGEST + 1));
    }
}

/* The like for packets, each the next of its stream. */
static void long_packets(void)
{
    unsigned turn, i, stream, count, place, rest;

    random_bytes(long_bytes, sizeof long_bytes);
    for (turn = 0; turn < 7; turn++)
        for (i = 0; i < 7 * WRAPS; i++) {
            const struct model_record *record;
            stream = streams[i % 7];
            record = &play_reader()->records[stream];
            count = record->last + 1u;
            place = (record->place + 1u) % stream_pieces(stream);
            packet_of(long_bytes, stream, count, place, below(1000));
            play_packet(long_bytes, 126 + wraps[i / 7], 776);
            rest = below(776);
            play_packet(long_bytes, 126, wraps[i / 7] + rest);
            play_packet(long_bytes, 126, 776);
        }
    for (i = 0; i < 150; i++)
        play_packet(long_bytes, below(PLAY_LONGEST + 1), 776);
}

const struct session sessions[] = {
    {"shapes of frames", shapes, 1},
    {"long frames", long_frames, 2},
    {"long packets", long_packets, 2},
    {"values at their edges", values, 1},
    {"several refusals at once", refusals, 6},
    {"times of the modes", mode_times, 12},
    {"windows", windows, 1},
    {"each mode after each", mode_orders, 2},
    {"packets from nowhere", from_nowhere, 40},
    {"each distance", distances, 1},
    {"a tight queue, records", tight_queue, 6},
    {"a tight queue, samples", tight_samples, 6},
    {"descents", descent, 20},
    {"mixed frames", mixed, 50},
    {"many errors", long_errors, 1},
    {"clears", clears, 6},
    {"the way to the reader", channel, 20},
    {"most pieces missing", most_missing, 1},
    {"long counts", long_counts, 1},
    {"long streams", long_streams, 1},
    {NULL, NULL, 0}};
