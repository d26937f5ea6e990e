/* states.c: states of every length up to the least and of some far beyond,
 * damaged states and states of random bytes.  What a state's bytes mean is the library's; here is held only what
 * must be so of any bytes: 10 (the reader 25) with nothing changed, or a reply
 * with the bytes that belong to it, and nothing touched outside the buffers.
 */
#include "states.h"

#include <stdio.h>
#include <string.h>

#include "ssp.h"
#include "cover.h"
#include "frames.h"
#include "guard.h"
#include "random.h"

enum {
    PAST = 8,
    PROBES = 16,
    RANDOM_STATES = 20000,
    MARK = 2,
    LONGEST = 65536 + SSP_READER_BYTES
};

/* Lengths that wrap where they are kept in fewer bits. */
static const size_t wraps[] = {256,  512,   1024,  2048, 4096,
                               8192, 16384, 32768, 65536};
enum { WRAPS = sizeof wraps / sizeof *wraps };

typedef uint8_t start_entry(uint8_t *, size_t);
typedef uint8_t call_entry(uint8_t *, size_t, const uint8_t *, size_t,
                           uint8_t *, size_t);

struct probe {
    uint8_t bytes[FRAME_MOST];
    size_t length;
};

/* The controller or the reader, as far as this page goes. */
struct machine {
    const char *name;
    start_entry *start;
    call_entry *call;
    size_t least, least_out;
    int unfit, short_output;
    enum cover_outside lengths, out_lengths, unfit_came, behaved, long_states,
        long_outputs;
    void (*lived)(uint8_t *state); /* a state made by starting and calls */
    size_t (*written)(const struct probe *, int reply);
    struct probe probes[PROBES];
    unsigned count;
};

static struct guard state_room, other_room, out_room, other_out, long_room;

static bool wrong(const struct machine *m, const char *what, unsigned long at)
{
    printf("DIFFERENCE in %s's states: %s (%lu)\n", m->name, what, at);
    return false;
}

/* Whether a buffer in a room holds the pattern from a place on. */
static bool untouched(const struct guard *g, size_t from)
{
    for (; from < g->length; from++)
        if (g->buffer[from] != guard_pattern(from))
            return false;
    return guard_holds(g);
}

/* --------------------------------------------------------- each length */

/* Starts a state of length n, and calls on the first n bytes of a right one. */
static bool one_length(const struct machine *m, const uint8_t *right, size_t n)
{
    uint8_t *state = guard_place(&state_room, n, n % 2 == 0);
    uint8_t *out = guard_place(&out_room, n % 3 == 0 ? 0 : m->least_out, true);
    const struct probe *p = &m->probes[0];
    bool enough = n >= m->least;
    int reply = m->start(n == 0 ? NULL : state, n);

    if (reply != (enough ? 0 : m->unfit))
        return wrong(m, "start's reply", n);
    if (!untouched(&state_room, enough ? m->least : 0))
        return wrong(m, "start wrote past or before", n);
    if (enough)
        return true;
    memcpy(state, right, n);
    reply = m->call(n == 0 ? NULL : state, n, p->bytes, p->length,
                    out_room.length == 0 ? NULL : out, out_room.length);
    if (reply != m->unfit || memcmp(state, right, n) != 0 ||
        !untouched(&out_room, 0))
        return wrong(m, "a short state", n);
    return true;
}

/* The room is the long one where the length is more than out_room has. */
static bool one_out_length(const struct machine *m, const uint8_t *right,
                           const struct probe *p, size_t n)
{
    struct guard *room = n <= SSP_READER_OUT_BYTES + PAST ? &out_room
                                                          : &long_room;
    uint8_t *state = guard_place(&state_room, m->least, true);
    uint8_t *out = guard_place(room, n, n % 2 == 0);
    int reply;

    memcpy(state, right, m->least);
    reply = m->call(state, m->least, p->bytes, p->length,
                    n == 0 ? NULL : out, n);
    if ((reply == m->short_output) != (n < m->least_out))
        return wrong(m, "reply to an output's length", n);
    if (!untouched(room, n < m->least_out ? 0 : m->written(p, reply)))
        return wrong(m, "output written", n);
    if (n < m->least_out && memcmp(state, right, m->least) != 0)
        return wrong(m, "state after a short output", n);
    return true;
}

/* Starts a state of more bytes than are needed, and calls on it: all is as
 * with the least, and the bytes behind stay. */
static bool one_long_state(const struct machine *m, const uint8_t *right,
                           const struct probe *p, size_t n)
{
    uint8_t *state = guard_place(&long_room, n, n % 2 == 0);
    uint8_t *out = guard_place(&out_room, m->least_out, true);
    uint8_t *least = guard_place(&other_room, m->least, true);
    uint8_t *least_out = guard_place(&other_out, m->least_out, true);

    if (m->start(state, n) != 0 || m->start(least, m->least) != 0 ||
        memcmp(state, least, m->least) != 0 || !untouched(&long_room, m->least))
        return wrong(m, "start of a long state", n);
    memcpy(state, right, m->least);
    memcpy(least, right, m->least);
    if (m->call(state, n, p->bytes, p->length, out, m->least_out) !=
        m->call(least, m->least, p->bytes, p->length, least_out, m->least_out))
        return wrong(m, "reply on a long state", n);
    if (memcmp(state, least, m->least) != 0 ||
        memcmp(out, least_out, m->least_out) != 0 ||
        !untouched(&long_room, m->least) || !guard_holds(&out_room))
        return wrong(m, "bytes of a long state", n);
    return true;
}

/* States and outputs that are long enough, but not after their length has
 * wrapped. */
static bool long_lengths(const struct machine *m, const uint8_t *right)
{
    const size_t rests[] = {0, 1, 100, m->least_out - 1, m->least - 1};
    unsigned probe, wrap, rest;
    size_t n;

    for (probe = 0; probe < m->count; probe++)
        for (wrap = 0; wrap < WRAPS; wrap++)
            for (rest = 0; rest < sizeof rests / sizeof *rests; rest++) {
                const struct probe *p = &m->probes[probe];
                n = wraps[wrap] + rests[rest];
                if (n >= m->least && n % wraps[wrap] < m->least) {
                    if (!one_long_state(m, right, p, n))
                        return false;
                    cover_outside(m->long_states);
                }
                if (n >= m->least_out && n % wraps[wrap] < m->least_out) {
                    if (!one_out_length(m, right, p, n))
                        return false;
                    cover_outside(m->long_outputs);
                }
            }
    return true;
}

static bool each_length(const struct machine *m)
{
    static uint8_t right[SSP_READER_BYTES];
    unsigned probe;
    size_t n;

    m->lived(right);
    for (n = 0; n <= m->least + PAST; n++) {
        if (!one_length(m, right, n))
            return false;
        cover_outside(m->lengths);
    }
    for (probe = 0; probe < m->count; probe++)
        for (n = 0; n <= m->least_out + PAST; n++) {
            if (!one_out_length(m, right, &m->probes[probe], n))
                return false;
            cover_outside(m->out_lengths);
        }
    return long_lengths(m, right);
}

/* ------------------------------------------------------- damaged states */

/* Calls on a copy of these bytes in a room, at its end or front. */
static int call_on(const struct machine *m, struct guard *room,
                   struct guard *out, bool at_end, const uint8_t *bytes,
                   const struct probe *p)
{
    guard_place(room, m->least, at_end);
    guard_place(out, m->least_out, at_end);
    memcpy(room->buffer, bytes, m->least);
    return m->call(room->buffer, m->least, p->bytes, p->length, out->buffer,
                   m->least_out);
}

/* The same call at two places says, writes and leaves the same. */
static bool behaves(const struct machine *m, const uint8_t *bytes,
                    const struct probe *p, unsigned long at)
{
    int reply = call_on(m, &state_room, &out_room, true, bytes, p);
    int fit = call_on(m, &other_room, &other_out, false, bytes,
                      &m->probes[0]) != m->unfit;

    if ((reply != m->unfit) != fit)
        return wrong(m, "fitness depends on the call", at);
    if (call_on(m, &other_room, &other_out, false, bytes, p) != reply)
        return wrong(m, "reply depends on the place", at);
    if (memcmp(state_room.buffer, other_room.buffer, m->least) != 0 ||
        memcmp(out_room.buffer, other_out.buffer, m->least_out) != 0)
        return wrong(m, "bytes depend on the place", at);
    if (!guard_holds(&state_room) || !guard_holds(&other_room) ||
        !untouched(&out_room, m->written(p, reply)))
        return wrong(m, "bytes outside written", at);
    if (reply == m->unfit && memcmp(state_room.buffer, bytes, m->least) != 0)
        return wrong(m, "unfit state changed", at);
    if (m->call(state_room.buffer, m->least, m->probes[0].bytes,
                m->probes[0].length, out_room.buffer,
                m->least_out) == m->unfit && fit)
        return wrong(m, "a fit state became unfit", at);
    cover_outside(fit ? m->behaved : m->unfit_came);
    return true;
}

static bool damaged(const struct machine *m)
{
    static uint8_t right[SSP_READER_BYTES], bytes[SSP_READER_BYTES];
    unsigned value;
    size_t at;

    m->lived(right);
    for (at = 0; at < m->least; at++)
        for (value = 0; value < 4; value++) {
            memcpy(bytes, right, m->least);
            bytes[at] = (uint8_t)(value == 0   ? bytes[at] ^ 0xFFu
                                  : value == 1 ? bytes[at] ^ 0x80u
                                  : value == 2 ? bytes[at] + 1u
                                               : below(256));
            if (!behaves(m, bytes, &m->probes[below(m->count)], at))
                return false;
        }
    /* Most bytes lack the mark that starting writes (docs/STATE.md), so every
     * other state is given it: what is behind may be anything. */
    for (at = 0; at < RANDOM_STATES; at++) {
        random_bytes(bytes, m->least);
        if (at % 2 != 0)
            memcpy(bytes, right, MARK);
        if (!behaves(m, bytes, &m->probes[below(m->count)], at))
            return false;
    }
    return true;
}

/* -------------------------------------------------------- the machines */

static size_t written_by_frame(const struct probe *p, int reply)
{
    if (reply != SSP_CONTROLLER_ACCEPTED)
        return 0;
    return p->bytes[0] == SSP_POLL     ? SSP_PACKET_BYTES
           : p->bytes[0] == SSP_STATUS ? SSP_STATUS_WORD_BYTES
                                       : 0;
}

static size_t written_by_packet(const struct probe *p, int reply)
{
    return reply == SSP_READER_HANDED_OUT ? stream_listed(p->bytes[7] % 16) : 0;
}

/* A controller with pieces waiting, samples open and a record collected. */
static void lived_controller(uint8_t *state)
{
    uint8_t frame[FRAME_MOST], out[SSP_OUT_BYTES];
    unsigned i;
    size_t n;

    ssp_start(state, SSP_STATE_BYTES);
    for (i = 0; i < 400; i++) {
        if (i == 0)
            n = frame_order(frame, 0, SET_MODE_ID, 1, 5);
        else if (i < 4)
            n = frame_sample(frame, 11, i);
        else if (i == 4)
            n = frame_order(frame, 1, SET_MODE_ID, 2, 4);
        else if (i % 3 == 0)
            n = frame_sample(frame, 4 + i % 2, i);
        else if (i % 50 == 1)
            n = frame_poll(frame, i % 2);
        else
            n = frame_tick(frame, i > 60 ? 100 : 10);
        ssp_frame(state, SSP_STATE_BYTES, frame, n, out, sizeof out);
    }
}

/* A reader that is gathering in both streams of several pieces. */
static void lived_reader(uint8_t *state)
{
    uint8_t packet[SSP_PACKET_BYTES], out[SSP_READER_OUT_BYTES];
    unsigned i;

    ssp_reader_start(state, SSP_READER_BYTES);
    for (i = 0; i < 10; i++) {
        packet_of(packet, SSP_STREAM_ACC_I, i, i % 7, i);
        ssp_reader_packet(state, SSP_READER_BYTES, packet, sizeof packet, out,
                          sizeof out);
        packet_of(packet, SSP_STREAM_ACC_E, i, i % 5, i);
        if (i < 8)
            ssp_reader_packet(state, SSP_READER_BYTES, packet, sizeof packet,
                              out, sizeof out);
    }
}

static struct machine controller = {
    "the controller", ssp_start, ssp_frame, SSP_STATE_BYTES, SSP_OUT_BYTES,
    SSP_CONTROLLER_UNFIT_STATE, SSP_CONTROLLER_SHORT_OUTPUT,
    COVER_STATE_LENGTHS, COVER_OUT_LENGTHS,
    COVER_STATE_10, COVER_STATE_BEHAVES, COVER_LONG_STATES, COVER_LONG_OUTPUTS,
    lived_controller, written_by_frame, {{{0}, 0}}, 0};

static struct machine reader = {
    "the reader", ssp_reader_start, ssp_reader_packet, SSP_READER_BYTES,
    SSP_READER_OUT_BYTES, SSP_READER_UNFIT_STATE, SSP_READER_SHORT_OUTPUT,
    COVER_READER_LENGTHS, COVER_READER_OUT_LENGTHS, COVER_READER_25,
    COVER_READER_BEHAVES, COVER_READER_LONG_STATES, COVER_READER_LONG_OUTPUTS,
    lived_reader, written_by_packet, {{{0}, 0}}, 0};

/* The next probe's bytes, which are then written to. */
static struct probe *next_probe(struct machine *m)
{
    return &m->probes[m->count++];
}

static void make_probes(void)
{
    struct probe *p;
    unsigned i;

    if (controller.count > 0)
        return;
    p = next_probe(&controller);
    p->length = frame_status(p->bytes, 0, 0x5A, 0xFF);
    p = next_probe(&controller);
    p->length = frame_poll(p->bytes, 1);
    p = next_probe(&controller);
    p->length = frame_command(p->bytes, 0, HOUSEKEEPING_ID, 1);
    p = next_probe(&controller);
    p->length = frame_order(p->bytes, 0, CLEAR_STREAMS_ID, 1, 0x0830);
    p = next_probe(&controller);
    p->length = frame_order(p->bytes, 1, SET_MODE_ID, 1, 4);
    p = next_probe(&controller);
    p->length = frame_tick(p->bytes, 900);
    p = next_probe(&controller);
    p->length = frame_broadcast(p->bytes, 0, 0xFFFF, 1);
    p = next_probe(&controller);
    p->length = frame_analogue(p->bytes, 3);
    for (i = 0; i < 12; i++)
        if (sample_size(i) > 0) {
            p = next_probe(&controller);
            p->length = frame_sample(p->bytes, i, i);
        }
    for (i = 0; i < 12; i++) {
        p = next_probe(&reader);
        p->length = SSP_PACKET_BYTES;
        packet_of(p->bytes, i == 0 ? 11 : i, i % 2 == 0 ? i : 8, 3, i);
    }
}

static void make_rooms(void)
{
    make_probes();
    if (state_room.room != NULL)
        return;
    guard_make(&state_room, SSP_READER_BYTES + PAST);
    guard_make(&other_room, SSP_READER_BYTES + PAST);
    guard_make(&out_room, SSP_READER_OUT_BYTES + PAST);
    guard_make(&other_out, SSP_READER_OUT_BYTES + PAST);
    guard_make(&long_room, LONGEST);
}

bool states_of_each_length(void)
{
    make_rooms();
    return each_length(&controller) && each_length(&reader);
}

bool states_damaged(void)
{
    make_rooms();
    random_seed(7);
    return damaged(&controller) && damaged(&reader);
}
