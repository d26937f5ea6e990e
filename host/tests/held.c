/* held.c: what the test of include/ has in common. */
#include "held.h"

#include <stdio.h>
#include <string.h>

#include "frames.h"

enum { NAMES = 300 };

unsigned held_wrong;
uint8_t held_state[HELD_ROOM], held_out[1024];

static const char *held[NAMES];
static unsigned held_count;

static void note(const char *name)
{
    if (!was_held(name) && held_count < NAMES)
        held[held_count++] = name;
}

void hold(const char *name, unsigned long header, unsigned long library)
{
    note(name);
    if (header == library)
        return;
    held_wrong++;
    printf("header: %s is %lu, the library says %lu\n", name, header, library);
}

void hold_text(const char *name, const char *header, const char *wanted)
{
    note(name);
    if (strcmp(header, wanted) == 0)
        return;
    held_wrong++;
    printf("header: %s says '%s', wanted '%s'\n", name, header, wanted);
}

bool was_held(const char *name)
{
    unsigned i;

    for (i = 0; i < held_count; i++)
        if (strcmp(held[i], name) == 0)
            return true;
    return false;
}

/* --------------------------------------------------------------- asking */

void fresh(void)
{
    ssp_start(held_state, HELD_ROOM);
}

uint8_t give(const uint8_t *frame, size_t n)
{
    return ssp_frame(held_state, HELD_ROOM, frame, n, held_out,
                     sizeof held_out);
}

uint8_t give_order(unsigned id, unsigned value)
{
    uint8_t frame[FRAME_MOST];

    return give(frame, frame_order(frame, 0, id, 1, value));
}

uint8_t give_housekeeping(void)
{
    uint8_t frame[FRAME_MOST];

    return give(frame, frame_command(frame, 0, SSP_SEND_HOUSEKEEPING, 1));
}

uint8_t give_broadcast(unsigned time, unsigned altitude)
{
    uint8_t frame[FRAME_MOST];

    return give(frame, frame_broadcast(frame, 0, time, altitude));
}

uint8_t give_tick(unsigned reading)
{
    uint8_t frame[FRAME_MOST];

    return give(frame, frame_tick(frame, reading));
}

uint8_t give_sample(unsigned stream, unsigned size)
{
    uint8_t frame[FRAME_MOST] = {SSP_SAMPLE, (uint8_t)stream};

    return give(frame, 2 + size);
}

uint8_t poll_with(unsigned channel_byte)
{
    uint8_t frame[2] = {SSP_POLL, (uint8_t)channel_byte};

    return give(frame, 2);
}

unsigned word_with(unsigned channel_byte, unsigned low, unsigned flags)
{
    uint8_t frame[4] = {SSP_STATUS, (uint8_t)channel_byte, (uint8_t)low,
                        (uint8_t)flags};

    give(frame, 4);
    return (unsigned)number(held_out, 2);
}

unsigned changed_by(unsigned channel_byte, unsigned flag)
{
    fresh();
    return word_with(channel_byte, 0, 0) ^ word_with(channel_byte, 0, flag);
}

unsigned mode_now(void)
{
    return (word_with(SSP_CHANNEL_A, 0, 0) & SSP_A_MODE) / SSP_A_MODE_UNIT;
}

void give_record(void)
{
    unsigned i;

    for (i = 0; i < RECORD_TICKS; i++)
        give_tick(500);
}
