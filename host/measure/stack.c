/* stack.c: how many bytes of stack each entry uses, by calling it on a painted
 * stack and looking how far the paint is gone.  Linked with -z now, so that
 * the loader does not use the stack in a call. */
#define _GNU_SOURCE
#include <stdio.h>
#include <string.h>
#include <ucontext.h>

#include "ssp.h"
#include "frames.h"

enum { ROOM = 65536, PAINT = 0xC5 };

static uint8_t painted[ROOM], state[SSP_STATE_BYTES];
static uint8_t reader[SSP_READER_BYTES], out[SSP_READER_OUT_BYTES];
static uint8_t frame[FRAME_MOST], packet[SSP_PACKET_BYTES];
static size_t length;
static ucontext_t here, there;

static void call_nothing(void)
{
}

static void call_start(void)
{
    ssp_start(state, sizeof state);
}

static void call_frame(void)
{
    ssp_frame(state, sizeof state, frame, length, out, sizeof out);
}

static void call_reader_start(void)
{
    ssp_reader_start(reader, sizeof reader);
}

static void call_packet(void)
{
    ssp_reader_packet(reader, sizeof reader, packet, sizeof packet, out,
                      sizeof out);
}

/* Bytes of the painted stack that a call used. */
static size_t used(void (*call)(void))
{
    size_t left = 0;

    memset(painted, PAINT, sizeof painted);
    getcontext(&there);
    there.uc_stack.ss_sp = painted;
    there.uc_stack.ss_size = sizeof painted;
    there.uc_link = &here;
    makecontext(&there, call, 0);
    swapcontext(&here, &there);
    while (left < sizeof painted && painted[left] == PAINT)
        left++;
    return sizeof painted - left;
}

static size_t base;

static void most(size_t *deepest, void (*call)(void))
{
    size_t bytes = used(call) - base;

    if (bytes > *deepest)
        *deepest = bytes;
}

/* Every kind of frame, with a record completed and packets closed. */
static size_t frames_deepest(void)
{
    size_t deepest = 0;
    unsigned i, stream;

    for (i = 0; i < 2000; i++) {
        for (stream = 4; stream < 12; stream++) {
            length = frame_sample(frame, stream, i);
            most(&deepest, call_frame);
        }
        length = i % 600 == 0   ? frame_order(frame, 0, SET_MODE_ID, 1, 4)
                 : i % 600 == 5 ? frame_order(frame, 0, CLEAR_STREAMS_ID, 1, 0x0830)
                                : frame_tick(frame, 700);
        most(&deepest, call_frame);
        length = i % 2 == 0 ? frame_status(frame, i / 2 % 2, 1, 255)
                            : frame_command(frame, 0, HOUSEKEEPING_ID, i);
        most(&deepest, call_frame);
        length = frame_poll(frame, i % 2);
        most(&deepest, call_frame);
        most(&deepest, call_frame);
        length = i % 2 ? frame_broadcast(frame, 0, i * 8, 9000)
                       : frame_analogue(frame, i);
        most(&deepest, call_frame);
    }
    return deepest;
}

static size_t packets_deepest(void)
{
    size_t deepest = 0;
    unsigned i, stream;

    for (stream = 0; stream < 12; stream++)
        for (i = 0; i < 30 && stream_pieces(stream) > 0; i++) {
            packet_of(packet, stream, i, i % stream_pieces(stream), i);
            most(&deepest, call_packet);
        }
    return deepest;
}

int main(void)
{
    used(call_nothing);
    base = used(call_nothing);
    printf("ssp_start\t%lu\n", (unsigned long)(used(call_start) - base));
    printf("ssp_frame\t%lu\n", (unsigned long)frames_deepest());
    printf("ssp_reader_start\t%lu\n",
           (unsigned long)(used(call_reader_start) - base));
    printf("ssp_reader_packet\t%lu\n", (unsigned long)packets_deepest());
    return 0;
}
