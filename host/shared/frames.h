/* frames.h: frames and packets of document 01, built field by field.
 *
 * Each function writes a frame to bytes, which has room for FRAME_MOST, and
 * returns its length.  A channel is 0 for A and 1 for B.
 */
#ifndef FRAMES_H
#define FRAMES_H

#include <stddef.h>
#include <stdint.h>

enum {
    FRAME_MOST = 514,       /* the longest sample frame, ACC-E's */
    CLEAR_STREAMS_ID = 0x13,
    HOUSEKEEPING_ID = 0x16,
    SET_MODE_ID = 0x32
};

/* Numbers, big-endian. */
unsigned long number(const uint8_t *at, unsigned size);
void put_number(uint8_t *at, unsigned size, unsigned long value);

size_t frame_broadcast(uint8_t *bytes, unsigned channel, unsigned time,
                       unsigned altitude);
size_t frame_command(uint8_t *bytes, unsigned channel, unsigned id,
                     unsigned sequence);
size_t frame_order(uint8_t *bytes, unsigned channel, unsigned id,
                   unsigned sequence, unsigned value); /* two bytes more */
size_t frame_tick(uint8_t *bytes, unsigned reading);
size_t frame_sample(uint8_t *bytes, unsigned stream, unsigned seed);
size_t frame_poll(uint8_t *bytes, unsigned channel);
size_t frame_status(uint8_t *bytes, unsigned channel, unsigned low,
                    unsigned flags);
size_t frame_analogue(uint8_t *bytes, unsigned seed);

/* The bytes of a sample of a stream in a sample frame, and how many samples
 * fill its datastream packet; 0 where there are no sample frames. */
unsigned sample_size(unsigned stream);
unsigned stream_samples(unsigned stream);

/* The pieces of a stream's datastream packet, and its listed length; 0 where
 * the stream is not carried. */
unsigned stream_pieces(unsigned stream);
unsigned stream_listed(unsigned stream);

/* A packet as polled, 126 bytes, with data that follow from seed: the piece
 * of that count, standing at that place of its datastream packet, with the
 * sync and fill bytes that belong there. */
void packet_of(uint8_t *packet, unsigned stream, unsigned count,
               unsigned place, unsigned seed);

#endif
