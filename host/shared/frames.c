/* frames.c: frames and packets of document 01, built field by field. */
#include "frames.h"

#include <string.h>

unsigned long number(const uint8_t *at, unsigned size)
{
    unsigned long value = 0;

    while (size-- > 0)
        value = value << 8 | *at++;
    return value;
}

void put_number(uint8_t *at, unsigned size, unsigned long value)
{
    while (size-- > 0) {
        at[size] = (uint8_t)value;
        value >>= 8;
    }
}

/* The kind, then the channel. */
static void head(uint8_t *bytes, unsigned kind, unsigned channel)
{
    bytes[0] = (uint8_t)kind;
    bytes[1] = (uint8_t)(0x0A + channel);
}

size_t frame_broadcast(uint8_t *bytes, unsigned channel, unsigned time,
                       unsigned altitude)
{
    head(bytes, 1, channel);
    put_number(bytes + 2, 2, time);
    put_number(bytes + 4, 2, altitude);
    put_number(bytes + 6, 2, (time + altitude) * 40503u);
    return 8;
}

size_t frame_command(uint8_t *bytes, unsigned channel, unsigned id,
                     unsigned sequence)
{
    head(bytes, 2, channel);
    put_number(bytes + 2, 2, id);
    put_number(bytes + 4, 2, sequence);
    return 6;
}

size_t frame_order(uint8_t *bytes, unsigned channel, unsigned id,
                   unsigned sequence, unsigned value)
{
    size_t n = frame_command(bytes, channel, id, sequence);

    put_number(bytes + n, 2, value);
    return n + 2;
}

size_t frame_tick(uint8_t *bytes, unsigned reading)
{
    bytes[0] = 3;
    put_number(bytes + 1, 2, reading);
    return 3;
}

size_t frame_sample(uint8_t *bytes, unsigned stream, unsigned seed)
{
    unsigned i, size = sample_size(stream);

    bytes[0] = 4;
    bytes[1] = (uint8_t)stream;
    for (i = 0; i < size; i++)
        bytes[2 + i] = (uint8_t)(seed * 37 + i * 11 + (seed >> 8));
    if (stream == 5)
        bytes[2] &= 0x0F;
    return 2 + size;
}

size_t frame_poll(uint8_t *bytes, unsigned channel)
{
    head(bytes, 5, channel);
    return 2;
}

size_t frame_status(uint8_t *bytes, unsigned channel, unsigned low,
                    unsigned flags)
{
    head(bytes, 6, channel);
    bytes[2] = (uint8_t)low;
    bytes[3] = (uint8_t)flags;
    return 4;
}

size_t frame_analogue(uint8_t *bytes, unsigned seed)
{
    unsigned i;

    bytes[0] = 7;
    for (i = 1; i < 59; i++)
        bytes[i] = (uint8_t)(seed * 29 + i * 7);
    return 59;
}

/* "Streams and packets", by number. */
static const struct {
    uint16_t sample, samples, pieces, listed;
} table[12] = {[0x2] = {0, 0, 7, 776},   [0x4] = {3, 36, 1, 116},
               [0x5] = {2, 72, 1, 116},  [0x6] = {3, 36, 1, 116},
               [0x9] = {6, 18, 1, 116},  [0xA] = {0, 0, 1, 118},
               [0xB] = {512, 1, 5, 520}};

unsigned sample_size(unsigned stream)
{
    return stream < 12 ? table[stream].sample : 0;
}

unsigned stream_samples(unsigned stream)
{
    return stream < 12 ? table[stream].samples : 0;
}

unsigned stream_pieces(unsigned stream)
{
    return stream < 12 ? table[stream].pieces : 0;
}

unsigned stream_listed(unsigned stream)
{
    return stream < 12 ? table[stream].listed : 0;
}

void packet_of(uint8_t *packet, unsigned stream, unsigned count,
               unsigned place, unsigned seed)
{
    unsigned i, from = place * 118, listed = stream_listed(stream);

    put_number(packet, 2, seed & 1 ? 0x0FB4 : 0x0F94);
    put_number(packet + 2, 2, 0xC000u + seed % 16384);
    put_number(packet + 4, 2, 0x0077);
    put_number(packet + 6, 2, count % 4096 * 16ul + stream % 16);
    for (i = 0; i < 118; i++) {
        uint8_t data = (uint8_t)(seed * 31 + i * 13);
        packet[8 + i] = from + i < 2 ? 0x88 : from + i + 2 < listed ? data : 0x99;
    }
}
