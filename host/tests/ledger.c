/* ledger.c: what the reader must hand out, kept from the model's history. */
#include "ledger.h"

#include <string.h>

/* The last packets queued of a stream.  The queue has 48 slots, so no waiting
 * piece belongs to an older packet than the last 64. */
enum { KEPT = 64 };

struct queued {
    size_t length;
    unsigned arrived; /* a bit a piece */
    uint8_t bytes[MODEL_LONGEST];
};

static struct {
    struct queued packets[KEPT];
    unsigned pieces;  /* of a packet of this stream */
    uint64_t next;    /* one more than the last index that arrived */
    bool broken;      /* the rule was broken */
} streams[MODEL_STREAMS];

static unsigned polled_stream;
static uint64_t polled_index;

void ledger_start(void)
{
    memset(streams, 0, sizeof streams);
}

static struct queued *packet_with(unsigned stream, uint64_t index)
{
    return &streams[stream].packets[index / streams[stream].pieces % KEPT];
}

void ledger_note(void *context, enum model_event event, unsigned stream,
                 uint64_t index, const uint8_t *bytes, size_t length)
{
    struct queued *packet;

    (void)context;
    if (event == MODEL_POLLED) {
        polled_stream = stream;
        polled_index = index;
    } else if (event == MODEL_QUEUED) {
        streams[stream].pieces = (unsigned)((length + 117) / 118);
        packet = packet_with(stream, index);
        packet->length = length;
        packet->arrived = 0;
        memcpy(packet->bytes, bytes, length);
    }
}

struct ledger_wanted ledger_arrives(void)
{
    struct queued *packet = packet_with(polled_stream, polled_index);
    unsigned pieces = streams[polled_stream].pieces;
    uint64_t next = streams[polled_stream].next;
    struct ledger_wanted wanted = {true, NULL, 0, polled_index - next,
                                   next == 0};

    if (wanted.missing > LEDGER_MOST_MISSING)
        streams[polled_stream].broken = true;
    streams[polled_stream].next = polled_index + 1;
    packet->arrived |= 1u << polled_index % pieces;
    wanted.known = !streams[polled_stream].broken;
    if (packet->arrived == (1u << pieces) - 1) {
        wanted.bytes = packet->bytes;
        wanted.length = packet->length;
    }
    return wanted;
}
