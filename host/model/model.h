/* model.h: the model of the controller and of the reader of document 01
 * ("the paper"), in plain C.
 *
 * Holds the reply numbers, the sizes the paper names, the two states
 * (struct model_controller, struct model_reader), the calls on them, and the
 * history call-back.  The model owns its states as C structures and has no
 * lent bytes, so the replies 10 and 25 do not occur in it.
 */
#ifndef MODEL_H
#define MODEL_H

#include <stdbool.h>
#include <stddef.h>
#include <stdint.h>

/* "What the controller replies" */
enum {
    MODEL_ACCEPTED = 0,
    MODEL_NOT_A_FRAME = 1,  /* empty, unknown kind or channel, or wrong size */
    MODEL_NOT_CARRIED = 2,  /* command id or stream not carried */
    MODEL_WRONG_LENGTH = 3, /* wrong parameter or sample length */
    MODEL_OUT_OF_RANGE = 4, /* value out of range */
    MODEL_BACK_IN_TIME = 5, /* broadcast seconds below the last accepted */
    MODEL_NOT_IN_MODE = 6,  /* sample not taken in this mode */
    MODEL_NO_SLOTS = 7,     /* too few free queue slots */
    MODEL_SHORT_OUTPUT = 8, /* output shorter than 126 bytes */
    MODEL_QUEUE_EMPTY = 9   /* poll, queue empty */
};

/* "Reader", its replies */
enum {
    MODEL_TAKEN = 0,
    MODEL_HANDED_OUT = 1,
    MODEL_NOT_A_PACKET = 20,    /* wrong size, ID, length or sequence bits */
    MODEL_OTHER_STREAM = 21,    /* stream not carried */
    MODEL_REPEAT = 22,
    MODEL_WRONG_SYNC = 23,      /* opening, closing or fill bytes wrong */
    MODEL_READER_SHORT = 24     /* output under 776 */
};

/* Sizes and stream numbers of the paper */
enum {
    MODEL_PIECE = 118,      /* bytes of one piece */
    MODEL_POLL = 126,       /* bytes of one poll output */
    MODEL_SLOTS = 48,       /* "the queue has 48 slots" */
    MODEL_RING = 512,       /* "a ring of 512" */
    MODEL_LONGEST = 776,    /* the longest listed length, ACC-I */
    MODEL_WHOLE = 7 * 118,  /* the longest packet filled up to whole pieces */
    MODEL_ANALOGUE = 58,    /* bytes a frame 07 brings */
    MODEL_STREAMS = 12,     /* stream numbers 0 to B */
    MODEL_ACC_I = 0x2,
    MODEL_API_V = 0x4,
    MODEL_DEN = 0x5,
    MODEL_PER = 0x6,
    MODEL_TIL = 0x9,
    MODEL_HK = 0xA,
    MODEL_ACC_E = 0xB
};

/* The history: what happened, told as it happens, with numbers of its own.
 *
 * MODEL_QUEUED   a datastream packet was queued: its bytes at the listed
 *                length; index is that of its first piece.
 * MODEL_POLLED   a piece was polled: its index (bytes NULL, length 0).
 * MODEL_CLEARED  a waiting piece was cleared: its index (NULL, 0).
 *
 * An index counts the pieces ever queued in the stream, from 0, and does not
 * wrap; it is kept apart from the stream's count of 12 bits.
 */
enum model_event { MODEL_QUEUED, MODEL_POLLED, MODEL_CLEARED };

typedef void model_history_call(void *context, enum model_event event,
                                unsigned stream, uint64_t index,
                                const uint8_t *bytes, size_t length);

/* One waiting piece. */
struct model_piece {
    uint64_t index;  /* for the history */
    uint16_t count;  /* its stream's count when queued, 0 to 4095 */
    uint8_t stream;
    uint8_t bytes[MODEL_PIECE];
};

/* An open packet: the samples kept so far, as they came. */
struct model_open {
    uint32_t time;       /* SSP time at the first sample */
    uint8_t mode;        /* mode byte at the first sample */
    uint8_t kept;        /* number of samples */
    uint8_t samples[144]; /* the most is DEN's 72 of two bytes */
};

struct model_controller {
    /* The last accepted broadcast's words, and m */
    uint16_t seconds;    /* T */
    uint16_t m;          /* ticks since then, stays at 1023 */
    uint16_t altitude;   /* bit 15 included */
    uint8_t spin;
    uint8_t phase;

    /* Mode and the last entry */
    uint8_t mode;
    bool locked;
    uint32_t entry_time;       /* SSP time */
    uint16_t entry_altitude;   /* altitude word */
    uint8_t entry_old_mode;    /* plus 8 if it was locked */
    uint16_t reference_second; /* of mode 5 */

    /* Impact */
    uint16_t ring[MODEL_RING];
    uint16_t ring_next;   /* where the next reading goes: the oldest place */
    uint8_t window;       /* the last five comparisons */
    bool impact;          /* the impact flag */
    bool collecting;      /* an impact record is being collected */
    uint16_t further;     /* further ticks since the impact tick */
    uint32_t impact_time; /* SSP time at the impact tick */
    uint8_t impact_mode;  /* mode byte at the impact tick */

    /* Counts; [0] is channel A, [1] is channel B */
    uint16_t broadcast_count[2];
    uint16_t command_packet_count[2];
    uint16_t telemetry_count[2];
    uint16_t command_count;
    uint8_t error_count;
    uint8_t error_code;
    uint8_t last_sequence;
    uint8_t last_id;

    /* The bytes of the last frame 07 */
    uint8_t analogue[MODEL_ANALOGUE];

    /* Streams, by number */
    uint16_t stream_count[MODEL_STREAMS]; /* the next count to be given */
    struct model_open open[MODEL_STREAMS];

    /* The queue: waiting pieces from queue[first] on, going round */
    unsigned first;
    unsigned waiting;
    struct model_piece queue[MODEL_SLOTS];

    /* The history */
    uint64_t pieces_ever[MODEL_STREAMS];
    model_history_call *history;
    void *history_context;
};

/* The reader's small record for one stream. */
struct model_record {
    uint16_t last;   /* last count */
    uint8_t place;
    bool gathering;
};

struct model_reader {
    struct model_record records[MODEL_STREAMS];
    uint8_t gathered[MODEL_STREAMS][MODEL_WHOLE];
};

/* A fresh controller, without history call-back. */
void model_start(struct model_controller *c);

/* Sets the history call-back, or ends it with NULL. */
void model_history(struct model_controller *c, model_history_call *call,
                   void *context);

/* One frame of n bytes; replies 0 to 9.  *written is the number of bytes
 * written to out: 126 for an accepted poll, 2 for a status, else 0. */
int model_frame(struct model_controller *c, const uint8_t *frame, size_t n,
                uint8_t *out, size_t out_len, size_t *written);

/* A fresh reader. */
void model_reader_start(struct model_reader *r);

/* One packet of n bytes; replies 0, 1, 20 to 24.  *written is the listed
 * length of the packet handed out at reply 1, else 0. */
int model_reader_packet(struct model_reader *r, const uint8_t *packet,
                        size_t n, uint8_t *out, size_t out_len,
                        size_t *written);

#endif
