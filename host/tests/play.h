/* play.h: the library and the model play the same sequence, step by step.
 *
 * A sequence begins with a fresh controller and a fresh reader.  Each step is
 * played on the library (in guarded buffers) and on the model, and replies,
 * output and what may not change are compared.  At the first difference the
 * sequence ends, and the shortest part of it that still differs is printed.
 */
#ifndef PLAY_H
#define PLAY_H

#include "model.h"

enum {
    PLAY_LONGEST = 70000,  /* bytes of a frame or a packet */
    PLAY_OUT_MOST = 70000  /* bytes of an output */
};

enum fate { LOST, CAME }; /* whether a polled packet goes to the reader */

/* What a step found the model in. */
struct play_before {
    struct model_record record; /* of the packet's stream, where carried */
    uint8_t mode, locked, collecting, impact;
    unsigned further, waiting, seconds, entry_second, reference_second;
    unsigned head_stream;       /* the first waiting piece's */
    uint64_t head_index;
    uint16_t counts[7];         /* command; broadcast, packet, telemetry AB */
    uint8_t error_count;
    bool open;                  /* samples stand in an open packet */
    unsigned lacking;           /* a bit a stream whose packet lacks a sample */
};

/* The bytes that a step handed over, and the output it lent. */
struct play_given {
    const uint8_t *bytes;
    size_t length, out_length;
};

/* Tells of every step that was played (not of those of a look). */
struct play_watcher {
    void (*frame)(const struct play_before *before,
                  const struct model_controller *after,
                  const struct play_given *given, int reply);
    void (*packet)(const struct play_before *before,
                   const struct model_reader *after,
                   const struct play_given *given, int reply);
    void (*arrival)(bool whole, bool first, uint64_t missing);
};

/* Makes the guarded rooms; once. */
void play_make(const struct play_watcher *watcher);

/* Plays the session, which makes its steps by the calls below.  False where
 * library and model differ; then the shortest sequence is printed. */
bool play(const char *name, void (*session)(void));

/* Runs a test that plays no steps; false where it says so, or where a byte
 * outside the buffers is touched. */
bool play_test(const char *name, bool (*test)(void));

/* The steps; replies are the model's, which are the library's too.
 *
 * A frame; an accepted poll's packet goes to the reader if its fate is CAME,
 * and what the reader hands out is held to the ledger. */
int play_frame(const uint8_t *frame, size_t n, size_t out_length,
               enum fate fate);
/* A packet from nowhere; from then on the ledger holds nothing, unless the
 * reader refuses it with 20 or 21, that is noise. */
int play_packet(const uint8_t *packet, size_t n, size_t out_length);
/* The packet of this stream that came last, again; nothing if none came. */
void play_again(unsigned stream);
/* Looks at all that the controller holds, on a copy: counts, pieces, open
 * packets, ring and window. */
void play_look(void);

const struct model_controller *play_controller(void);
const struct model_reader *play_reader(void);

extern unsigned long play_frames, play_packets, play_looks;

/* A number that follows from every step made so far, in order: its bytes and
 * lengths, and how many random numbers were drawn.  The same seed gives the
 * same number with every compiler. */
extern uint64_t play_digest;

#endif
