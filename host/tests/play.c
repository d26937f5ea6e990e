/* play.c: the library and the model play the same sequence, step by step.
 * In this order: differences, the two pairs, frames, packets, looks, steps
 * and their log, the shortest sequence. */
#define _DEFAULT_SOURCE
#include "play.h"

#include <setjmp.h>
#include <signal.h>
#include <stdio.h>
#include <stdlib.h>
#include <string.h>
#include <time.h>

#include "ssp.h"
#include "frames.h"
#include "guard.h"
#include "ledger.h"
#include "random.h"

enum {
    TAIL = 16,
    SHOWN_MOST = 600,     /* bytes of a step that are printed */
    SHRINK_SECONDS = 60,
    LOOK_EVERY = 50000,   /* steps; a session that hangs ends by a look */
    STEPS_MOST = 5000000
};

unsigned long play_frames, play_packets, play_looks;
uint64_t play_digest = 0xCBF29CE484222325u;

static const struct play_watcher *watcher;
static bool replaying;

/* ---------------------------------------------------------- differences */

static sigjmp_buf out_of_step;
static char difference[200];

static void differ(const char *what, long library, long model)
{
    snprintf(difference, sizeof difference, "%s: library %ld, model %ld",
             what, library, model);
    siglongjmp(out_of_step, 1);
}

static void on_touch(int signal_number)
{
    snprintf(difference, sizeof difference,
             "a byte outside the buffers was touched (signal %d)",
             signal_number);
    siglongjmp(out_of_step, 1);
}

/* The first place where two runs of bytes differ, or -1. */
static long unlike(const uint8_t *one, const uint8_t *other, size_t n)
{
    size_t i;

    if (memcmp(one, other, n) == 0)
        return -1;
    for (i = 0; one[i] == other[i]; i++)
        ;
    return (long)i;
}

static void same_bytes(const char *what, const uint8_t *library,
                       const uint8_t *model, size_t n)
{
    long at = unlike(library, model, n);
    char text[100];

    if (at < 0)
        return;
    snprintf(text, sizeof text, "%s, byte %ld", what, at);
    differ(text, library[at], model[at]);
}

/* -------------------------------------------------- the library's states */

/* A state that the library works on, with a tail that it must leave. */
struct lent {
    struct guard room;
    uint8_t *state;
    size_t length;
    uint8_t before[SSP_READER_BYTES + TAIL];
};

static struct guard read_only, out_room;
static uint8_t model_out[PLAY_OUT_MOST + TAIL];
static unsigned fill; /* of outputs, another at each call */
static bool at_end; /* frames and outputs: at their room's end, or its front */

/* A state of least bytes, or of some more, at either end of its room. */
static void lend(struct lent *l, size_t least, unsigned form)
{
    l->length = least + (form & 1 ? TAIL : 0);
    l->state = guard_place(&l->room, l->length, (form & 2) != 0);
}

static void keep_before(struct lent *l)
{
    memcpy(l->before, l->state, l->length);
}

/* The state's bytes from this one on are as they were. */
static void left_alone(const struct lent *l, size_t from)
{
    same_bytes(from == 0 ? "state that may not change" : "bytes past the state",
               l->state + from, l->before + from, l->length - from);
}

/* The bytes to be read. */
static const uint8_t *to_read(const uint8_t *bytes, size_t n)
{
    uint8_t *at = guard_side(&read_only, n, at_end);

    if (n > 0)
        memcpy(at, bytes, n);
    return n > 0 ? at : NULL;
}

static uint8_t *out_at(size_t length)
{
    return guard_side(&out_room, length, at_end);
}

/* An output of this length for the library, and the like for the model; the
 * fill goes on a little where the room does. */
static uint8_t *output(size_t length)
{
    uint8_t *at = out_at(length);

    fill = fill * 5 + 3;
    memset(at_end ? at - TAIL : at, (int)(fill & 0xFF), length + TAIL);
    memset(model_out, (int)(fill & 0xFF), length + TAIL);
    return length > 0 ? at : NULL;
}

static void same_output(const uint8_t *frame, size_t n, size_t out_length)
{
    uint8_t *at = out_at(out_length);

    same_bytes("bytes beside the output", at_end ? at - TAIL : at + out_length,
               model_out + out_length, TAIL);
    same_bytes("output", at, model_out, out_length);
    if (n > 0)
        same_bytes("bytes only read", guard_side(&read_only, n, at_end),
                   frame, n);
}

typedef uint8_t call_entry(uint8_t *, size_t, const uint8_t *, size_t,
                           uint8_t *, size_t);

/* What the library replies to these bytes, on this state. */
static int called(struct lent *l, call_entry *entry, const uint8_t *bytes,
                  size_t n, size_t out_length)
{
    const uint8_t *at = to_read(bytes, n);
    uint8_t *out = output(out_length);

    keep_before(l);
    return entry(l->state, l->length, at, n, out, out_length);
}

/* --------------------------------------------------------------- frames */

struct controller {
    struct lent lent;
    struct model_controller model;
};

static struct controller played, looked;

/* "A broadcast refused with 5 raises only its channel's broadcast count.  A
 * command refused with 2, 3, 4 or 7 raises ...  Every other refusal changes
 * nothing."; a status word is read off. */
static bool leaves_the_state(const uint8_t *frame, int reply)
{
    if (reply == 0)
        return frame[0] == 6;
    return reply == 1 || reply == 8 || frame[0] > 2;
}

static int exchange(struct controller *c, const uint8_t *frame, size_t n,
                    size_t out_length)
{
    int library = called(&c->lent, ssp_frame, frame, n, out_length);
    size_t written;
    int model = model_frame(&c->model, frame, n, model_out, out_length,
                            &written);

    if (library != model)
        differ("reply", library, model);
    same_output(frame, n, out_length);
    left_alone(&c->lent,
               leaves_the_state(frame, model) ? 0 : SSP_STATE_BYTES);
    return model;
}

/* -------------------------------------------------------------- packets */

struct reader {
    struct lent lent;
    struct model_reader model;
};

static struct reader reader, looked_reader;

static bool ledger_off;
static struct {
    bool came;
    uint8_t packet[SSP_PACKET_BYTES];
} last_come[16];

static int exchange_packet(struct reader *r, const uint8_t *packet, size_t n,
                           size_t out_length)
{
    int library = called(&r->lent, ssp_reader_packet, packet, n, out_length);
    size_t written;
    int model = model_reader_packet(&r->model, packet, n, model_out,
                                    out_length, &written);

    if (library != model)
        differ("the reader's reply", library, model);
    same_output(packet, n, out_length);
    left_alone(&r->lent, model >= 20 && model != 23 ? 0 : SSP_READER_BYTES);
    return model;
}

/* A packet comes to the reader, and is told of. */
static int comes(const uint8_t *packet, size_t n, size_t out_length)
{
    struct play_before before;
    unsigned stream = n > 7 ? packet[7] % 16 : 0;
    int reply;

    memset(&before, 0, sizeof before);
    if (stream < MODEL_STREAMS)
        before.record = reader.model.records[stream];
    reply = exchange_packet(&reader, packet, n, out_length);
    if (!replaying) {
        struct play_given given = {packet, n, out_length};
        play_packets++;
        watcher->packet(&before, &reader.model, &given, reply);
    }
    return reply;
}

/* The packet polled last arrives: what is handed out is the ledger's. */
static void arrive(const uint8_t *packet)
{
    struct ledger_wanted wanted = ledger_arrives();
    int reply;

    last_come[packet[7] % 16].came = true;
    memcpy(last_come[packet[7] % 16].packet, packet, SSP_PACKET_BYTES);
    reply = comes(packet, SSP_PACKET_BYTES, SSP_READER_OUT_BYTES);
    if (ledger_off || !wanted.known)
        return;
    if (reply != (wanted.bytes != NULL))
        differ("the reader's reply against the ledger", reply,
               wanted.bytes != NULL);
    if (wanted.bytes != NULL)
        same_bytes("handed out, against the ledger",
                   out_at(SSP_READER_OUT_BYTES), wanted.bytes,
                   wanted.length);
    if (!replaying)
        watcher->arrival(wanted.bytes != NULL, wanted.first, wanted.missing);
}

static void again(unsigned stream)
{
    int reply;

    if (!last_come[stream].came)
        return;
    reply = comes(last_come[stream].packet, SSP_PACKET_BYTES,
                  SSP_READER_OUT_BYTES);
    if (!ledger_off && reply != SSP_READER_REPEAT)
        differ("the reader's reply to a repeat", reply, SSP_READER_REPEAT);
}

static int from_nowhere(const uint8_t *packet, size_t n, size_t out_length)
{
    int reply = comes(packet, n, out_length);

    if (reply != 20 && reply != 21 && reply != 24)
        ledger_off = true;
    return reply;
}

/* ---------------------------------------------------------------- looks */

static int ask(const uint8_t *frame, size_t n)
{
    return exchange(&looked, frame, n, SSP_OUT_BYTES);
}

static void ask_order(unsigned id, unsigned value)
{
    uint8_t frame[FRAME_MOST];

    ask(frame, frame_order(frame, 1, id, 0x5A5A, value));
}

static void ask_for_all(unsigned channel)
{
    uint8_t frame[FRAME_MOST];
    size_t n = frame_poll(frame, channel);

    while (ask(frame, n) == 0)
        ;
}

/* Both words, housekeeping, and every waiting piece. */
static void look_at_counts(void)
{
    uint8_t frame[FRAME_MOST];

    ask(frame, frame_status(frame, 0, 0x5A, 0xA5));
    ask(frame, frame_status(frame, 1, 0xA5, 0x5A));
    ask_for_all(0);
    ask(frame, frame_command(frame, 0, HOUSEKEEPING_ID, 1));
    ask_for_all(1);
}

/* Fills the open packet of a stream and polls it. */
static void look_at_open(unsigned stream)
{
    uint8_t frame[FRAME_MOST];
    size_t n = frame_sample(frame, stream, stream);
    unsigned i;

    for (i = 0; i < 72 && looked.model.waiting == 0; i++)
        ask(frame, n);
    ask_for_all(0);
}

/* Goes on with ticks until an impact record is complete, and polls it. */
static void look_at_ring(void)
{
    uint8_t frame[FRAME_MOST];
    unsigned i;

    for (i = 0; i < 460 && looked.model.waiting == 0; i++)
        ask(frame, frame_tick(frame, i % 3 == 0 ? i : 81 + i));
    ask_for_all(1);
}

/* Goes on with each stream until a datastream packet is handed out. */
static void look_at_reader(void)
{
    uint8_t packet[SSP_PACKET_BYTES];
    unsigned stream, i;

    memcpy(looked_reader.lent.state, reader.lent.state, SSP_READER_BYTES);
    looked_reader.model = reader.model;
    for (stream = 0; stream < MODEL_STREAMS; stream++) {
        struct model_record *record = &looked_reader.model.records[stream];
        unsigned pieces = stream_pieces(stream);
        for (i = 0; i < 2 * pieces; i++) {
            packet_of(packet, stream, record->last + 1u,
                      (record->place + 1u) % pieces, i);
            exchange_packet(&looked_reader, packet, SSP_PACKET_BYTES,
                            SSP_READER_OUT_BYTES);
        }
    }
}

static void look(void)
{
    unsigned stream;

    memcpy(looked.lent.state, played.lent.state, SSP_STATE_BYTES);
    looked.model = played.model;
    model_history(&looked.model, NULL, NULL);
    look_at_counts();
    if (looked.model.mode == 4)
        look_at_ring();
    if (looked.model.mode == 0 || looked.model.mode == 7)
        ask_order(SET_MODE_ID, 1);
    for (stream = 0; stream < MODEL_STREAMS; stream++)
        if (sample_size(stream) > 0)
            look_at_open(stream);
    look_at_counts();
    look_at_reader();
    if (!replaying)
        play_looks++;
}

/* -------------------------------------------------------- steps and log */

enum kind { FRAME, PACKET, AGAIN, LOOK };

struct step {
    uint8_t kind, fate;
    uint32_t length, out_length;
    size_t at; /* where its bytes stand */
};

static struct {
    struct step *steps;
    size_t count, room;
    uint8_t *bytes;
    size_t used, bytes_room;
    unsigned form; /* of the states' buffers */
} noted;

static const uint8_t *bytes_of(const struct step *s)
{
    return noted.bytes + s->at;
}

static void *grown(void *memory, size_t size)
{
    void *larger = realloc(memory, size);

    if (larger == NULL) {
        fputs("no memory for the log\n", stderr);
        exit(2);
    }
    return larger;
}

/* FNV-1a, 64 bits. */
static void digest_byte(uint8_t byte)
{
    play_digest = (play_digest ^ byte) * 0x100000001B3u;
}

static void digest_number(uint64_t value)
{
    unsigned i;

    for (i = 0; i < 8; i++)
        digest_byte((uint8_t)(value >> 8 * i));
}

static void digest_step(const struct step *s)
{
    size_t i;

    digest_byte(s->kind);
    digest_byte(s->fate);
    digest_number((uint64_t)s->length << 32 | s->out_length);
    for (i = 0; i < s->length; i++)
        digest_byte(bytes_of(s)[i]);
}

static const struct step *note(enum kind kind, const uint8_t *bytes, size_t n,
                               size_t out_length, unsigned fate)
{
    struct step *s;

    if (noted.count == noted.room) {
        noted.room = noted.room * 2 + 1024;
        noted.steps = grown(noted.steps, noted.room * sizeof *noted.steps);
    }
    if (noted.used + n > noted.bytes_room) {
        noted.bytes_room = noted.bytes_room * 2 + n;
        noted.bytes = grown(noted.bytes, noted.bytes_room);
    }
    s = &noted.steps[noted.count++];
    s->kind = (uint8_t)kind;
    s->fate = (uint8_t)fate;
    s->length = (uint32_t)n;
    s->out_length = (uint32_t)out_length;
    s->at = noted.used;
    if (n > 0)
        memcpy(noted.bytes + noted.used, bytes, n);
    noted.used += n;
    digest_step(s);
    return s;
}

static void found_in(struct play_before *b, const struct model_controller *c)
{
    unsigned i;

    memset(b, 0, sizeof *b);
    b->mode = c->mode;
    b->locked = c->locked;
    b->collecting = c->collecting;
    b->impact = c->impact;
    b->further = c->further;
    b->waiting = c->waiting;
    b->seconds = c->seconds;
    b->entry_second = c->entry_time / 1024;
    b->reference_second = c->reference_second;
    b->head_stream = c->queue[c->first].stream;
    b->head_index = c->queue[c->first].index;
    b->counts[0] = c->command_count;
    for (i = 0; i < 2; i++) {
        b->counts[1 + i] = c->broadcast_count[i];
        b->counts[3 + i] = c->command_packet_count[i];
        b->counts[5 + i] = c->telemetry_count[i];
    }
    b->error_count = c->error_count;
    for (i = 0; i < MODEL_STREAMS; i++) {
        b->open |= c->open[i].kept > 0;
        if (stream_samples(i) == c->open[i].kept + 1u)
            b->lacking |= 1u << i;
    }
}

static int do_frame(const struct step *s)
{
    uint8_t packet[SSP_PACKET_BYTES];
    struct play_before before;
    int reply;

    found_in(&before, &played.model);
    reply = exchange(&played, bytes_of(s), s->length, s->out_length);
    if (!replaying) {
        struct play_given given = {bytes_of(s), s->length, s->out_length};
        play_frames++;
        watcher->frame(&before, &played.model, &given, reply);
    }
    if (reply == 0 && bytes_of(s)[0] == 5 && s->fate == CAME) {
        memcpy(packet, out_at(s->out_length), sizeof packet);
        arrive(packet);
    }
    return reply;
}

static int do_step(const struct step *s)
{
    switch ((enum kind)s->kind) {
    case FRAME:
        return do_frame(s);
    case PACKET:
        return from_nowhere(bytes_of(s), s->length, s->out_length);
    case AGAIN:
        again(s->fate);
        break;
    case LOOK:
        look();
        break;
    }
    return 0;
}

/* Does a step that was noted, and a look each so many steps. */
static int step(const struct step *s)
{
    int reply = do_step(s);

    if (noted.count % LOOK_EVERY == 0)
        play_look();
    if (noted.count > STEPS_MOST)
        differ("steps of a session that does not end", STEPS_MOST, 0);
    return reply;
}

int play_frame(const uint8_t *frame, size_t n, size_t out_length,
               enum fate fate)
{
    return step(note(FRAME, frame, n, out_length, fate));
}

int play_packet(const uint8_t *packet, size_t n, size_t out_length)
{
    return step(note(PACKET, packet, n, out_length, 0));
}

void play_again(unsigned stream)
{
    step(note(AGAIN, NULL, 0, 0, stream));
}

void play_look(void)
{
    do_step(note(LOOK, NULL, 0, 0, 0));
}

const struct model_controller *play_controller(void)
{
    return &played.model;
}

const struct model_reader *play_reader(void)
{
    return &reader.model;
}

/* ------------------------------------------------- the shortest sequence */

static void start(void)
{
    lend(&played.lent, SSP_STATE_BYTES, noted.form);
    lend(&reader.lent, SSP_READER_BYTES, noted.form >> 2);
    at_end = (noted.form & 16) == 0;
    fill = noted.form;
    keep_before(&played.lent);
    keep_before(&reader.lent);
    if (ssp_start(played.lent.state, played.lent.length) != 0 ||
        ssp_reader_start(reader.lent.state, reader.lent.length) != 0)
        differ("reply to start", 1, 0);
    left_alone(&played.lent, SSP_STATE_BYTES);
    left_alone(&reader.lent, SSP_READER_BYTES);
    model_start(&played.model);
    model_history(&played.model, ledger_note, NULL);
    model_reader_start(&reader.model);
    ledger_start();
    memset(last_come, 0, sizeof last_come);
    ledger_off = false;
}

static void rooms_hold(void)
{
    if (!guard_holds(&played.lent.room) || !guard_holds(&reader.lent.room))
        differ("bytes around a state", 1, 0);
}

/* Whether the chosen steps, played from the start, differ. */
static bool differs(const size_t *chosen, size_t count)
{
    size_t i;

    if (sigsetjmp(out_of_step, 1) != 0)
        return true;
    start();
    for (i = 0; i < count; i++)
        do_step(&noted.steps[chosen[i]]);
    rooms_hold();
    return false;
}

/* The chosen steps without gone of them, from at on. */
static void leave_out(size_t *fewer, const size_t *chosen, size_t count,
                      size_t at, size_t gone)
{
    memcpy(fewer, chosen, at * sizeof *fewer);
    memcpy(fewer + at, chosen + at + gone,
           (count - at - gone) * sizeof *fewer);
}

/* Leaves out chunks of the sequence, of half its length and ever less, while
 * the difference stays; and again, until no step can go. */
static size_t shortened(size_t *chosen, size_t count)
{
    size_t *fewer = grown(NULL, (count + 1) * sizeof *fewer);
    size_t chunk, at, before;
    time_t end = time(NULL) + SHRINK_SECONDS;

    do {
        before = count;
        for (chunk = (count + 1) / 2; chunk > 0; chunk /= 2)
            for (at = 0; at < count && time(NULL) < end;) {
                size_t gone = chunk < count - at ? chunk : count - at;
                leave_out(fewer, chosen, count, at, gone);
                if (differs(fewer, count - gone)) {
                    count -= gone;
                    memcpy(chosen, fewer, count * sizeof *fewer);
                } else {
                    at += gone;
                }
            }
    } while (count < before && time(NULL) < end);
    free(fewer);
    return count;
}

static void print_step(const struct step *s)
{
    static const char *const names[] = {
        "frame", "packet", "the last packet again, of stream",
        "a look at all that is held"};
    size_t i;

    printf("  %s ", names[s->kind]);
    if (s->kind == AGAIN)
        printf("%X", s->fate);
    for (i = 0; i < s->length && i < SHOWN_MOST; i++)
        printf("%02X", bytes_of(s)[i]);
    if (s->length > SHOWN_MOST)
        printf("... (%lu bytes)", (unsigned long)s->length);
    if (s->kind == FRAME && s->length > 0 && bytes_of(s)[0] == 5)
        printf(s->fate == CAME ? " (to the reader)" : " (lost)");
    if (s->kind <= PACKET)
        printf(" (output of %lu)", (unsigned long)s->out_length);
    putchar('\n');
}

static void print_shortest(const char *name)
{
    size_t *chosen = grown(NULL, (noted.count + 1) * sizeof *chosen);
    size_t i, count = noted.count;

    printf("DIFFERENCE in %s at step %lu: %s\n", name,
           (unsigned long)noted.count, difference);
    for (i = 0; i < count; i++)
        chosen[i] = i;
    replaying = true;
    if (getenv("COMPARE_NO_SHRINK") == NULL) {
        count = shortened(chosen, count);
        differs(chosen, count);
        printf("the shortest sequence found, %lu steps from a fresh start "
               "(form %u): %s\n", (unsigned long)count, noted.form,
               difference);
        for (i = 0; i < count; i++)
            print_step(&noted.steps[chosen[i]]);
    }
    replaying = false;
    free(chosen);
}

bool play(const char *name, void (*session)(void))
{
    noted.count = 0;
    noted.used = 0;
    noted.form++;
    if (sigsetjmp(out_of_step, 1) != 0) {
        print_shortest(name);
        return false;
    }
    start();
    session();
    digest_number(random_next());
    play_look();
    rooms_hold();
    return true;
}

bool play_test(const char *name, bool (*test)(void))
{
    bool right;

    if (sigsetjmp(out_of_step, 1) != 0) {
        printf("DIFFERENCE in %s: %s\n", name, difference);
        return false;
    }
    right = test();
    digest_number(random_next());
    return right;
}

void play_make(const struct play_watcher *given)
{
    struct sigaction act;

    watcher = given;
    guard_make(&played.lent.room, SSP_STATE_BYTES + TAIL);
    guard_make(&looked.lent.room, SSP_STATE_BYTES + TAIL);
    guard_make(&reader.lent.room, SSP_READER_BYTES + TAIL);
    guard_make(&read_only, PLAY_LONGEST);
    guard_make(&out_room, PLAY_OUT_MOST + TAIL);
    guard_make(&looked_reader.lent.room, SSP_READER_BYTES + TAIL);
    lend(&looked.lent, SSP_STATE_BYTES, 2);
    lend(&looked_reader.lent, SSP_READER_BYTES, 2);
    memset(&act, 0, sizeof act);
    act.sa_handler = on_touch;
    sigemptyset(&act.sa_mask);
    sigaction(SIGSEGV, &act, NULL);
    sigaction(SIGBUS, &act, NULL);
}
