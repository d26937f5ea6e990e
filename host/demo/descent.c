/* descent.c: prints the frames of a descent, a line each, as bench takes them,
 * or those of a small session that the demonstration shows beside it.
 *
 *   descent TICKS      a descent
 *   descent channels   one flags byte asked on both channels, twice
 *   descent records    two impact records, a knock and a shock, polled
 *
 * The descent: a broadcast each twenty seconds from T 0 to T 9,100, with both
 * status words asked for, so many ticks and some samples (more where there are
 * more ticks); altitudes above 25 km are predicted, 7 km are passed at T 7,150,
 * the impact is at T 8,870, and packets are polled as they come (the model
 * tells how many wait).  480 ticks after the impact come at once. */
#include <stdio.h>
#include <stdlib.h>
#include <string.h>

#include "ssp.h"
#include "frames.h"
#include "lines.h"
#include "model.h"

enum { STEP = 20, IMPACT = 8870, END = 9100, LOW = 0x5A };

/* What a sound package says of itself; DDB loss is added to it. */
enum {
    SOUND = SSP_FLAG_WATCHDOG_OK | SSP_FLAG_ALL_OK | SSP_FLAG_12V_OK |
            SSP_FLAG_NOMINAL_12V
};

static struct model_controller controller;
static unsigned long given;

static void give(const uint8_t *frame, size_t n)
{
    char text[ANSWER_MOST];
    uint8_t out[MODEL_POLL];
    size_t written;

    *line_text(text, frame, n) = 0;
    puts(text);
    given++;
    model_frame(&controller, frame, n, out, sizeof out, &written);
}

/* The altitude word: 150 km at T 0, 7 km at T 7,150, 0 at impact. */
static unsigned altitude(unsigned seconds)
{
    unsigned height = seconds < 7150     ? 700 + (7150 - seconds) * 2
                      : seconds < IMPACT ? (IMPACT - seconds) * 700 /
                                               (IMPACT - 7150)
                                         : 0;

    return height > 2500 ? height + SSP_ALTITUDE_PREDICTED : height;
}

/* A shock that rings and dies away from its greatest reading, twelve bits in
 * two's complement. */
static unsigned shock(unsigned tick, int most)
{
    static const int wave[16] = {0, 38, 71, 92, 100, 92, 71, 38,
                                 0, -38, -71, -92, -100, -92, -71, -38};
    int size = tick < 12    ? most * (int)tick / 12
               : tick < 462 ? most * (462 - (int)tick) / 450
                            : 0;

    return (unsigned)(wave[tick / 4 % 16] * size / 100) & SSP_READING_MOST;
}

static void tick(unsigned reading)
{
    uint8_t frame[FRAME_MOST];

    give(frame, frame_tick(frame, reading));
}

static void poll_all(void)
{
    uint8_t frame[FRAME_MOST];

    while (controller.waiting > 0)
        give(frame, frame_poll(frame, given % 2));
}

static void ask_words(unsigned flags)
{
    uint8_t frame[FRAME_MOST];

    give(frame, frame_status(frame, 0, LOW, flags));
    give(frame, frame_status(frame, 1, LOW, flags));
}

static void take_samples(unsigned turn, unsigned rounds)
{
    static const unsigned streams[] = {SSP_STREAM_API_V, SSP_STREAM_DEN,
                                       SSP_STREAM_DEN, SSP_STREAM_PER,
                                       SSP_STREAM_TIL};
    uint8_t frame[FRAME_MOST];
    unsigned i;

    for (i = 0; i < 5 * rounds; i++)
        give(frame, frame_sample(frame, streams[i % 5], turn + i));
    if (controller.mode == SSP_MODE_SURFACE && turn % 3 == 0)
        give(frame, frame_sample(frame, SSP_STREAM_ACC_E, turn));
    if (turn % 30 == 0) {
        give(frame, frame_analogue(frame, turn));
        give(frame, frame_command(frame, 0, HOUSEKEEPING_ID, turn));
    }
}

static void descend(unsigned ticks)
{
    unsigned seconds, i, turn = 0;
    uint8_t frame[FRAME_MOST];

    for (seconds = 0; seconds <= END; seconds += STEP, turn++) {
        unsigned now = seconds > IMPACT && seconds - IMPACT < STEP ? IMPACT
                                                                   : seconds;
        give(frame, frame_broadcast(frame, turn % 2,
                                    now * SSP_TIME_WORD_UNITS, altitude(now)));
        for (i = 0; i < ticks; i++)
            tick(i * 7 % 40);
        if (now == IMPACT)
            for (i = 0; i < 480; i++)
                tick(i < 24 ? i % 9 : shock(i - 24, 1800));
        ask_words(SOUND);
        take_samples(turn, 1 + ticks / 40);
        poll_all();
    }
}

/* Bit 11 set on B alone: DDB loss in mode 2.  Then on A alone: mode 4. */
static void ask_channels(void)
{
    uint8_t frame[FRAME_MOST];

    give(frame, frame_broadcast(frame, 0, 600 * SSP_TIME_WORD_UNITS,
                                altitude(600)));
    ask_words(SOUND | SSP_FLAG_DDB_LOSS);
    give(frame, frame_broadcast(frame, 0, 7200 * SSP_TIME_WORD_UNITS,
                                altitude(7200)));
    ask_words(SOUND);
}

/* A record: mode 4 is set, and ticks come till its end leads to mode 5. */
static void record_impact(unsigned sequence, int most)
{
    uint8_t frame[FRAME_MOST];
    unsigned i;

    give(frame, frame_order(frame, 0, SSP_SET_MODE, sequence,
                            SSP_MODE_PROXIMITY));
    for (i = 0; controller.mode == SSP_MODE_PROXIMITY; i++)
        tick(i < 24 ? i % 9 : shock(i - 24, most));
    poll_all();
}

int main(int count, char **words)
{
    const char *what = count > 1 ? words[1] : "2";

    model_start(&controller);
    if (strcmp(what, "channels") == 0) {
        ask_channels();
    } else if (strcmp(what, "records") == 0) {
        record_impact(1, 120);
        record_impact(2, 1800);
    } else {
        descend((unsigned)atoi(what));
    }
    return 0;
}
