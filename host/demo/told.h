/* told.h: what the parts of tell share: lines read, a frame with its answer,
 * and words for an altitude, a mode and a record's readings.  Names come from
 * ssp_names.h, numbers from ssp.h. */
#ifndef TOLD_H
#define TOLD_H

#include <stddef.h>
#include <stdint.h>
#include <stdio.h>

#include "ssp.h"
#include "ssp_names.h"
#include "frames.h"
#include "lines.h"

/* Where fields stand in a frame: ssp.h lists them beside each kind. */
enum {
    CHANNEL_AT = 1,
    BROADCAST_TIME_AT = 2,
    BROADCAST_ALTITUDE_AT = 4,
    COMMAND_ID_AT = 2,
    FLAGS_AT = 3
};

/* A frame, and what bench answered to it. */
struct told {
    uint8_t frame[LINE_BYTES], out[LINE_BYTES];
    size_t length;
    unsigned reply;
};

/* Opens a file, or ends the program with a message. */
FILE *opened(const char *path);

/* A line without its LF; false at the end. */
int next_line(FILE *file, char *line, size_t most, size_t *length);

/* The next frame with its answer; false at the end of either. */
int next_told(FILE *frames, FILE *answers, struct told *t);

/* A packet's stream, and its piece's count. */
unsigned packet_stream(const uint8_t *packet);
unsigned packet_count(const uint8_t *packet);

/* What a line of reader says: the reply, and what was handed out, into bytes
 * with room for SSP_READER_OUT_BYTES; answers how many that were. */
size_t read_handed(const char *line, unsigned *reply, uint8_t *bytes);

/* The seconds T of a broadcast's time word. */
unsigned long seconds_of(unsigned long time_word);

/* "7.01 km (measured)", so that no height stands without its bit 15. */
void print_altitude(unsigned long altitude_word, int width);

/* "mode 2, mid atmosphere" */
void print_mode(unsigned mode);

/* The mode that bits 11 to 9 of a word would be, read with A's names. */
unsigned mode_in(unsigned word);

/* A reading of an impact record, with its sign. */
int reading_at(const uint8_t *record, unsigned i);

/* The greatest reading of a record, by size. */
int peak_of(const uint8_t *record);

/* A record as a plot of so many rows: a column for each eight readings, from
 * the least to the greatest of them. */
void plot_record(const uint8_t *record, int rows);

/* fears.c: the two findings under a wrong label that are feared. */
void tell_channels(FILE *frames, FILE *answers);
void tell_gap(FILE *whole, FILE *whole_said, FILE *lossy, FILE *lossy_said);

#endif
