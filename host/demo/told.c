/* told.c: what the parts of tell share. */
#include "told.h"

#include <stdlib.h>
#include <string.h>

/* ------------------------------------------------------------- reading */

FILE *opened(const char *path)
{
    FILE *file = fopen(path, "r");

    if (file == NULL) {
        perror(path);
        exit(2);
    }
    return file;
}

int next_line(FILE *file, char *line, size_t most, size_t *length)
{
    if (fgets(line, (int)most, file) == NULL)
        return 0;
    *length = strcspn(line, "\n");
    return 1;
}

int next_told(FILE *frames, FILE *answers, struct told *t)
{
    char line[ANSWER_MOST];
    size_t digits;

    if (!next_line(frames, line, sizeof line, &digits))
        return 0;
    t->length = line_bytes(line, digits, t->frame);
    if (!next_line(answers, line, sizeof line, &digits))
        return 0;
    line_bytes(line, digits, t->out);
    t->reply = t->out[0];
    memmove(t->out, t->out + 1, sizeof t->out - 1);
    return 1;
}

unsigned packet_stream(const uint8_t *packet)
{
    return (unsigned)number(packet + SSP_PACKET_COUNT_AT, 2) % 16;
}

unsigned packet_count(const uint8_t *packet)
{
    return (unsigned)number(packet + SSP_PACKET_COUNT_AT, 2) / 16;
}

/* A handed-out packet is longer than a line of a frame may be, so its digits
 * are read in two parts. */
size_t read_handed(const char *line, unsigned *reply, uint8_t *bytes)
{
    char *at;
    size_t digits, first;

    *reply = (unsigned)strtoul(line, &at, 10);
    if (*at != ' ')
        return 0;
    at++;
    digits = strcspn(at, "\n");
    if (digits > 2 * SSP_READER_OUT_BYTES)
        return 0;
    first = digits < 2 * LINE_BYTES ? digits : 2 * LINE_BYTES;
    return line_bytes(at, first, bytes) +
           line_bytes(at + first, digits - first, bytes + first / 2);
}

/* --------------------------------------------------------------- words */

unsigned long seconds_of(unsigned long time_word)
{
    return time_word / SSP_TIME_WORD_UNITS;
}

void print_altitude(unsigned long word, int width)
{
    printf("%*.2f km (%s)", width,
           (double)((word & SSP_ALTITUDE_HEIGHT) * SSP_ALTITUDE_METRES) / 1000,
           word & SSP_ALTITUDE_PREDICTED ? "predicted" : "measured");
}

void print_mode(unsigned mode)
{
    printf("mode %u, %s", mode, ssp_mode_name(mode));
}

unsigned mode_in(unsigned word)
{
    return (word & SSP_A_MODE) / SSP_A_MODE_UNIT;
}

/* -------------------------------------------------------------- records */

enum { COLUMNS = 64, PER_COLUMN = SSP_ACC_I_READINGS / COLUMNS };

int reading_at(const uint8_t *record, unsigned i)
{
    unsigned long two = number(record + SSP_DATA_AT + i / 2 * 3, 3);
    int reading = (int)(i % 2 == 0 ? two / SSP_READING_SPAN
                                   : two % SSP_READING_SPAN);

    return reading >= SSP_READING_NEGATIVE ? reading - SSP_READING_SPAN
                                           : reading;
}

int peak_of(const uint8_t *record)
{
    int peak = 0;
    unsigned i;

    for (i = 0; i < SSP_ACC_I_READINGS; i++)
        if (abs(reading_at(record, i)) > peak)
            peak = abs(reading_at(record, i));
    return peak;
}

void plot_record(const uint8_t *record, int rows)
{
    int least[COLUMNS], most[COLUMNS], peak = peak_of(record), row;
    unsigned i;

    for (i = 0; i < SSP_ACC_I_READINGS; i++) {
        int reading = reading_at(record, i), *l = &least[i / PER_COLUMN],
            *m = &most[i / PER_COLUMN];
        *l = i % PER_COLUMN == 0 || reading < *l ? reading : *l;
        *m = i % PER_COLUMN == 0 || reading > *m ? reading : *m;
    }
    for (row = rows / 2; row >= -(rows / 2); row--) {
        int level = row * peak / (rows / 2);
        printf("  %6d |", level);
        for (i = 0; i < COLUMNS; i++)
            putchar(least[i] <= level && level <= most[i] ? '#'
                    : row == 0                            ? '-'
                                                          : ' ');
        putchar('\n');
    }
    printf("         +%.*s> %d readings, oldest first\n", COLUMNS / 2,
           "----------------------------------------------------------------",
           SSP_ACC_I_READINGS);
}
