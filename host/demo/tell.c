/* tell.c: tells in plain words what the programs bench and reader showed, or
 * the same programs made of the model.
 *
 *   tell session FRAMES ANSWERS    each frame and its answer
 *   tell channels FRAMES ANSWERS   one flags byte asked on both channels
 *   tell descent FRAMES ANSWERS PACKETS HANDED
 *                                  modes, status words, packets and a plot of
 *                                  the impact record
 *   tell gap WHOLE HANDED LOSSY HANDED
 *                                  a recording and the same with a piece lost
 *
 * FRAMES are the lines that bench was given, ANSWERS what it printed; PACKETS,
 * WHOLE and LOSSY are the lines that reader was given, HANDED what it printed.
 * Nothing else is known here.  The exit status is 1 where something is not as
 * it must be. */
#include <stdlib.h>
#include <string.h>

#include "told.h"

/* --------------------------------------------------------- status words */

static int is_word(const struct told *t)
{
    return t->reply == SSP_CONTROLLER_ACCEPTED && t->frame[0] == SSP_STATUS;
}

/* A word with the names of the channel that was asked; the mode's bits are
 * told as a number. */
static void print_word(unsigned channel, unsigned word)
{
    unsigned mask;

    printf("word %04X of channel %s:", word, ssp_channel_name(channel));
    for (mask = SSP_A_IMPACT; mask > SSP_A_LOW; mask >>= 1)
        if ((word & mask) != 0 &&
            !(channel == SSP_CHANNEL_A && (mask & SSP_A_MODE) != 0))
            printf(" %s;", ssp_status_bit_name(channel, mask));
    if (channel == SSP_CHANNEL_A) {
        printf(" ");
        print_mode(mode_in(word));
        printf(";");
    }
    printf(" low byte %02X", word & SSP_A_LOW);
}

/* -------------------------------------------------------------- session */

static void tell_frame(const struct told *t)
{
    unsigned kind = t->length > 0 ? t->frame[0] : 0;

    printf("%s", t->length == 0 ? "an empty line" : ssp_kind_name(kind));
    if (kind == SSP_BROADCAST && t->length == SSP_BROADCAST_FRAME_BYTES) {
        printf(", T %lu s, altitude ",
               seconds_of(number(t->frame + BROADCAST_TIME_AT, 2)));
        print_altitude(number(t->frame + BROADCAST_ALTITUDE_AT, 2), 0);
    }
    if (kind == SSP_COMMAND && t->length >= SSP_COMMAND_FRAME_BYTES)
        printf(" %04lX, %s", number(t->frame + COMMAND_ID_AT, 2),
               ssp_command_name((unsigned)number(t->frame + COMMAND_ID_AT, 2)));
    printf(" -> ");
    if (is_word(t))
        print_word(t->frame[CHANNEL_AT], (unsigned)number(t->out, 2));
    else if (t->reply == SSP_CONTROLLER_ACCEPTED)
        printf("%s", ssp_controller_reply_name(t->reply));
    else
        printf("refused with %u: %s", t->reply,
               ssp_controller_reply_name(t->reply));
    putchar('\n');
}

static void tell_session(FILE *frames, FILE *answers)
{
    struct told t;

    while (next_told(frames, answers, &t)) {
        printf("  ");
        tell_frame(&t);
    }
}

/* -------------------------------------------------------------- descent */

static void tell_change(unsigned long seconds, unsigned long altitude,
                        unsigned old, unsigned word)
{
    printf("  T %5lu s, ", seconds);
    print_altitude(altitude, 6);
    printf(":");
    if ((old ^ word) & SSP_A_IMPACT & word)
        printf(" impact declared;");
    printf(" ");
    print_mode(mode_in(word));
    putchar('\n');
}

/* Modes and when they changed, by the A words; the last words, A's first. */
static void tell_modes(FILE *frames, FILE *answers, unsigned *last_words)
{
    struct told t;
    unsigned long seconds = 0, altitude = 0, given = 0, polled = 0;
    unsigned watched = SSP_A_IMPACT | SSP_A_MODE;

    while (next_told(frames, answers, &t)) {
        given++;
        if (t.reply != SSP_CONTROLLER_ACCEPTED)
            continue;
        if (t.frame[0] == SSP_BROADCAST) {
            seconds = seconds_of(number(t.frame + BROADCAST_TIME_AT, 2));
            altitude = number(t.frame + BROADCAST_ALTITUDE_AT, 2);
        } else if (t.frame[0] == SSP_STATUS) {
            unsigned word = (unsigned)number(t.out, 2);
            int a = t.frame[CHANNEL_AT] == SSP_CHANNEL_A;
            unsigned *last = &last_words[a ? 0 : 1];
            if (a && ((*last ^ word) & watched) != 0)
                tell_change(seconds, altitude, *last, word);
            *last = word;
        } else if (t.frame[0] == SSP_POLL) {
            polled++;
        }
    }
    printf("%lu frames were given, and %lu packets polled.\n\n", given,
           polled);
}

/* What the reader handed out, by stream; the last impact record is kept. */
static int tell_packets(FILE *packets, FILE *handed, uint8_t *record)
{
    unsigned long counts[16] = {0};
    char packet_line[ANSWER_MOST], line[ANSWER_MOST];
    uint8_t packet[LINE_BYTES], bytes[SSP_READER_OUT_BYTES];
    size_t length, sizes[16] = {0};
    unsigned stream, reply;
    int found = 0;

    while (next_line(packets, packet_line, sizeof packet_line, &length) &&
           line_bytes(packet_line, length, packet) == SSP_PACKET_BYTES &&
           next_line(handed, line, sizeof line, &length)) {
        length = read_handed(line, &reply, bytes);
        if (reply != SSP_READER_HANDED_OUT)
            continue;
        stream = packet_stream(packet);
        counts[stream]++;
        sizes[stream] = length;
        if (stream == SSP_STREAM_ACC_I && length == SSP_READER_OUT_BYTES) {
            memcpy(record, bytes, length);
            found = 1;
        }
    }
    for (stream = 0; stream < 16; stream++)
        if (counts[stream] > 0)
            printf("  %4lu of %-6s %4lu bytes each\n", counts[stream],
                   ssp_stream_name(stream), (unsigned long)sizes[stream]);
    return found;
}

static void tell_descent(FILE *frames, FILE *answers, FILE *packets,
                         FILE *handed)
{
    uint8_t record[SSP_READER_OUT_BYTES];
    unsigned last_words[2] = {0, 0};
    unsigned long time;

    printf("The modes, as the status words of channel A show them:\n");
    tell_modes(frames, answers, last_words);
    printf("The last status words, each with the names of its own "
           "channel:\n  ");
    print_word(SSP_CHANNEL_A, last_words[0]);
    printf("\n  ");
    print_word(SSP_CHANNEL_B, last_words[1]);
    printf("\n\nDatastream packets that the reader put together and handed "
           "out:\n");
    if (!tell_packets(packets, handed, record)) {
        printf("no impact record was handed out\n");
        exit(1);
    }
    time = number(record + SSP_TIME_AT, 3);
    printf("\nThe impact record of %s, SSP time %lu (T %lu s), accelerometer "
           "readings:\n", ssp_stream_name(SSP_STREAM_ACC_I), time,
           time / SSP_TIME_UNITS);
    plot_record(record, 17);
}

int main(int count, char **words)
{
    const char *part = count > 1 ? words[1] : "";

    /* A line is seen as it is told, in a pipe too. */
    setvbuf(stdout, NULL, _IOLBF, BUFSIZ);
    if (count == 4 && strcmp(part, "session") == 0)
        tell_session(opened(words[2]), opened(words[3]));
    else if (count == 4 && strcmp(part, "channels") == 0)
        tell_channels(opened(words[2]), opened(words[3]));
    else if (count == 6 && strcmp(part, "descent") == 0)
        tell_descent(opened(words[2]), opened(words[3]), opened(words[4]),
                     opened(words[5]));
    else if (count == 6 && strcmp(part, "gap") == 0)
        tell_gap(opened(words[2]), opened(words[3]), opened(words[4]),
                 opened(words[5]));
    else
        return 2;
    return 0;
}
