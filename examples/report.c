/* report.c: a place to start from.  Reads a session, a frame a line in hexadecimal as bench reads it, and prints
 * each finding with its line, its label and its channel.  A session and its output: session.txt, report.txt.
 *   cc -Iinclude examples/report.c target/staticlib/libssp.a -o report && ./report < examples/session.txt */
#include <stdio.h>
#include "ssp.h"
#include "ssp_names.h"

static uint8_t state[SSP_STATE_BYTES], reader[SSP_READER_BYTES];
static uint8_t frame[SSP_LONGEST_FRAME_BYTES], out[SSP_OUT_BYTES], packet[SSP_READER_OUT_BYTES];

static unsigned long number(const uint8_t *at, unsigned bytes)
{
    return bytes == 0 ? 0 : number(at, bytes - 1) * 256 + at[bytes - 1];
}

/* The value of a hexadecimal digit of either case; -1 for any other byte, CR, blanks, signs and NUL among them. */
static int digit_of(int c)
{
    return c >= '0' && c <= '9'   ? c - '0'
           : c >= 'A' && c <= 'F' ? c - 'A' + 10
           : c >= 'a' && c <= 'f' ? c - 'a' + 10
                                  : -1;
}

/* Reads one line up to its LF, however long, and puts its bytes into frame: answers how many, 0 where anything is wrong
 * with the line, for a frame with a digit lost must not become another frame; -1 at the end.  The last line may lack
 * its LF if it is not empty. */
static int next_frame(void)
{
    size_t digits = 0;
    int c, any = 0, faulty = 0;

    while ((c = getchar()) != EOF && c != '\n') {
        int value = digit_of(c);
        any = 1;
        if (value < 0 || digits == 2 * sizeof frame)
            faulty = 1;
        else {
            frame[digits / 2] = (uint8_t)(digits % 2 == 0 ? value * 16 : frame[digits / 2] + value);
            digits++;
        }
    }
    return c == EOF && !any ? -1 : faulty || digits % 2 != 0 ? 0 : (int)(digits / 2);
}

/* One mask names another thing on each channel: the channel that was asked goes with the word. */
static void print_word(unsigned channel, unsigned word)
{
    unsigned mask, mode = (word & SSP_A_MODE) / SSP_A_MODE_UNIT, told_apart = channel == SSP_CHANNEL_A ? SSP_A_MODE : 0;

    printf("status word %04X of channel %s:", word, ssp_channel_name(channel));
    for (mask = 0x8000; mask > 0x00FF; mask >>= 1)
        if ((word & mask & ~told_apart) != 0)
            printf(" [%s]", ssp_status_bit_name(channel, mask));
    if (channel == SSP_CHANNEL_A)
        printf(" [mode %u, %s]", mode, ssp_mode_name(mode));
}

static void print_altitude(const char *what, const uint8_t *at)
{
    unsigned long word = number(at, 2);

    printf(", %s %lu m (%s)", what, (word & SSP_ALTITUDE_HEIGHT) * SSP_ALTITUDE_METRES,
           word & SSP_ALTITUDE_PREDICTED ? "predicted" : "measured");
}

static void print_packet(unsigned stream)
{
    unsigned mode = packet[SSP_MODE_AT];

    printf(": %u bytes handed out, T %lu s, mode %u%s", ssp_stream_length((uint8_t)stream),
           number(packet + SSP_TIME_AT, 3) / SSP_TIME_UNITS, mode & SSP_MODE_BITS, mode & SSP_LOCKED ? " locked" : "");
    if (stream == SSP_STREAM_HK) {
        print_altitude("altitude", packet + SSP_HK_ALTITUDE_AT);
        print_altitude("at the last entry", packet + SSP_HK_ENTRY_ALTITUDE_AT);
    }
}

static void print_polled(unsigned channel)
{
    unsigned stream = out[SSP_PACKET_COUNT_AT + 1] % 16u;
    uint8_t reply = ssp_reader_packet(reader, sizeof reader, out, SSP_PACKET_BYTES, packet, sizeof packet);

    printf("polled on channel %s, piece of stream %X, %s", ssp_channel_name(channel), stream, ssp_stream_name(stream));
    if (reply == SSP_READER_HANDED_OUT)
        print_packet(stream);
    else
        printf(": %s", ssp_reader_reply_name(reply));
}

int main(void)
{
    unsigned line;
    int n;

    ssp_start(state, sizeof state);
    ssp_reader_start(reader, sizeof reader);
    for (line = 1; (n = next_frame()) >= 0; line++) {
        uint8_t reply = ssp_frame(state, sizeof state, frame, (size_t)n, out, sizeof out);
        printf("%3u: ", line);
        if (reply != SSP_CONTROLLER_ACCEPTED)
            printf("refused with %u, %s", reply, ssp_controller_reply_name(reply));
        else if (frame[0] == SSP_STATUS)
            print_word(frame[1], (unsigned)number(out, 2));
        else if (frame[0] == SSP_POLL)
            print_polled(frame[1]);
        else
            printf("accepted, %s", ssp_kind_name(frame[0]));
        putchar('\n');
    }
    /* A report that lacks its end must not pass for a whole one. */
    return ferror(stdin) || fflush(stdout) != 0 || ferror(stdout);
}
