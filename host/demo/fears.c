/* fears.c: tells of the two findings under a wrong label that are feared most:
 * a word of one channel read with the other's names, and two halves of a
 * record joined across a gap. */
#include <stdlib.h>
#include <string.h>

#include "told.h"

/* ------------------------------------------------ one bit, two names */

/* What a word says, read with a channel's names: its own, or the other's. */
static void print_read(unsigned word, unsigned channel)
{
    unsigned mask;
    const char *between = "";

    for (mask = SSP_A_IMPACT; mask > SSP_A_LOW; mask >>= 1) {
        if ((word & mask) == 0 ||
            (channel == SSP_CHANNEL_A && (mask & SSP_A_MODE) != 0))
            continue;
        printf("%s%s", between, ssp_status_bit_name(channel, mask));
        between = "; ";
    }
    if (channel == SSP_CHANNEL_A) {
        printf("%s", between);
        print_mode(mode_in(word));
    }
    putchar('\n');
}

static void tell_pair(unsigned flags, unsigned a, unsigned b)
{
    unsigned mask, bit = 15;

    printf("\n  Flags %02X asked on both channels, in ", flags);
    print_mode(mode_in(a));
    printf(":\n\n    bit   A word %04X             B word %04X\n", a, b);
    for (mask = SSP_A_IMPACT; mask > SSP_A_LOW; mask >>= 1, bit--)
        printf("    %3u   %d  %-20s %d  %s%s\n", bit, (a & mask) != 0,
               ssp_status_bit_name(SSP_CHANNEL_A, mask), (b & mask) != 0,
               ssp_status_bit_name(SSP_CHANNEL_B, mask),
               mask == SSP_B_DDB_LOSS ? "   <- one bit, two meanings" : "");
    printf("\n    the A word says:                         ");
    print_read(a, SSP_CHANNEL_A);
    printf("    the B word says:                         ");
    print_read(b, SSP_CHANNEL_B);
    printf("    WRONG, the B word read with A's names:   ");
    print_read(b, SSP_CHANNEL_A);
    printf("    WRONG, the A word read with B's names:   ");
    print_read(a, SSP_CHANNEL_B);
    putchar('\n');
}

/* What the wrong names would have put into a report. */
static void tell_claim(unsigned a, unsigned b)
{
    const char *loss = ssp_status_bit_name(SSP_CHANNEL_B, SSP_B_DDB_LOSS);

    printf("    So the B word under A's names would claim ");
    print_mode(mode_in(b));
    printf(", of a package in ");
    print_mode(mode_in(a));
    if ((b & SSP_B_DDB_LOSS) != 0)
        printf(", and would hide\n    its %s.\n",
               loss);
    else
        printf(";\n    and the A word under B's names would claim %s, which "
               "was not said.\n", loss);
}

void tell_channels(FILE *frames, FILE *answers)
{
    struct told t;
    unsigned a = 0, a_flags = 0, pairs = 0, differ = 0;

    while (next_told(frames, answers, &t)) {
        unsigned word = (unsigned)number(t.out, SSP_STATUS_WORD_BYTES);
        if (t.reply != SSP_CONTROLLER_ACCEPTED || t.frame[0] != SSP_STATUS)
            continue;
        if (t.frame[CHANNEL_AT] == SSP_CHANNEL_A) {
            a = word;
            a_flags = t.frame[FLAGS_AT];
        } else if (t.frame[FLAGS_AT] == a_flags) {
            tell_pair(a_flags, a, word);
            tell_claim(a, word);
            pairs++;
            differ += ((a ^ word) & SSP_B_DDB_LOSS) != 0;
        }
    }
    if (pairs == 0 || differ != pairs) {
        printf("FAILED: bit 11 was to differ between the channels\n");
        exit(1);
    }
}

/* ------------------------------------------- a record with a piece lost */

/* A recording: packets in the order polled, and what reader said to each. */
enum { PACKETS_MOST = 64 };

struct recording {
    unsigned n;
    uint8_t packets[PACKETS_MOST][LINE_BYTES];
    unsigned replies[PACKETS_MOST];
    size_t lengths[PACKETS_MOST];
    uint8_t handed[PACKETS_MOST][SSP_READER_OUT_BYTES];
};

static struct recording whole, lossy;

static void read_recording(struct recording *r, FILE *packets, FILE *said)
{
    char line[ANSWER_MOST];
    size_t digits;

    for (r->n = 0; r->n < PACKETS_MOST; r->n++) {
        if (!next_line(packets, line, sizeof line, &digits) ||
            line_bytes(line, digits, r->packets[r->n]) != SSP_PACKET_BYTES ||
            !next_line(said, line, sizeof line, &digits))
            return;
        r->lengths[r->n] = read_handed(line, &r->replies[r->n],
                                       r->handed[r->n]);
    }
}

/* What reader said to a packet, in a column of so many characters. */
static void print_reply(const struct recording *r, unsigned i, int width)
{
    char text[80];

    if (r->lengths[i] > 0)
        sprintf(text, "%u, %.20s: %u bytes", r->replies[i],
                ssp_reader_reply_name(r->replies[i]),
                (unsigned)r->lengths[i]);
    else
        sprintf(text, "%u, %.60s", r->replies[i],
                ssp_reader_reply_name(r->replies[i]));
    printf("%-*s", width, text);
}

static unsigned pieces_of_record(void)
{
    return stream_pieces(SSP_STREAM_ACC_I);
}

/* Both recordings, piece beside piece by its count. */
static void tell_replies(void)
{
    unsigned i, j = 0, pieces = pieces_of_record();

    printf("\n                  the whole recording         the same, a piece "
           "lost\n");
    for (i = 0; i < whole.n; i++) {
        unsigned count = packet_count(whole.packets[i]);
        if (count % pieces == 0)
            printf("  record %u\n", count / pieces + 1);
        printf("    piece %u of %u  ", count % pieces + 1, pieces);
        print_reply(&whole, i, 28);
        if (j < lossy.n && packet_count(lossy.packets[j]) == count)
            print_reply(&lossy, j++, 0);
        else
            printf("(lost)");
        putchar('\n');
    }
}

/* What was handed out of a recording: how many, and the n-th. */
static unsigned handed_out(const struct recording *r, unsigned n,
                           const uint8_t **record)
{
    unsigned i, count = 0;

    for (i = 0; i < r->n; i++)
        if (r->replies[i] == SSP_READER_HANDED_OUT) {
            if (count == n)
                *record = r->handed[i];
            count++;
        }
    return count;
}

/* The pieces that came first, one behind the other as if none were missing:
 * what nobody may hand out. */
static const uint8_t *joined(void)
{
    static uint8_t bytes[PACKETS_MOST * SSP_PIECE_BYTES];
    unsigned i;

    for (i = 0; i < pieces_of_record(); i++)
        memcpy(bytes + i * SSP_PIECE_BYTES,
               lossy.packets[i] + SSP_PACKET_PIECE_AT, SSP_PIECE_BYTES);
    return bytes;
}

void tell_gap(FILE *whole_packets, FILE *whole_said, FILE *lossy_packets,
              FILE *lossy_said)
{
    const uint8_t *first = NULL, *second = NULL, *kept = NULL;

    read_recording(&whole, whole_packets, whole_said);
    read_recording(&lossy, lossy_packets, lossy_said);
    tell_replies();
    if (lossy.n + 1 != whole.n || handed_out(&whole, 0, &first) != 2 ||
        handed_out(&whole, 1, &second) != 2 ||
        handed_out(&lossy, 0, &kept) != 1 ||
        memcmp(kept, second, SSP_READER_OUT_BYTES) != 0) {
        printf("FAILED: of the recording with a lost piece the second record "
               "alone was to be handed out\n");
        exit(1);
    }
    printf("\n  Behind the gap the count is two above the last, not one: what was "
           "gathered of record 1 is dropped,\n  its later pieces are noted and "
           "not kept, and nothing of it is handed out. Record 2 begins anew and "
           "is\n  handed out, the same %u bytes as from the whole recording.\n",
           SSP_READER_OUT_BYTES);
    printf("\n  Record 1 as it was, a knock; its greatest reading by size is %d:\n",
           peak_of(first));
    plot_record(first, 9);
    printf("\n  NOT A FINDING: the first %u pieces of the recording with the "
           "gap, joined here as they came, which\n  the reader does not do. By "
           "size the greatest \"reading\" is %d, an impact that never happened:\n",
           pieces_of_record(), peak_of(joined()));
    plot_record(joined(), 9);
}
