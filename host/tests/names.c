/* names.c: holds the names of include/ssp_names.h: each status bit's to the
 * flag that sets it in the library, by channel; the others to the words of
 * document 01 and of the manual, written out here once more. */
#include "ssp_names.h"

#include <stdio.h>
#include <string.h>

#include "held.h"

/* --------------------------------------------------------------- lists */

struct named {
    unsigned number;
    const char *text;
};

typedef const char *naming(unsigned number);

/* Every number of the list has its text, and every other one to 70,000 the
 * text of what has no name, which is no other's. */
static void hold_list(const char *name, naming *names,
                      const struct named *list, const char *unnamed)
{
    unsigned number, i;

    for (number = 0; number < 70000; number++) {
        const char *wanted = unnamed;
        for (i = 0; list[i].text != NULL; i++)
            if (list[i].number == number)
                wanted = list[i].text;
        if (strcmp(names(number), wanted) != 0)
            hold_text(name, names(number), wanted);
    }
    for (i = 1; list[i].text != NULL; i++)
        hold(name, 1, strcmp(list[i].text, list[i - 1].text) != 0);
    hold_text(name, names(list[0].number), list[0].text);
}

static const struct named kinds[] = {
    {1, "broadcast"}, {2, "command"}, {3, "tick"}, {4, "sample"}, {5, "poll"},
    {6, "status"}, {7, "analogue"}, {0, NULL}};
static const struct named channels[] = {{0x0A, "A"}, {0x0B, "B"}, {0, NULL}};
static const struct named commands[] = {
    {0x13, "clear streams"}, {0x16, "send housekeeping"}, {0x32, "set mode"},
    {0, NULL}};
static const struct named modes[] = {
    {0, "EMC"}, {1, "upper atmosphere"}, {2, "mid atmosphere"},
    {3, "lower atmosphere"}, {4, "proximity"}, {5, "surface"},
    {6, "extended surface"}, {7, "diagnostic"}, {0, NULL}};
static const struct named streams[] = {
    {2, "ACC-I"}, {4, "API-V"}, {5, "DEN"}, {6, "PER"}, {9, "TIL"},
    {10, "HK"}, {11, "ACC-E"}, {0, NULL}};
static const struct named controller_replies[] = {
    {0, "accepted"}, {1, "no frame"}, {2, "not carried"}, {3, "wrong length"},
    {4, "value out of range"}, {5, "broadcast goes back in time"},
    {6, "not taken in this mode"}, {7, "too few free queue slots"},
    {8, "output too short"}, {9, "nothing waits to be polled"},
    {10, "unfit controller state"}, {0, NULL}};
static const struct named reader_replies[] = {
    {0, "taken"}, {1, "handed out"}, {20, "no packet"},
    {21, "stream not carried"}, {22, "repeat"},
    {23, "opening, closing or fill bytes wrong"}, {24, "output too short"},
    {25, "unfit reader state"}, {0, NULL}};

/* --------------------------------------------------------- status words */

/* "Flags from bit 0"; which channel's word has the flag, by the table. */
static const struct flag {
    const char *text;
    bool on_a, on_b;
} flags[8] = {{"watchdog OK", true, false}, {"all OK", true, true},
              {"12V OK", true, false},      {"DDB loss", false, true},
              {"BCP loss", false, true},    {"redundant 12V", false, true},
              {"nominal 12V", false, true}, {"sounder", false, true}};

static void hold_flag_names(unsigned channel, unsigned bit, bool there)
{
    unsigned mask = changed_by(channel, 1u << bit);

    hold("the flag's bit is there", there, mask != 0);
    if (mask != 0)
        hold_text("ssp_status_bit_name", ssp_status_bit_name(channel, mask),
                  flags[bit].text);
}

/* The bits that no flag sets: impact, the command count's, A's mode. */
static void hold_other_bits(unsigned channel)
{
    unsigned count, before, i;

    fresh();
    give_order(SSP_SET_MODE, 4);
    count = word_with(channel, 0, 0);
    give_order(SSP_SET_MODE, 4);
    before = word_with(channel, 0, 0);
    hold_text("ssp_status_bit_name",
              ssp_status_bit_name(channel, count ^ before),
              "command count odd");
    for (i = 0; i < 3; i++)
        give_tick(500);
    hold_text("ssp_status_bit_name",
              ssp_status_bit_name(channel, word_with(channel, 0, 0) ^ before),
              "impact");
}

static void hold_mode_bits(void)
{
    static const char *const texts[3] = {"mode bit 0", "mode bit 1",
                                         "mode bit 2"};
    unsigned bit, before;

    for (bit = 0; bit < 3; bit++) {
        fresh();
        give_order(SSP_SET_MODE, 0);
        before = word_with(SSP_CHANNEL_A, 0, 0);
        give_order(SSP_SET_MODE, 0);
        give_order(SSP_SET_MODE, 1u << bit);
        hold_text("ssp_status_bit_name",
                  ssp_status_bit_name(SSP_CHANNEL_A,
                                      word_with(SSP_CHANNEL_A, 0, 0) ^ before),
                  texts[bit]);
    }
}

/* With any other channel byte, and for a mask that is not one of the bits 8
 * to 15, there is no name. */
static void hold_unnamed_bits(void)
{
    unsigned channel, mask, named = 0;

    for (channel = 0; channel < 256; channel++)
        for (mask = 0; mask < 65536; mask++)
            named += strcmp(ssp_status_bit_name(channel, mask),
                            "unknown bit") != 0;
    hold("status bits with a name", 2 * 8, named);
}

void hold_names(void)
{
    unsigned bit;

    hold_list("ssp_kind_name", ssp_kind_name, kinds, "unknown kind");
    hold_list("ssp_channel_name", ssp_channel_name, channels,
              "unknown channel");
    hold_list("ssp_command_name", ssp_command_name, commands,
              "unknown command");
    hold_list("ssp_mode_name", ssp_mode_name, modes, "unknown mode");
    hold_list("ssp_stream_name", ssp_stream_name, streams,
              "stream not carried");
    hold_list("ssp_controller_reply_name", ssp_controller_reply_name,
              controller_replies, "unknown reply");
    hold_list("ssp_reader_reply_name", ssp_reader_reply_name, reader_replies,
              "unknown reply");
    for (bit = 0; bit < 8; bit++) {
        hold_flag_names(SSP_CHANNEL_A, bit, flags[bit].on_a);
        hold_flag_names(SSP_CHANNEL_B, bit, flags[bit].on_b);
    }
    hold_other_bits(SSP_CHANNEL_A);
    hold_other_bits(SSP_CHANNEL_B);
    hold_mode_bits();
    hold_unnamed_bits();
}
