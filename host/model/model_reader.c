/* model_reader.c: program reader, made of the model and written to be read:
 * what the proved program must answer; for make measure too. */
#include "lines.h"
#include "model.h"

static struct model_reader reader;

static char *answer(const uint8_t *packet, size_t n, char *text)
{
    uint8_t out[MODEL_LONGEST];
    size_t written;
    int reply = model_reader_packet(&reader, packet, n, out, sizeof out,
                                    &written);

    if (reply >= 10)
        *text++ = (char)('0' + reply / 10);
    *text++ = (char)('0' + reply % 10);
    if (written > 0)
        *text++ = ' ';
    return line_text(text, out, written);
}

int main(void)
{
    model_reader_start(&reader);
    lines_answer(answer);
    return 0;
}
