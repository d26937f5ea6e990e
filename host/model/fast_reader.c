/* fast_reader.c: program reader, made of the model with fast lines; what make
 * measure holds the proved program against. */
#define _DEFAULT_SOURCE
#include "fast_lines.h"
#include "model.h"

static struct model_reader reader;

static inline char *answer(const uint8_t *packet, size_t n, char *text)
{
    uint8_t out[MODEL_LONGEST];
    size_t written;
    int reply = model_reader_packet(&reader, packet, n, out, sizeof out,
                                    &written);

    if (reply >= 10)
        *text++ = (char)('0' + reply / 10);
    *text++ = (char)('0' + reply % 10);
    if (written == 0)
        return text;
    *text++ = ' ';
    return fast_text(text, out, written);
}

int main(void)
{
    model_reader_start(&reader);
    fast_lines_answer(answer);
    return 0;
}
