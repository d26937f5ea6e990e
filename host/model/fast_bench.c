/* fast_bench.c: program bench, made of the model with fast lines; what make
 * measure holds the proved program against. */
#define _DEFAULT_SOURCE
#include "fast_lines.h"
#include "model.h"

static struct model_controller controller;

static inline char *answer(const uint8_t *frame, size_t n, char *text)
{
    uint8_t out[MODEL_POLL], reply;
    size_t written;

    reply = (uint8_t)model_frame(&controller, frame, n, out, sizeof out,
                                 &written);
    text = fast_text(text, &reply, 1);
    return fast_text(text, out, written);
}

int main(void)
{
    model_start(&controller);
    fast_lines_answer(answer);
    return 0;
}
