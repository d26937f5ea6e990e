/* model_bench.c: program bench, made of the model and written to be read:
 * what the proved program must answer; for make measure too. */
#include "lines.h"
#include "model.h"

static struct model_controller controller;

static char *answer(const uint8_t *frame, size_t n, char *text)
{
    uint8_t out[MODEL_POLL], reply;
    size_t written;

    reply = (uint8_t)model_frame(&controller, frame, n, out, sizeof out,
                                 &written);
    text = line_text(text, &reply, 1);
    return line_text(text, out, written);
}

int main(void)
{
    model_start(&controller);
    lines_answer(answer);
    return 0;
}
