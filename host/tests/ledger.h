/* ledger.h: what the reader must hand out, kept from the model's history
 * alone (demand 3): exactly the datastream packets all of whose pieces
 * arrived, under the rule that never more than 4,094 queued pieces of a
 * stream go missing before the first arrival or between two. */
#ifndef LEDGER_H
#define LEDGER_H

#include "model.h"

enum { LEDGER_MOST_MISSING = 4094 };

struct ledger_wanted {
    bool known;           /* false once the rule was broken in this stream */
    const uint8_t *bytes; /* what is to be handed out, NULL for nothing */
    size_t length;
    uint64_t missing;     /* pieces that went missing before this one */
    bool first;           /* the first arrival of its stream */
};

void ledger_start(void);

/* The history call-back; its context is not used. */
model_history_call ledger_note;

/* The piece polled last arrives at the reader. */
struct ledger_wanted ledger_arrives(void);

#endif
