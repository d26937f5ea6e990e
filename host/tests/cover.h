/* cover.h: how often each reply, each kind of frame and packet, each change of
 * mode and each special situation came.  A run in which one never came has
 * not tested it, and fails. */
#ifndef COVER_H
#define COVER_H

#include "play.h"

/* Situations that are seen from outside the steps. */
enum cover_outside {
    COVER_STATE_LENGTHS,
    COVER_OUT_LENGTHS,
    COVER_READER_LENGTHS,
    COVER_READER_OUT_LENGTHS,
    COVER_STATE_10,
    COVER_STATE_BEHAVES,
    COVER_READER_25,
    COVER_READER_BEHAVES,
    COVER_LONG_STATES,
    COVER_LONG_OUTPUTS,
    COVER_READER_LONG_STATES,
    COVER_READER_LONG_OUTPUTS,
    COVER_OUTSIDE
};

void cover_outside(enum cover_outside situation);

/* Notes what a session's steps are told. */
extern const struct play_watcher cover_watcher;

/* Prints all; false where something never came. */
bool cover_report(void);

#endif
