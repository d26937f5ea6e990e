/* sessions.h: the sequences on which library and model are compared. */
#ifndef SESSIONS_H
#define SESSIONS_H

struct session {
    const char *name;
    void (*run)(void);
    unsigned times; /* in the gate */
};

/* Ends with a nameless one. */
extern const struct session sessions[];

#endif
