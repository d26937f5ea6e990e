/* held.h: what the test of include/ has in common: a name held to a number or
 * text, and the asking of a controller. */
#ifndef HELD_H
#define HELD_H

#include <stdbool.h>
#include <stddef.h>
#include <stdint.h>

#include "ssp.h"

enum { HELD_ROOM = 32768 }; /* document 01: at most 32,768 bytes */

/* Notes that the header's name was compared, and whether it is right. */
void hold(const char *name, unsigned long header, unsigned long library);
void hold_text(const char *name, const char *header, const char *wanted);
bool was_held(const char *name);
extern unsigned held_wrong;

#define HOLDS(name, found) hold(#name, name, (unsigned long)(found))

/* One controller, and the output of the last call. */
extern uint8_t held_state[HELD_ROOM], held_out[1024];

void fresh(void);
uint8_t give(const uint8_t *frame, size_t n);
uint8_t give_order(unsigned id, unsigned value);
uint8_t give_housekeeping(void);
uint8_t give_broadcast(unsigned time, unsigned altitude);
uint8_t give_tick(unsigned reading);
uint8_t give_sample(unsigned stream, unsigned size); /* zeros */
uint8_t poll_with(unsigned channel_byte);
unsigned word_with(unsigned channel_byte, unsigned low, unsigned flags);
unsigned mode_now(void); /* by the A word */

/* The bits of a channel's word that a flag changes, in a fresh controller. */
unsigned changed_by(unsigned channel_byte, unsigned flag);

/* Three ticks that declare an impact and the 448 that complete its record. */
enum { RECORD_TICKS = 3 + 448 };
void give_record(void);

/* The parts of the test. */
void hold_layouts(void); /* layout.c */
void hold_names(void);   /* names.c */

#endif
