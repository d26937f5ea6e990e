/* feed.h: an input in pieces, and a program that is fed with it through pipes.
 *
 * After each piece the program must have read all that was sent, have given
 * every answer that is due and nothing more, and wait; only then the next piece
 * is sent.  So each piece is what one read brings it, or more than one where it
 * is longer than the read.  An answer is due when its line's LF was sent; that
 * of an unended last line when the input is closed.  A program that does not
 * move for 20 seconds, or FEED_SECONDS of the environment, while something is
 * due has failed. */
#ifndef FEED_H
#define FEED_H

#include <stdbool.h>
#include <stddef.h>

enum { FEED_READ = 65536 }; /* bytes of a piece that the pipe holds whole */

void input_new(void);
void input_put(const char *text, size_t n);
size_t input_length(void);

/* The piece ends here; nothing happens where it has no byte yet. */
void input_cut(void);

/* Cuts the whole input anew: pieces of least bytes, of one more and so on up to
 * most, then of least again. */
void input_recut(size_t least, size_t most);

/* Feeds the input, the rest behind the last cut too, to the program that the
 * words of command start.  Its answers must be those of the program model,
 * which gets the whole input as a file.  Says what went wrong, and returns
 * whether nothing did. */
bool feed(const char *name, char *const *model, char *const *command);

/* The pieces sent so far, in all. */
extern unsigned long feed_pieces;

#endif
