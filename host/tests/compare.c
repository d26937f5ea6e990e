/* compare.c: compares the library with the model.
 *
 *   compare [SEED [ROUNDS]]
 *
 * Plays every session its number of times for each round; the same seed makes
 * the same sequences with every compiler, which the digest at the end shows.
 * Ends with what came how often; the exit status is not zero on a difference,
 * or where something never came. */
#include <stdio.h>
#include <stdlib.h>

#include "cover.h"
#include "random.h"
#include "sessions.h"
#include "states.h"

enum { LEAST_FRAMES = 2000000, LEAST_PACKETS = 500000 };

/* Each session once, then again those that are played more often: what one
 * playing of a session shows is shown early. */
static bool play_round(unsigned long seed, bool told)
{
    const struct session *s;
    unsigned long i;
    bool more = true;

    for (i = 0; more; i++)
        for (more = false, s = sessions; s->name != NULL; s++) {
            if (i >= s->times)
                continue;
            random_seed(seed + 101 * i);
            if (!play(s->name, s->run))
                return false;
            more |= i + 1 < s->times;
            if (told && i == 0)
                printf("%s: %lu frames, %lu packets so far\n", s->name,
                       play_frames, play_packets);
            fflush(stdout);
        }
    return true;
}

static bool play_all(unsigned long seed, unsigned long rounds)
{
    unsigned long round;

    for (round = 0; round < rounds; round++)
        if (!play_round(seed + 1000003 * round, round == 0))
            return false;
    return true;
}

int main(int count, char **words)
{
    unsigned long seed = count > 1 ? strtoul(words[1], NULL, 10) : 1;
    unsigned long rounds = count > 2 ? strtoul(words[2], NULL, 10) : 1;
    bool right;

    play_make(&cover_watcher);
    right = play_all(seed, rounds) &&
            play_test("states of each length", states_of_each_length) &&
            play_test("damaged states", states_damaged);
    if (right && !cover_report()) {
        printf("compare: not everything came\n");
        right = false;
    }
    if (right && (play_frames < LEAST_FRAMES || play_packets < LEAST_PACKETS)) {
        printf("compare: too few frames or packets\n");
        right = false;
    }
    printf("compare: %s, seed %lu: %lu frames, %lu packets, %lu looks, "
           "digest %016llX\n", right ? "no difference" : "FAILED", seed,
           play_frames, play_packets, play_looks,
           (unsigned long long)play_digest);
    return right ? 0 : 1;
}
