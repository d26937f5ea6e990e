/* feed.c: an input in pieces, and a program that is fed with it through pipes.
 * For Linux, which tells of a pipe how much in it is unread and of a process
 * that it sleeps. */
#define _GNU_SOURCE
#include "feed.h"

#include <fcntl.h>
#include <poll.h>
#include <signal.h>
#include <stdio.h>
#include <stdlib.h>
#include <string.h>
#include <sys/ioctl.h>
#include <sys/wait.h>
#include <time.h>
#include <unistd.h>

unsigned long feed_pieces;

static void stop(const char *why)
{
    perror(why);
    exit(2);
}

/* ------------------------------------------------------------- texts */

struct text {
    char *at;
    size_t n, room;
};

static char *room_for(struct text *t, size_t more)
{
    if (t->room - t->n < more) {
        t->room = 2 * t->room + more;
        t->at = realloc(t->at, t->room);
        if (t->at == NULL)
            stop("memory");
    }
    return t->at + t->n;
}

static struct text input, wanted;
static size_t *ends, pieces, ends_room; /* where each piece ends */

void input_new(void)
{
    input.n = 0;
    pieces = 0;
}

void input_put(const char *text, size_t n)
{
    memcpy(room_for(&input, n), text, n);
    input.n += n;
}

size_t input_length(void)
{
    return input.n;
}

static void end_piece(size_t end)
{
    if (end == (pieces > 0 ? ends[pieces - 1] : 0))
        return;
    if (pieces == ends_room) {
        ends_room = 2 * ends_room + 64;
        ends = realloc(ends, ends_room * sizeof *ends);
        if (ends == NULL)
            stop("memory");
    }
    ends[pieces++] = end;
}

void input_cut(void)
{
    end_piece(input.n);
}

void input_recut(size_t least, size_t most)
{
    size_t step = least, at;

    pieces = 0;
    for (at = step; at < input.n; at += step) {
        end_piece(at);
        step = step < most ? step + 1 : least;
    }
}

/* --------------------------------------------------------- processes */

static pid_t start(char *const *words, int in, int out)
{
    pid_t pid = fork();

    if (pid < 0)
        stop("fork");
    if (pid == 0) {
        signal(SIGPIPE, SIG_DFL);
        if (dup2(in, 0) == 0 && dup2(out, 1) == 1)
            execvp(words[0], words);
        perror(words[0]);
        _exit(127);
    }
    return pid;
}

static bool ended_well(pid_t pid)
{
    int status;

    return waitpid(pid, &status, 0) == pid && WIFEXITED(status) &&
           WEXITSTATUS(status) == 0;
}

/* The model's answers to the whole input. */
static void ask(char *const *model)
{
    FILE *in = tmpfile(), *out = tmpfile();

    if (in == NULL || out == NULL ||
        fwrite(input.at, 1, input.n, in) != input.n || fflush(in) != 0 ||
        fseek(in, 0, SEEK_SET) != 0 ||
        !ended_well(start(model, fileno(in), fileno(out))))
        stop(model[0]);
    fseek(out, 0, SEEK_END);
    wanted.n = 0;
    room_for(&wanted, (size_t)ftell(out) + 1);
    rewind(out);
    wanted.n = fread(wanted.at, 1, wanted.room, out);
    fclose(in);
    fclose(out);
}

static pid_t pid;
static int to, from; /* our ends of its standard input and output */

static void start_program(char *const *command)
{
    int in[2], out[2];

    if (pipe(in) != 0 || pipe(out) != 0)
        stop("pipe");
    to = in[1];
    from = out[0];
    if (fcntl(to, F_SETFD, FD_CLOEXEC) != 0 ||
        fcntl(from, F_SETFD, FD_CLOEXEC) != 0 ||
        fcntl(to, F_SETPIPE_SZ, FEED_READ) < FEED_READ)
        stop("pipe");
    pid = start(command, in[0], out[1]);
    close(in[0]);
    close(out[1]);
    if (fcntl(to, F_SETFL, O_NONBLOCK) != 0 ||
        fcntl(from, F_SETFL, O_NONBLOCK) != 0)
        stop("pipe");
}

static bool sleeps(void)
{
    char name[64], told[512], *behind;
    size_t n = 0;
    FILE *f;

    sprintf(name, "/proc/%ld/stat", (long)pid);
    f = fopen(name, "r");
    if (f != NULL) {
        n = fread(told, 1, sizeof told - 1, f);
        fclose(f);
    }
    told[n] = 0;
    behind = strrchr(told, ')');
    return behind != NULL && behind[1] == ' ' && behind[2] == 'S';
}

/* Whether it has read all that was sent, and waits. */
static bool waits(void)
{
    int unread;

    return ioctl(to, FIONREAD, &unread) == 0 && unread == 0 && sleeps();
}

/* --------------------------------------------------------- the talk */

static struct text came;
static size_t same; /* so many bytes that came are those wanted */
static bool over;   /* its answers have ended */

/* Takes what there is of answers; returns whether there was any. */
static bool take(void)
{
    ssize_t n = over ? 0 : read(from, room_for(&came, 65536), 65536);

    over |= n == 0;
    came.n += n > 0 ? (size_t)n : 0;
    return n > 0;
}

/* Whether all that came is wanted. */
static bool all_same(void)
{
    while (same < came.n && same < wanted.n && came.at[same] == wanted.at[same])
        same++;
    return same == came.n;
}

/* How long nothing may happen while something is due. */
static double patience(void)
{
    const char *seconds = getenv("FEED_SECONDS");

    return seconds != NULL ? atof(seconds) : 20;
}

static double now(void)
{
    struct timespec t;

    clock_gettime(CLOCK_MONOTONIC, &t);
    return (double)t.tv_sec + (double)t.tv_nsec / 1e9;
}

static void doze(bool sending)
{
    static const struct timespec moment = {0, 50000};
    struct pollfd ready[2] = {{from, POLLIN, 0}, {to, POLLOUT, 0}};

    ppoll(ready, sending ? 2 : 1, &moment, NULL);
}

/* Sends the input up to end and waits for the answers up to due, or closes the
 * input and waits for the end.  Returns what is wrong, or NULL. */
static const char *talk(size_t *sent, size_t end, size_t due, bool last)
{
    double since = now();
    bool closed = false;

    for (;;) {
        bool moved = take();
        ssize_t n = *sent < end ? write(to, input.at + *sent, end - *sent) : 0;

        if (n > 0) {
            *sent += (size_t)n;
            moved = true;
        }
        if (last && *sent == end && !closed) {
            close(to);
            closed = true;
        }
        if (!all_same())
            return "another answer than is due";
        if (came.n > due)
            return "an answer before its line's end";
        if (over)
            return last && came.n == due ? NULL : "it ended";
        if (!last && *sent == end && came.n == due && waits() && !take())
            return NULL;
        if (moved)
            since = now();
        else if (now() - since > patience())
            return came.n < due ? "an answer is missing"
                                : "it neither reads on nor ends";
        else
            doze(*sent < end);
    }
}

/* Of a text the line in which a byte stands, and what it has up to there and
 * a little more. */
static void tell_line(const char *what, const struct text *t, size_t at)
{
    size_t begin = at, end = at, lines = 1, i;

    while (begin > 0 && t->at[begin - 1] != '\n')
        begin--;
    for (i = 0; i < begin; i++)
        lines += t->at[i] == '\n';
    if (at - begin > 40)
        begin = at - 40;
    while (end < t->n && end < at + 20 && t->at[end] != '\n')
        end++;
    printf("  %s, line %lu: \"%.*s\"\n", what, (unsigned long)lines,
           (int)(end - begin), t->at + begin);
}

/* Where the answers up to a place of the input end, from those before. */
static size_t due_at(size_t due, size_t from_here, size_t end)
{
    size_t i;

    for (i = from_here; i < end; i++) {
        if (input.at[i] != '\n')
            continue;
        while (due < wanted.n && wanted.at[due] != '\n')
            due++;
        if (due++ == wanted.n)
            stop("the model gives too few answers");
    }
    return due;
}

bool feed(const char *name, char *const *model, char *const *command)
{
    size_t piece, sent = 0, due = 0;
    const char *wrong = NULL;

    input_cut();
    ask(model);
    signal(SIGPIPE, SIG_IGN);
    start_program(command);
    came.n = same = 0;
    over = false;
    for (piece = 0; piece < pieces && wrong == NULL; piece++) {
        due = due_at(due, sent, ends[piece]);
        wrong = talk(&sent, ends[piece], due, false);
    }
    if (wrong == NULL)
        wrong = talk(&sent, sent, wanted.n, true);
    else
        close(to);
    close(from);
    if (wrong != NULL)
        kill(pid, SIGKILL);
    if (!ended_well(pid) && wrong == NULL)
        wrong = "its exit status is not 0";
    if (wrong != NULL) {
        printf("DIFFERENCE in %s, after %lu of %lu pieces: %s\n", name,
               (unsigned long)piece, (unsigned long)pieces, wrong);
        tell_line("due", &wanted, same);
        tell_line("came", &came, same);
    }
    feed_pieces += pieces;
    return wrong == NULL;
}
