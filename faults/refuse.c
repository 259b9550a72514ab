/* Stands before the allocations of the program (LD_PRELOAD) and refuses them by number, from 1:
 * one alone, or all from one on. It runs the program once for each number of a range, each run a
 * fork of the same process, and tells on a pipe how each run ended and what it wrote.
 *
 * REFUSE_FIRST, REFUSE_LAST: the range; 0 and 0 run it once and refuse none.
 * REFUSE_ON: 1 where all allocations from the number on are refused, 0 for that one alone.
 * REFUSE_TO: the pipe. A record is five numbers of 64 bits (the number, the status as waitpid gives
 * it, how many allocations there were, how many bytes the two streams have) and those bytes.
 * Standard input has to be a file that is read from its start, and the two streams files that are
 * cut to nothing before each run. */
#define _GNU_SOURCE
#include <signal.h>
#include <stdint.h>
#include <stdlib.h>
#include <sys/mman.h>
#include <sys/wait.h>
#include <unistd.h>

extern void *__libc_malloc(size_t size);
extern void *__libc_realloc(void *block, size_t size);

static int64_t *made;   /* how many allocations the run made so far; shared with the runs */
static int64_t refused; /* the number that is refused, or 0 */
static int on;          /* whether all after it are too */

static int is_refused(void) {
    if (!made) return 0;
    int64_t number = ++*made;
    return refused && (on ? number >= refused : number == refused);
}

void *malloc(size_t size) { return is_refused() ? NULL : __libc_malloc(size); }

void *realloc(void *block, size_t size) { return is_refused() ? NULL : __libc_realloc(block, size); }

static int64_t number_of(const char *name) {
    const char *text = getenv(name);
    return text ? atoll(text) : 0;
}

static void send_all(int to, const void *bytes, size_t count) {
    const char *at = bytes;
    while (count > 0) {
        ssize_t sent = write(to, at, count);
        if (sent <= 0) _exit(99);
        at += sent;
        count -= (size_t)sent;
    }
}

static void send_file(int to, int from, int64_t count) {
    static char piece[65536];
    lseek(from, 0, SEEK_SET);
    while (count > 0) {
        ssize_t got = read(from, piece, sizeof piece);
        if (got <= 0) _exit(98);
        send_all(to, piece, (size_t)got);
        count -= got;
    }
}

__attribute__((constructor)) static void serve(void) {
    int64_t first = number_of("REFUSE_FIRST"), last = number_of("REFUSE_LAST");
    int to = (int)number_of("REFUSE_TO");
    int64_t *shared = mmap(NULL, sizeof *shared, PROT_READ | PROT_WRITE, MAP_SHARED | MAP_ANONYMOUS, -1, 0);
    if (shared == MAP_FAILED) _exit(97);
    on = (int)number_of("REFUSE_ON");
    for (int64_t number = first; number <= last; number++) {
        lseek(0, 0, SEEK_SET);
        for (int stream = 1; stream <= 2; stream++) {
            lseek(stream, 0, SEEK_SET);
            if (ftruncate(stream, 0)) _exit(96);
        }
        *shared = 0;
        pid_t run = fork();
        if (run == 0) {
            made = shared;
            refused = number;
            close(to);
            alarm(60); /* a run that does not end is killed, and told of as any other */
            return;
        }
        int status = 0;
        if (run < 0 || waitpid(run, &status, 0) != run) _exit(95);
        int64_t head[5] = {number, status, *shared, lseek(1, 0, SEEK_END), lseek(2, 0, SEEK_END)};
        send_all(to, head, sizeof head);
        send_file(to, 1, head[3]);
        send_file(to, 2, head[4]);
    }
    _exit(0);
}
