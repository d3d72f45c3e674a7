/* What the device takes for 16 saves one after the other, and for 16 saves as a batch that share three syncs. This measures
   the system's calls for a file, as `accessd` makes them, and nothing of `accessd` itself: no datagram, no lease, no book.
       cc -O2 -o measure_saves scripts/measure/measure_saves.c && ./measure_saves [FOLDER [ROUNDS]]
   FOLDER, the current one by default, gets a file of 16 regions, which is removed at the end; it decides what is measured: in
   memory (/dev/shm) a sync costs nothing. ROUNDS is 100 by default. Each round makes 16 saves one by one, and a batch of 16.

   A save writes to the half of a slot that does not count: a 0 closes its gate, then come the 255 bytes after the gate, and a
   byte that opens it (docs/FORMATS.md, "The disk"). After each of these three writes there is a sync of the file's data. A
   batch makes the first write of all its saves, then one sync, and so on: 51 calls, where saves one by one make 96. */
#define _GNU_SOURCE
#include <fcntl.h>
#include <stdio.h>
#include <stdlib.h>
#include <string.h>
#include <time.h>
#include <unistd.h>

enum {
    SAVES = 16,
    REGION = 32768,
    HALVES_AT = 16384,
    HALF = 256,
    STEPS = 3,
    FEWEST_ROUNDS = 1,
    MOST_ROUNDS = 100000,
};

static const unsigned char OPEN_GATE = 0xa5;

static int file;
static long calls;

static void fail(const char *what) {
    perror(what);
    exit(1);
}

static double seconds(void) {
    struct timespec now;
    clock_gettime(CLOCK_MONOTONIC, &now);
    return (double)now.tv_sec + (double)now.tv_nsec / 1e9;
}

static void write_at(off_t at, const unsigned char *bytes, size_t length) {
    calls++;
    if (pwrite(file, bytes, length, at) != (ssize_t)length) {
        fail("a write");
    }
}

static void sync_data(void) {
    calls++;
    if (fdatasync(file) != 0) {
        fail("a sync");
    }
}

/* One of the three writes of the save of a slot in this region; the halves take turns. */
static void write_step(int step, int region, int turn, const unsigned char *half) {
    static const unsigned char closed = 0;
    off_t gate = (off_t)region * REGION + HALVES_AT + (turn % 2) * HALF;
    switch (step) {
    case 0:
        write_at(gate, &closed, 1);
        break;
    case 1:
        write_at(gate + 1, half + 1, HALF - 1);
        break;
    default:
        write_at(gate, &OPEN_GATE, 1);
    }
}

static void saves_one_by_one(int turn, const unsigned char *half) {
    for (int region = 0; region < SAVES; region++) {
        for (int step = 0; step < STEPS; step++) {
            write_step(step, region, turn, half);
            sync_data();
        }
    }
}

static void saves_as_a_batch(int turn, const unsigned char *half) {
    for (int step = 0; step < STEPS; step++) {
        for (int region = 0; region < SAVES; region++) {
            write_step(step, region, turn, half);
        }
        sync_data();
    }
}

static double timed(void (*saves)(int, const unsigned char *), int turn, const unsigned char *half) {
    double began = seconds();
    saves(turn, half);
    return seconds() - began;
}

static int compare(const void *left, const void *right) {
    double a = *(const double *)left, b = *(const double *)right;
    return (a > b) - (a < b);
}

static void show(const char *name, double *times, int rounds, long each) {
    qsort(times, (size_t)rounds, sizeof *times, compare);
    printf("%s: %ld calls, %.0f microseconds in the median (%.0f at the first decile, %.0f at the ninth)\n", name, each,
           times[rounds / 2] * 1e6, times[rounds / 10] * 1e6, times[rounds * 9 / 10] * 1e6);
}

/* A file of so many regions, all of whose blocks the file system has given it. */
static void make_file(const char *folder, char *path, size_t room) {
    static const unsigned char zeros[REGION];
    if (snprintf(path, room, "%s/measure_saves.XXXXXX", folder) >= (int)room) {
        fprintf(stderr, "%s: too long a name\n", folder);
        exit(2);
    }
    file = mkstemp(path);
    if (file < 0) {
        fail(path);
    }
    for (int region = 0; region < SAVES; region++) {
        write_at((off_t)region * REGION, zeros, sizeof zeros);
    }
    if (fsync(file) != 0) {
        fail("the first sync");
    }
}

static double *room_for(int rounds) {
    double *times = calloc((size_t)rounds, sizeof *times);
    if (times == NULL) {
        fail("memory");
    }
    return times;
}

static void measure(int rounds) {
    unsigned char half[HALF];
    double *alone = room_for(rounds), *batch = room_for(rounds);
    long calls_alone = 0, calls_batch = 0;
    memset(half, 0x5a, sizeof half);
    for (int round = 0; round < rounds; round++) {
        calls = 0;
        alone[round] = timed(saves_one_by_one, round, half);
        calls_alone = calls;
        calls = 0;
        batch[round] = timed(saves_as_a_batch, round, half);
        calls_batch = calls;
    }
    show("16 saves one by one", alone, rounds, calls_alone);
    show("16 saves as a batch", batch, rounds, calls_batch);
    printf("a batch takes %.3f of the time, and %.3f of the calls\n", batch[rounds / 2] / alone[rounds / 2],
           (double)calls_batch / (double)calls_alone);
    free(alone);
    free(batch);
}

int main(int count, char **words) {
    char path[4096];
    int rounds = count > 2 ? atoi(words[2]) : 100;
    if (count > 3 || rounds < FEWEST_ROUNDS || rounds > MOST_ROUNDS) {
        fprintf(stderr, "usage: measure_saves [FOLDER [ROUNDS]]\n");
        return 2;
    }
    make_file(count > 1 ? words[1] : ".", path, sizeof path);
    measure(rounds);
    close(file);
    unlink(path);
    return 0;
}
