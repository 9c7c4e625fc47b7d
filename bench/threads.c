/* Two threads at once, each on a core and with a card of its own, against one thread: calls
   share nothing, so that two have almost twice the speed of one. Each crypts frames, going
   round the eight open lines of its card. */
#define _GNU_SOURCE

#include "pipeshear.h"
#include "side.h"

#include <pthread.h>
#include <sched.h>
#include <stdio.h>
#include <string.h>
#include <time.h>

/* Rounds are short and many, so that on a busy machine some have both cores to themselves. */
enum { ROUNDS = 1000, TURNS = 500, THREADS = 2, TRIES = 3 };
static const double FLOOR = 1.8;

/* No cache line belongs to two of them. */
struct worker {
    uint32_t card[PIPESHEAR_CARD];
    uint8_t data[FRAME], out[FRAME];
    const struct cipher *cipher;
    double start, end;
} __attribute__((aligned(128)));

static struct worker worker[THREADS];
static cpu_set_t core[THREADS];
static int waiting;

static double wall_seconds(void)
{
    struct timespec t;
    if (clock_gettime(CLOCK_MONOTONIC, &t) != 0)
        fail("no clock");
    return (double)t.tv_sec + 1e-9 * (double)t.tv_nsec;
}

/* Opens all lines of a fresh card, waits until every thread of the round has come so far, and
   crypts the frames. */
static void *work(void *of)
{
    struct worker *w = of;
    memset(w->card, 0, sizeof w->card);
    for (int line = 0; line < LINES; line++)
        open_on(w->card, line, w->cipher);
    __atomic_sub_fetch(&waiting, 1, __ATOMIC_SEQ_CST);
    while (__atomic_load_n(&waiting, __ATOMIC_SEQ_CST) > 0) {
    }
    w->start = wall_seconds();
    for (int i = 0; i < TURNS; i++)
        crypt_on(w->card, i % LINES, w->data, w->out, FRAME);
    w->end = wall_seconds();
    return NULL;
}

/* The time of a round of so many threads, from the first one's start to the last one's end. */
static double round_of(int n, const struct cipher *c)
{
    pthread_t thread[THREADS];
    waiting = n;
    for (int i = 0; i < n; i++) {
        pthread_attr_t on_core;
        worker[i].cipher = c;
        if (pthread_attr_init(&on_core) != 0
            || pthread_attr_setaffinity_np(&on_core, sizeof core[i], &core[i]) != 0
            || pthread_create(&thread[i], &on_core, work, &worker[i]) != 0)
            fail("a thread could not be started");
        pthread_attr_destroy(&on_core);
    }
    double start = 1e99, end = 0;
    for (int i = 0; i < n; i++) {
        pthread_join(thread[i], NULL);
        start = worker[i].start < start ? worker[i].start : start;
        end = worker[i].end > end ? worker[i].end : end;
    }
    return end - start;
}

/* The least times of one thread and of two in the rounds, which take turns. All must leave the
   same card and write the same frames. */
static void least_times(const struct cipher *c, double *one, double *two)
{
    static uint32_t alone[PIPESHEAR_CARD];
    *one = *two = 1e9;
    for (int i = 0; i < ROUNDS; i++) {
        double t = round_of(1, c);
        *one = t < *one ? t : *one;
        memcpy(alone, worker[0].card, sizeof alone);
        t = round_of(THREADS, c);
        *two = t < *two ? t : *two;
        for (int k = 0; k < THREADS; k++)
            if (memcmp(alone, worker[k].card, sizeof alone) != 0
                || memcmp(worker[0].out, worker[k].out, FRAME) != 0)
                fail("two threads do not write what one does");
    }
}

/* Prints a row: the speeds of one thread and of two together, and the second over the first,
   which is returned. If other work has kept it below the floor, it is measured again. */
static double row(const struct cipher *c)
{
    double one, two, ratio = 0;
    for (int i = 0; i < TRIES && ratio < FLOOR; i++) {
        least_times(c, &one, &two);
        ratio = THREADS * one / two;
    }
    double megabytes = TURNS * FRAME / 1e6;
    printf("%-9s %-12s %12.1f %16.1f %7.2f\n", c->name, "eight lines", megabytes / one,
           THREADS * megabytes / two, ratio);
    fflush(stdout);
    return ratio;
}

/* Finds the first cores that this program may run on; how many there are, at most two. */
static int cores(void)
{
    cpu_set_t all;
    if (sched_getaffinity(0, sizeof all, &all) != 0)
        fail("no list of cores");
    int n = 0;
    for (int i = 0; i < CPU_SETSIZE && n < THREADS; i++)
        if (CPU_ISSET(i, &all)) {
            CPU_ZERO(&core[n]);
            CPU_SET(i, &core[n++]);
        }
    return n;
}

void two_threads(void)
{
    if (cores() < THREADS) {
        printf("two threads: not measured, as there is only one core\n");
        return;
    }
    for (int k = 0; k < THREADS; k++)
        for (int i = 0; i < FRAME; i++)
            worker[k].data[i] = (uint8_t)(i * 167);
    printf("%-9s %-12s %12s %16s %7s\n", "cipher", "threads", "one MB/s", "two MB/s", "ratio");
    double least = THREADS;
    for (int i = 0; i < CIPHERS; i++) {
        double ratio = row(&CIPHER[i]);
        least = ratio < least ? ratio : least;
    }
    printf("two threads: at least %.2f times the speed of one\n", least);
    fflush(stdout);
    if (least < FLOOR)
        fail("two threads with a card each have less than 1.8 times the speed of one");
}
