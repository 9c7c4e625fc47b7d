/* Measures the card against the textbook ciphers, and against other libraries where they are
   built in, in MB (10^6 bytes) a second of CPU time. Both sides must write the same bytes.
   Starts of loaded lines are measured against opens, in microseconds, and sealed records against
   textbook code. Last come two threads against one; if they have less than 1.8 times its speed, the
   program ends with 1. */
#define _POSIX_C_SOURCE 199309L

#include "side.h"

#include <stdio.h>
#include <stdlib.h>
#include <string.h>
#include <time.h>

/* Rounds are short and many, so that on a busy machine each side meets some quiet ones. */
enum { ROUNDS = 400, LONGEST = 65535 };
static const double ROUND_SECONDS = 0.001;

/* Crypts of n bytes that go round some open lines, or, on one line, each with an open before and
   a close after it. */
struct job {
    const char *what;
    size_t n;
    int lines;
    int sets_up;
};

static const struct job BULK = {"bulk", LONGEST, 1, 0};
static const struct job FRAMES = {"frames", FRAME, 1, 0};
static const struct job TRUNK = {"eight lines", FRAME, LINES, 0};
static const struct job SET_UP = {"set-up", FRAME, 1, 1};

static uint8_t data[LONGEST], card_out[LONGEST], other_out[LONGEST];

/* Fails unless both sides have written the same n bytes. */
static void same_bytes(const struct side *other, const struct cipher *c,
                       const struct job *job, size_t n)
{
    for (size_t i = 0; i < n; i++) {
        if (card_out[i] != other_out[i]) {
            fprintf(stderr, "bench: %s %s: card and %s differ at byte %zu\n",
                    c->name, job->what, other->name, i);
            exit(1);
        }
    }
}

double cpu_seconds(void)
{
    struct timespec t;
    if (clock_gettime(CLOCK_PROCESS_CPUTIME_ID, &t) != 0)
        fail("no CPU clock");
    return (double)t.tv_sec + 1e-9 * (double)t.tv_nsec;
}

static void open_all(const struct side *side, const struct cipher *c, const struct job *job)
{
    for (int line = 0; line < job->lines; line++)
        side->open(line, c);
}

static void close_all(const struct side *side, const struct job *job)
{
    for (int line = 0; line < job->lines; line++)
        side->close(line);
}

/* The i-th turn of a job, here with n bytes. */
static void turn(const struct side *side, const struct cipher *c, const struct job *job,
                 size_t i, size_t n, uint8_t *out)
{
    int line = (int)(i % (size_t)job->lines);
    if (job->sets_up)
        side->open(line, c);
    side->crypt(line, data, out, n);
    if (job->sets_up)
        side->close(line);
}

/* The time of so many turns. Streams that go on are opened anew for them, so that they stay far
   below the card's limit of 2^36 bytes. */
static double seconds(const struct side *side, const struct cipher *c, const struct job *job,
                      size_t turns, uint8_t *out)
{
    if (!job->sets_up)
        open_all(side, c, job);
    double start = cpu_seconds();
    for (size_t i = 0; i < turns; i++)
        turn(side, c, job, i, job->n, out);
    double end = cpu_seconds();
    if (!job->sets_up)
        close_all(side, job);
    return end - start;
}

/* Fails unless both sides write the same in some crypts of the job's length and odd ones on each
   line, which come to a different place on each. */
static void compare(const struct side *other, const struct cipher *c, const struct job *job)
{
    const size_t lengths[] = {job->n, job->n, 1, 7, job->n, 3, 30, job->n};
    const size_t several = sizeof lengths / sizeof *lengths, lines = (size_t)job->lines;
    if (!job->sets_up) {
        open_all(&CARD, c, job);
        open_all(other, c, job);
    }
    for (size_t i = 0; i < several * lines; i++) {
        size_t n = lengths[(i / lines + i % lines) % several];
        memset(card_out, 0, sizeof card_out);
        memset(other_out, 0, sizeof other_out);
        turn(&CARD, c, job, i, n, card_out);
        turn(other, c, job, i, n, other_out);
        same_bytes(other, c, job, sizeof card_out);
    }
    if (!job->sets_up) {
        close_all(&CARD, job);
        close_all(other, job);
    }
}

/* How many turns of a side take about a round's time. */
static size_t turns_of(const struct side *side, const struct cipher *c, const struct job *job)
{
    size_t turns = 1;
    double t = seconds(side, c, job, turns, other_out);
    while (t < ROUND_SECONDS / 4) {
        turns *= 2;
        t = seconds(side, c, job, turns, other_out);
    }
    return (size_t)((double)turns * ROUND_SECONDS / t) + 1;
}

static int by_size(const void *a, const void *b)
{
    double x = *(const double *)a, y = *(const double *)b;
    return (x > y) - (x < y);
}

double median(double *of, size_t n)
{
    qsort(of, n, sizeof *of, by_size);
    return of[n / 2];
}

/* Prints a row: the speeds of both sides by the least time of the rounds, in which they take
   turns, and the median of the rounds' ratios, which other work on the machine moves less than
   the least times. Returns this ratio. */
static double row(const struct side *other, const struct cipher *c, const struct job *job)
{
    compare(other, c, job);
    size_t turns = turns_of(other, c, job);
    double card_best = 1e9, other_best = 1e9, ratio[ROUNDS];
    for (int i = 0; i < ROUNDS; i++) {
        double card_time = seconds(&CARD, c, job, turns, card_out);
        double other_time = seconds(other, c, job, turns, other_out);
        same_bytes(other, c, job, job->n);
        card_best = card_time < card_best ? card_time : card_best;
        other_best = other_time < other_best ? other_time : other_best;
        ratio[i] = other_time / card_time;
    }
    double megabytes = (double)turns * (double)job->n / 1e6, middle = median(ratio, ROUNDS);
    printf("%-9s %-12s %12.1f %16.1f %7.2f\n",
           c->name, job->what, megabytes / card_best, megabytes / other_best, middle);
    fflush(stdout);
    return middle;
}

static void heading(const struct side *other)
{
    printf("%-9s %-12s %12s %11s MB/s %7s\n", "cipher", "what", "card MB/s", other->name, "ratio");
}

static void ratios(const char *what, const double ratio[CIPHERS])
{
    printf("%s:", what);
    for (int i = 0; i < CIPHERS; i++)
        printf(" %s %.2f", CIPHER[i].name, ratio[i]);
    printf("\n");
}

int main(void)
{
    double bulk[CIPHERS], frames[CIPHERS], trunk[CIPHERS], set_up[CIPHERS];
    for (size_t i = 0; i < LONGEST; i++)
        data[i] = (uint8_t)(i * 167 + (i >> 8));

    heading(&TEXTBOOK);
    for (int i = 0; i < CIPHERS; i++) {
        bulk[i] = row(&TEXTBOOK, &CIPHER[i], &BULK);
        frames[i] = row(&TEXTBOOK, &CIPHER[i], &FRAMES);
        trunk[i] = row(&TEXTBOOK, &CIPHER[i], &TRUNK);
        set_up[i] = row(&TEXTBOOK, &CIPHER[i], &SET_UP);
    }
#ifdef WITH_CRYPTOPP
    heading(&CRYPTOPP);
    row(&CRYPTOPP, &CIPHER[1], &BULK);
    row(&CRYPTOPP, &CIPHER[1], &FRAMES);
    row(&CRYPTOPP, &CIPHER[1], &TRUNK);
    row(&CRYPTOPP, &CIPHER[1], &SET_UP);
#endif
#ifdef WITH_IPSECMB
    static const struct job LONG_SET_UP = {"set-up 8188", 8188, 1, 1};
    heading(&IPSECMB);
    row(&IPSECMB, &CIPHER[0], &SET_UP);
    row(&IPSECMB, &CIPHER[0], &LONG_SET_UP);
#endif
    pick_up_heading();
    for (int i = 0; i < CIPHERS; i++)
        pick_up(&CIPHER[i]);
    sealing_heading();
    for (int i = 0; i < CIPHERS; i++)
        sealing(&CIPHER[i]);
    ratios("bulk", bulk);
    ratios("frames", frames);
    ratios("eight lines", trunk);
    ratios("set-up", set_up);
    two_threads();
    return 0;
}
