/* What is left to do when a call is picked up: starts of lines that were loaded before, against
   opens from the tray, each alone and with a first frame. Both must leave the same card. */
#include "pipeshear.h"
#include "side.h"

#include <stdio.h>
#include <string.h>

/* A round is eight lines on each of some cards, which are copied from a kept one before it, so
   that the clock's own time counts for little. */
enum { ROUNDS = 1000, CARDS = 16, TRAY = 32 };

typedef uint32_t card_words[PIPESHEAR_CARD];

static card_words started[CARDS], opened[CARDS];
static uint8_t data[FRAME], started_out[FRAME], opened_out[FRAME];

/* A call that must be accepted and write n bytes. */
static void call(uint32_t *card, const uint8_t *command, size_t len, const uint8_t *tray,
                 size_t tray_len, uint8_t *out, size_t n)
{
    size_t counts[3];
    uint8_t code = pipeshear_call(card, PIPESHEAR_CARD, command, len, tray, tray_len, data, n,
                                  out, n, counts, 3);
    if (code != 0 || counts[0] != len || counts[1] != n || counts[2] != n)
        fail("a call of a pick-up was not accepted");
}

/* One command on each line of a card, and after it a frame of n bytes, if n is not 0. */
static void each_line(uint32_t *card, uint8_t *command, size_t len, const uint8_t *tray,
                      size_t tray_len, uint8_t *out, size_t n)
{
    for (uint8_t line = 0; line < LINES; line++) {
        command[1] = line;
        call(card, command, len, tray, tray_len, out, 0);
        if (n != 0) {
            const uint8_t crypt[4] = {0x03, line, (uint8_t)(n >> 8), (uint8_t)n};
            call(card, crypt, sizeof crypt, tray, 0, out, n);
        }
    }
}

/* The time of a round: copies of a kept card, outside the time, and one command on each of
   their lines. */
static double round_of(card_words *cards, const uint32_t *kept, uint8_t *command, size_t len,
                       const uint8_t *tray, size_t tray_len, uint8_t *out, size_t n)
{
    for (int i = 0; i < CARDS; i++)
        memcpy(cards[i], kept, sizeof cards[i]);
    double start = cpu_seconds();
    for (int i = 0; i < CARDS; i++)
        each_line(cards[i], command, len, tray, tray_len, out, n);
    return cpu_seconds() - start;
}

/* Prints a row: the least times of a start and of an open, each with a frame of n bytes, in
   microseconds, and the median of the rounds' ratios of the second to the first. */
static void row(const struct cipher *c, const char *what, size_t n)
{
    static const uint8_t none[1];
    static const card_words fresh;
    card_words loaded = {0};
    uint8_t load[4] = {0x08, 0, c->number, 0}, start[18] = {0x09, 0};
    uint8_t open[20] = {0x01, 0, c->number, 0};
    memcpy(start + 2, c->iv, 16);
    memcpy(open + 4, c->iv, 16);
    each_line(loaded, load, sizeof load, c->key, TRAY, started_out, 0);

    double start_best = 1e9, open_best = 1e9, ratio[ROUNDS];
    for (int i = 0; i < ROUNDS; i++) {
        double s = round_of(started, loaded, start, sizeof start, none, 0, started_out, n);
        double o = round_of(opened, fresh, open, sizeof open, c->key, TRAY, opened_out, n);
        start_best = s < start_best ? s : start_best;
        open_best = o < open_best ? o : open_best;
        ratio[i] = o / s;
        if (memcmp(started, opened, sizeof started) != 0 || memcmp(started_out, opened_out, n) != 0)
            fail("a started line is not as an opened one");
    }
    double scale = 1e6 / (CARDS * LINES);
    printf("%-9s %-12s %12.2f %16.2f %7.2f\n", c->name, what, start_best * scale,
           open_best * scale, median(ratio, ROUNDS));
    fflush(stdout);
}

void pick_up_heading(void)
{
    printf("%-9s %-12s %12s %16s %7s\n", "cipher", "what", "start us", "open us", "ratio");
}

void pick_up(const struct cipher *c)
{
    for (size_t i = 0; i < FRAME; i++)
        data[i] = (uint8_t)(i * 167);
    row(c, "alone", 0);
    row(c, "with frame", FRAME);
}
