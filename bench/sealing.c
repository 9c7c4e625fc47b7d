/* Sealed records: pipeshear_seal and pipeshear_unseal against the textbook code, in MB (10^6 bytes
   of message) a second of CPU time. Both sides must write the same bytes. */
#include "pipeshear.h"
#include "side.h"
#include "textbook/multi_s01.h"

#include <stdio.h>
#include <string.h>

enum { ROUNDS = 200, LONGEST = 16384 };
static const double ROUND_SECONDS = 0.001;

static const uint8_t redundancy[8] = {0x3d, 0x4c, 0x4b, 0xe9, 0x6a, 0x82, 0xfd, 0xae};
static uint8_t message[LONGEST], sealed[LONGEST + PIPESHEAR_SEAL];
static uint8_t card_out[LONGEST + PIPESHEAR_SEAL], book_out[LONGEST + PIPESHEAR_SEAL];

/* One sealing or opening of a message of n bytes by one side. */
typedef void turn(const struct cipher *c, size_t n);

/* A call of the library that must be accepted and write so many bytes. */
static void accepted(uint8_t code, size_t written, size_t bytes)
{
    if (code != 0 || written != bytes)
        fail("a record was not accepted");
}

static void card_seal(const struct cipher *c, size_t n)
{
    size_t written, bytes = n + PIPESHEAR_SEAL;
    uint8_t code = pipeshear_seal(c->number, c->key, 32, c->iv, 16, redundancy, 8, message, n,
                                  card_out, bytes, &written, 1);
    accepted(code, written, bytes);
}

static void card_open(const struct cipher *c, size_t n)
{
    size_t written;
    uint8_t code = pipeshear_unseal(c->number, c->key, 32, c->iv, 16, redundancy, 8, sealed,
                                    n + PIPESHEAR_SEAL, card_out, n, &written, 1);
    accepted(code, written, n);
}

static void book_seal(const struct cipher *c, size_t n)
{
    union textbook_state s;
    c->textbook->init(&s, c->key, c->key_len, c->iv);
    multi_s01_seal(c->textbook, &s, redundancy, message, book_out, n);
}

static void book_open(const struct cipher *c, size_t n)
{
    union textbook_state s;
    c->textbook->init(&s, c->key, c->key_len, c->iv);
    if (!multi_s01_open(c->textbook, &s, redundancy, sealed, book_out, n + PIPESHEAR_SEAL))
        fail("the textbook code refuses a record");
}

static double seconds(turn *side, const struct cipher *c, size_t n, size_t turns)
{
    double start = cpu_seconds();
    for (size_t i = 0; i < turns; i++)
        side(c, n);
    return cpu_seconds() - start;
}

/* Prints a row: the speeds of both sides by the least time of the rounds, which take turns. What
   they write must be the bytes of wanted. */
static void row(const struct cipher *c, const char *what, turn *card, turn *book, size_t n,
                const uint8_t *wanted, size_t bytes)
{
    double card_best = 1e9, book_best = 1e9;
    size_t turns = (size_t)(ROUND_SECONDS / seconds(book, c, n, 1)) + 1;
    for (int i = 0; i < ROUNDS; i++) {
        double card_time = seconds(card, c, n, turns);
        double book_time = seconds(book, c, n, turns);
        if (memcmp(card_out, wanted, bytes) != 0 || memcmp(book_out, wanted, bytes) != 0)
            fail("a record is not as the other side writes it");
        card_best = card_time < card_best ? card_time : card_best;
        book_best = book_time < book_best ? book_time : book_best;
    }
    double megabytes = (double)turns * (double)n / 1e6;
    printf("%-9s %s %-7zu %12.1f %16.1f %7.2f\n", c->name, what, n, megabytes / card_best,
           megabytes / book_best, book_best / card_best);
    fflush(stdout);
}

void sealing_heading(void)
{
    printf("%-9s %-12s %12s %11s MB/s %7s\n", "cipher", "what", "card MB/s", "C", "ratio");
}

void sealing(const struct cipher *c)
{
    static const size_t lengths[] = {1024, LONGEST};
    for (size_t i = 0; i < LONGEST; i++)
        message[i] = (uint8_t)(i * 167 + (i >> 8));
    for (size_t i = 0; i < sizeof lengths / sizeof *lengths; i++) {
        size_t n = lengths[i];
        book_seal(c, n);
        memcpy(sealed, book_out, n + PIPESHEAR_SEAL);
        row(c, "seal", card_seal, book_seal, n, sealed, n + PIPESHEAR_SEAL);
        row(c, "open", card_open, book_open, n, message, n);
    }
}
