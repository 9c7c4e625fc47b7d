/* What is measured: streams of a cipher, a line each, opened, continued and closed by one side,
   which is the card, the textbook code or another library. */
#ifndef BENCH_SIDE_H
#define BENCH_SIDE_H

#include <stddef.h>
#include <stdint.h>

#ifdef __cplusplus
extern "C" {
#endif

enum { LINES = 8, CIPHERS = 5, FRAME = 160 };

struct textbook;

/* A cipher, and the key and IV that it is opened with, zeros after their lengths. */
struct cipher {
    const char *name;
    uint8_t number; /* on the card */
    size_t key_len;
    const struct textbook *textbook;
    uint8_t key[32];
    uint8_t iv[16];
};

extern const struct cipher CIPHER[CIPHERS];

struct side {
    const char *name;
    void (*open)(int line, const struct cipher *cipher);
    void (*crypt)(int line, const uint8_t *in, uint8_t *out, size_t n);
    void (*close)(int line);
};

extern const struct side CARD, TEXTBOOK, CRYPTOPP, IPSECMB;

/* What the side CARD does on its own card, on any card. */
void open_on(uint32_t *card, int line, const struct cipher *cipher);
void crypt_on(uint32_t *card, int line, const uint8_t *in, uint8_t *out, size_t n);

/* Measures starts of loaded lines against opens of a cipher, and prints two rows; the heading
   comes before the first of them. */
void pick_up_heading(void);
void pick_up(const struct cipher *cipher);

/* Measures sealed records of a cipher against the textbook code, and prints four rows; the heading
   comes before the first of them. */
void sealing_heading(void);
void sealing(const struct cipher *cipher);

/* Measures two threads with a card each against one, and prints a row for each cipher. Fails if
   two have less than 1.8 times the speed of one; says so if there is only one core. */
void two_threads(void);

/* The median of n figures, which are put in order. */
double median(double *of, size_t n);

/* The CPU time of this program, in seconds. */
double cpu_seconds(void);

/* Prints what went wrong and ends the program with 1. */
void fail(const char *what);

#ifdef __cplusplus
}
#endif

#endif
