/* The textbook code as a side, a state for each line. */
#include "side.h"
#include "textbook/textbook.h"

static const struct textbook *textbook;
static union textbook_state state[LINES];

static void book_open(int line, const struct cipher *cipher)
{
    textbook = cipher->textbook;
    textbook->init(&state[line], cipher->key, cipher->key_len, cipher->iv);
}

static void book_crypt(int line, const uint8_t *in, uint8_t *out, size_t n)
{
    textbook->crypt(&state[line], in, out, n);
}

static void book_close(int line)
{
    (void)line;
}

const struct side TEXTBOOK = {"C", book_open, book_crypt, book_close};
