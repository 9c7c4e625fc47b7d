/* A call between the two ends of a trunk. The near end enciphers two frames, parks the call and resumes it on another
 * line; a second resume is refused. The far end, another card with the same key, deciphers all of it in frames of
 * other lengths. Exits with 0 if the text came back. rust/examples/trunk.rs is the same in Rust. */
#include "pipeshear.h"

#include <stdio.h>
#include <stdlib.h>
#include <string.h>

enum { ZUC = 1, KEY = 32, IV = 16, LENGTH = 40 };

static const uint8_t key[KEY] = {0x3d, 0x4c, 0x4b, 0xe9, 0x6a, 0x82, 0xfd, 0xae,
                                 0xb5, 0x8f, 0x64, 0x1d, 0xb1, 0x7b, 0x45, 0x5b};
static const uint8_t iv[IV] = {0x84, 0x31, 0x9a, 0xa8, 0xde, 0x69, 0x15, 0xca,
                               0x1f, 0x6b, 0xda, 0x6b, 0xfb, 0xd8, 0xc7, 0x66};
static const char text[LENGTH + 1] = "hello, ward 7: the doctor is on line 12.";

/* Passed where a call needs no buffer: a pointer must not be null. */
static uint8_t none[1];

/* One call with an empty tray. Returns the code. */
static uint8_t call(uint32_t *card, const uint8_t *command, size_t command_bytes,
                    const uint8_t *data, size_t data_bytes, uint8_t *out, size_t out_bytes)
{
    size_t counts[3];
    return pipeshear_call(card, PIPESHEAR_CARD, command, command_bytes, none, 0,
                          data, data_bytes, out, out_bytes, counts, 3);
}

/* Exits with 1 if a call was refused. */
static void accepted(uint8_t code)
{
    if (code != 0) {
        fprintf(stderr, "refused with code %d\n", code);
        exit(1);
    }
}

static void open_line(uint32_t *card, uint8_t line)
{
    uint8_t command[3 + KEY + IV] = {0x02, line, ZUC};
    memcpy(command + 3, key, KEY);
    memcpy(command + 3 + KEY, iv, IV);
    accepted(call(card, command, sizeof command, none, 0, none, 0));
}

/* Returns the code. */
static uint8_t crypt_frame(uint32_t *card, uint8_t line, const uint8_t *data, uint8_t *out, size_t count)
{
    uint8_t command[4] = {0x03, line, (uint8_t)(count >> 8), (uint8_t)count};
    return call(card, command, sizeof command, data, count, out, count);
}

static void park_line(uint32_t *card, uint8_t line, uint8_t *image)
{
    uint8_t command[2] = {0x04, line};
    accepted(call(card, command, sizeof command, none, 0, image, PIPESHEAR_IMAGE));
}

/* Returns the code. */
static uint8_t resume_line(uint32_t *card, uint8_t line, const uint8_t *image)
{
    uint8_t command[2 + PIPESHEAR_IMAGE] = {0x05, line};
    memcpy(command + 2, image, PIPESHEAR_IMAGE);
    return call(card, command, sizeof command, none, 0, none, 0);
}

/* Enciphers a part of the text to the same part of the wire. */
static void encipher(uint32_t *near_end, uint8_t line, uint8_t *wire, size_t from, size_t count)
{
    accepted(crypt_frame(near_end, line, (const uint8_t *)text + from, wire + from, count));
    printf("near end, line %d, %zu bytes: ", line, count);
    for (size_t i = from; i < from + count; i++)
        printf("%02x", wire[i]);
    printf("\n");
}

/* Deciphers a part of the wire to the same part of what is heard. */
static void decipher(uint32_t *far_end, uint8_t line, const uint8_t *wire, uint8_t *heard, size_t from, size_t count)
{
    accepted(crypt_frame(far_end, line, wire + from, heard + from, count));
    printf("far end, line %d, %zu bytes: %.*s\n", line, count, (int)count, (const char *)heard + from);
}

int main(void)
{
    uint32_t near_end[PIPESHEAR_CARD] = {0}, far_end[PIPESHEAR_CARD] = {0};
    uint8_t wire[LENGTH], heard[LENGTH], image[PIPESHEAR_IMAGE];

    open_line(near_end, 0);
    encipher(near_end, 0, wire, 0, 7);
    encipher(near_end, 0, wire, 7, 6);
    park_line(near_end, 0, image);
    printf("parked: a crypt on line 0 is refused with code %d\n", crypt_frame(near_end, 0, none, none, 0));
    accepted(resume_line(near_end, 3, image));
    printf("taken up: a second resume, on line 4, is refused with code %d\n", resume_line(near_end, 4, image));
    encipher(near_end, 3, wire, 13, 27);

    open_line(far_end, 5);
    decipher(far_end, 5, wire, heard, 0, 16);
    decipher(far_end, 5, wire, heard, 16, 24);

    if (memcmp(heard, text, LENGTH) != 0) {
        fprintf(stderr, "the text did not come back\n");
        return 1;
    }
    printf("the text came back\n");
    return 0;
}
