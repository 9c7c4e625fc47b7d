/* A call record is sealed at one end and opened at the other; then one byte of it is changed on the way, and it is
 * refused. Exits with 0 if the record came back and the changed one was refused. rust/examples/record.rs is the same in
 * Rust. */
#include "pipeshear.h"

#include <stdio.h>
#include <string.h>

enum { ZUC = 1, KEY = 32, IV = 16, REDUNDANCY = 8, LENGTH = 32 };

/* A key and an IV for this record alone. */
static const uint8_t key[KEY] = {0x3d, 0x4c, 0x4b, 0xe9, 0x6a, 0x82, 0xfd, 0xae,
                                 0xb5, 0x8f, 0x64, 0x1d, 0xb1, 0x7b, 0x45, 0x5b};
static const uint8_t iv[IV] = {0x0f, 0x1e, 0x2d, 0x3c, 0x4b, 0x5a, 0x69, 0x78,
                               0x87, 0x96, 0xa5, 0xb4, 0xc3, 0xd2, 0xe1, 0xf0};
static const uint8_t redundancy[REDUNDANCY] = {0};
static const char record[LENGTH + 1] = "room 107, 12 minutes, 4.80 marks";

/* Returns the code, and in written the bytes of out. */
static uint8_t open_record(const uint8_t *sealed, uint8_t *out, size_t *written)
{
    return pipeshear_unseal(ZUC, key, sizeof key, iv, sizeof iv, redundancy, sizeof redundancy,
                            sealed, LENGTH + PIPESHEAR_SEAL, out, LENGTH, written, 1);
}

int main(void)
{
    uint8_t sealed[LENGTH + PIPESHEAR_SEAL], opened[LENGTH] = {0}, code;
    size_t written;

    code = pipeshear_seal(ZUC, key, sizeof key, iv, sizeof iv, redundancy, sizeof redundancy,
                          (const uint8_t *)record, LENGTH, sealed, sizeof sealed, &written, 1);
    if (code != 0) {
        fprintf(stderr, "refused with code %d\n", code);
        return 1;
    }
    printf("sealed, %zu bytes: ", written);
    for (size_t i = 0; i < written; i++)
        printf("%02x", sealed[i]);
    printf("\n");

    code = open_record(sealed, opened, &written);
    if (code != 0 || memcmp(opened, record, LENGTH) != 0) {
        fprintf(stderr, "the record did not come back\n");
        return 1;
    }
    printf("opened, %zu bytes: %.*s\n", written, (int)written, (const char *)opened);

    sealed[5] ^= 1;
    code = open_record(sealed, opened, &written);
    printf("changed on the way: refused with code %d, %zu bytes written\n", code, written);
    return code == 24 ? 0 : 1;
}
