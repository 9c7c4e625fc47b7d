/* Checks the textbook ciphers against the keystreams of annex C of ISO/IEC 18033-4, in one
   crypt and split into crypts of odd lengths. Ends with 1 at the first difference. */
#include "textbook.h"

#include <stdio.h>
#include <string.h>

struct vector {
    const struct textbook *cipher;
    const char *clause, *key, *iv, *keystream;
};

/* The 128-bit SNOW stream of AA.. and 4, 3, 2, 1 is printed without its last word. */
static const struct vector VECTORS[] = {
    {&TEXTBOOK_ZUC, "C.7.1",
     "00000000000000000000000000000000",
     "00000000000000000000000000000000",
     "27bede74018082da87d4e5b69f18bf6632070e0f39b7b692b4673edc3184a48e"},
    {&TEXTBOOK_ZUC, "C.7.1",
     "ffffffffffffffffffffffffffffffff",
     "ffffffffffffffffffffffffffffffff",
     "0657cfa07096398b734b6cb4883eedf4257a76eb97595208d884adcdb1cbffb8"},
    {&TEXTBOOK_ZUC, "C.7.1",
     "00000000000000000000000000000000",
     "ffffffffffffffffffffffffffffffff",
     "58fb515e3908746d7a91f234494ed8c8512d61eb696c14b8cd2d3bfe694fe81d"},
    {&TEXTBOOK_ZUC, "C.7.1",
     "3d4c4be96a82fdaeb58f641db17b455b",
     "84319aa8de6915ca1f6bda6bfbd8c766",
     "14f1c2723279c4194b8ea41d0cc80863d28062e1e71d3ddae3c4d158a7f067ac"},
    {&TEXTBOOK_RABBIT, "C.4.2",
     "00000000000000000000000000000000",
     "0000000000000000",
     "edb70567375dcd7cd89554f85e27a7c68d4adc7032298f7bd4eff504aca6295f"
     "668fbf478adb2be51e6cde292b82de2ab48d2ac6565979220ec909a7e7576098"},
    {&TEXTBOOK_RABBIT, "C.4.2",
     "00000000000000000000000000000000",
     "0001020304050607",
     "9871c7ba4ea30807cdaa496466392d2f4aff4355ef906956109b9665978daced"
     "9b7c6f7fc82c67d27322cbde9db016458c382c9c7d3044e6520bb92a1353c0ff"},
    {&TEXTBOOK_RABBIT, "C.4.2",
     "000102030405060708090a0b0c0d0e0f",
     "0000000000000000",
     "a8f7e69b6940a78d136a5c154a157952a6e4235859e30220ea686436bb38ef53"
     "9c2940556b09ecd7fea2b0ac8307f1696265a3d644281c39c9cd5e1e2f9be4d0"},
    {&TEXTBOOK_RABBIT, "C.4.2",
     "000102030405060708090a0b0c0d0e0f",
     "0001020304050607",
     "f28919dda128f8f90a30346e9794d2b74c69a2d9913727bc5a3018e6332af7f3"
     "be3ac3efb368f43a4cb85867b81c91f924290c816b8b578898c57fb4c0ba05bd"},
    {&TEXTBOOK_SNOW2, "C.2.1",
     "80000000000000000000000000000000",
     "00000000000000000000000000000000",
     "8d590ae9a74a7d056dc9ca74b72d1a4599b0a083fb45d13fcf9411bd9a503783"},
    {&TEXTBOOK_SNOW2, "C.2.1",
     "aaaaaaaaaaaaaaaaaaaaaaaaaaaaaaaa",
     "00000000000000000000000000000000",
     "e00982f525f02054214992d8706f2b20da585e5b85e2746d09f22681b2749407"},
    {&TEXTBOOK_SNOW2, "C.2.1",
     "80000000000000000000000000000000",
     "00000004000000030000000200000001",
     "d6403358e0354a6957f43fce44b4b13ff78e24c246618a0767ac83c10bfc45f0"},
    {&TEXTBOOK_SNOW2, "C.2.1",
     "aaaaaaaaaaaaaaaaaaaaaaaaaaaaaaaa",
     "00000004000000030000000200000001",
     "c355385db31d6cbdf774af5366c2e8774deadac7dc7229dfed171d7b"},
    {&TEXTBOOK_SNOW2, "C.3.1",
     "8000000000000000000000000000000000000000000000000000000000000000",
     "00000000000000000000000000000000",
     "0b5bcce20323e28e0fc203809c66ab73ca35a680f2a5dd197e0c5c02287be822"},
    {&TEXTBOOK_SNOW2, "C.3.1",
     "aaaaaaaaaaaaaaaaaaaaaaaaaaaaaaaaaaaaaaaaaaaaaaaaaaaaaaaaaaaaaaaa",
     "00000000000000000000000000000000",
     "d9cc22fd861492d0ae6f43fb0f072012078c5aeee479de8cf0e555f458eed858"},
    {&TEXTBOOK_SNOW2, "C.3.1",
     "8000000000000000000000000000000000000000000000000000000000000000",
     "00000004000000030000000200000001",
     "7861080d5755e90b736f10916ed519b12c1a3a4255297fc2246ab7fa6c089526"},
    {&TEXTBOOK_SNOW2, "C.3.1",
     "aaaaaaaaaaaaaaaaaaaaaaaaaaaaaaaaaaaaaaaaaaaaaaaaaaaaaaaaaaaaaaaa",
     "00000004000000030000000200000001",
     "29261fce5ed038201d6afaf8b87e74fed49ecb10197eac025d024eb45e0c7655"},
    {&TEXTBOOK_KCIPHER2, "C.6.1",
     "00000000000000000000000000000000",
     "00000000000000000000000000000000",
     "f871ebef945b7272e40c04941dff05370b981a59fbc8ac57566d3b02c179dbb4"
     "3b46f1f033554c725de68bcc9872858f575496024062f0e9f932c998226db6ba"},
    {&TEXTBOOK_KCIPHER2, "C.6.1",
     "0f1e2d3c4b5a69788796a5b4c3d2e1f0",
     "f0e0d0c0b0a090807060504030201000",
     "9fb6b580a6a5e7afd1989dc6a77d5e284efcc8cb7bcfb32bf69297f5dd974ce8"
     "fbd9139c7a71f41a61382c76d3d2f6cad5265037659cf838774121c26f6474f3"},
    {&TEXTBOOK_KCIPHER2, "C.6.1",
     "ac2f75c043fbc36709d315f2245746d8",
     "f6b29a5845cccd8c6229393a7a4842c1",
     "da38138b32864e0524b8b90944e5117ac3e883dcfa22c4581f2c9ddfe98dc5de"
     "33b2fc05064c6fefa9a3d3ed31660dfff7de1857e224e70f4efe5c36ceb974ac"},
    {&TEXTBOOK_KCIPHER2, "C.6.2",
     "80000000000000000000000000000000",
     "00000004000000030000000200000001",
     "9b753faa404a0ef55291940618177fdda419d11e47481d1b2dd49337640bdec9"},
    {&TEXTBOOK_MUGI, "C.1.1",
     "00000000000000000000000000000000",
     "00000000000000000000000000000000",
     "c76e14e70836e6b6cb0e9c5a0bf03e1e0acf9af49ebe6d67d5726e374b1397ac"},
    {&TEXTBOOK_MUGI, "C.1.1",
     "00000000000000000000000000000000",
     "3461698851812139015500a53b7e5987",
     "2aa1c5c72073b1b3a9d10dc6855066102830560d9a2465c99c291c13814e088d"},
    {&TEXTBOOK_MUGI, "C.1.1",
     "513400b104a0599130ad00fc48d759e0",
     "00000000000000000000000000000000",
     "bddfad5f04b88625c3adace156d1c19936ffa4e9a7fdf75aaab829134285aa4b"},
    {&TEXTBOOK_MUGI, "C.1.1",
     "69e706ee5295372c7513014730237993",
     "2a0045c8492749d53a9b164a25e44915",
     "e3cc67a0255b0f282d9a5b1bbdf7f2df84eb46f607d6e6dd3286134394dd95fb"},
    {&TEXTBOOK_MUGI, "C.1.2",
     "000102030405060708090a0b0c0d0e0f",
     "f0e0d0c0b0a090807060504030201000",
     "bc62430614b79b7171a66681c35542de7aba5b4fb80e82d70b96982890b6e143"},
};

enum { LONGEST = 64, TEXT = 1000 };

/* The bytes of a string of hexadecimal digits; returns how many. */
static size_t bytes_of(const char *digits, uint8_t *bytes)
{
    size_t n = strlen(digits) / 2;
    for (size_t i = 0; i < n; i++) {
        unsigned byte = 0;
        sscanf(digits + 2 * i, "%2x", &byte);
        bytes[i] = (uint8_t)byte;
    }
    return n;
}

/* Whether the cipher gives the vector's keystream, and pieces of 1, 3, 5, .. bytes of a
   longer text the same as the text at once. */
static int agrees(const struct vector *v)
{
    static const uint8_t zeros[LONGEST];
    uint8_t key[32], iv[16], keystream[LONGEST], out[LONGEST];
    uint8_t text[TEXT], whole[TEXT], split[TEXT];
    union textbook_state s;
    size_t key_len = bytes_of(v->key, key);
    size_t n = bytes_of(v->keystream, keystream);
    bytes_of(v->iv, iv);

    v->cipher->init(&s, key, key_len, iv);
    v->cipher->crypt(&s, zeros, out, n);
    if (memcmp(out, keystream, n) != 0)
        return 0;

    for (size_t i = 0; i < TEXT; i++)
        text[i] = (uint8_t)(i * 7);
    v->cipher->init(&s, key, key_len, iv);
    v->cipher->crypt(&s, text, whole, TEXT);
    v->cipher->init(&s, key, key_len, iv);
    for (size_t at = 0, piece = 1; at < TEXT; at += piece, piece += 2) {
        if (piece > TEXT - at)
            piece = TEXT - at;
        v->cipher->crypt(&s, text + at, split + at, piece);
    }
    return memcmp(whole, split, TEXT) == 0;
}

int main(void)
{
    size_t n = sizeof VECTORS / sizeof *VECTORS;
    for (size_t i = 0; i < n; i++) {
        const struct vector *v = &VECTORS[i];
        if (!agrees(v)) {
            printf("textbook %s differs: %s, key %s, iv %s\n",
                   v->cipher->name, v->clause, v->key, v->iv);
            return 1;
        }
    }
    printf("textbook ciphers: %zu keystreams of annex C agree\n", n);
    return 0;
}
