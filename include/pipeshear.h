/* The cipher card for an exchange: eight lines, enciphered with the stream ciphers of ISO/IEC 18033-4.
 *
 * A card is an array of PIPESHEAR_CARD words that the caller owns and need not look into. All zero is a fresh card, with all lines idle and no park made.
 * A card can be copied, saved to a file and loaded again on a machine with the same byte order. A damaged card is refused (code 255), but a change that leaves a valid card
 * is not detected.
 *
 * A parked call can be resumed once. The card counts the parks of each line by itself. A park writes its line and its number among the line's parks into the image, and the
 * card holds that number for the line until an image with this line and number is resumed or the line is parked again; no other command changes it. So an image can be resumed
 * on the card that parked it, on any idle line, and is refused from then on (code 14). Two lines may hold the same number: each is resumed by its own image. The
 * numbers are in the card: continue with only one of a card and its copies, or an image could be resumed on each.
 *
 * A line cannot be opened or loaded with a blank key: one that is all zero in the cipher's own length, in the command or in the tray, is refused (code 16).
 *
 * The key of a line can be changed while its call runs, with command 07, which has 27 bytes: 07, line 1, key number 1, IV 16, position 8, the highest byte first. The line's
 * bytes before that position use the old key; those from it on use the new key of the tray with the new IV, and the line's own cipher. A line's position is the number of
 * bytes that it has enciphered or deciphered since it was opened or since its last change; a resumed line continues with the position that it was parked at. A change at the
 * line's own position takes effect at once: the next byte is the first with the new key. A later one waits in the card until a crypt reaches its position, and a crypt across
 * it does both parts in one call. At the change the line's position starts again from 0.
 *
 * Both ends of a call must be given the same change, each before its line passes that position; their crypts need not have the same lengths. While a change is waiting, a
 * second change and a park of that line are refused (code 17), and a close drops it. The new key and IV are checked as in an open from the tray, for the line's cipher
 * (codes 9, 10, 7 and 16).
 *
 * A line can be loaded with its key before the call, and started with the IV when the call is picked up. Command 08, which has 4 bytes, loads an idle line: 08, line 1,
 * cipher 1, key number 1. The key is checked as in an open from the tray (codes 4, 5, 9, 10, 7 and 16). Command 09, which has 18 bytes, starts a loaded line: 09, line 1,
 * IV 16, the bytes beyond the line's cipher's IV length 0 (code 7). The line is then as after command 01 with the same cipher, key and IV, and the key is not kept. A start
 * of a line that is not loaded, an open one too, is refused (code 19). The card keeps a loaded line's key, for Rabbit the state that the key alone gives; a start needs no
 * tray. A loaded line refuses opens, resumes and loads (code 5) and crypts, parks and changes (code 6); a close empties it.
 *
 * A message, such as the record of a call, can be sealed as a whole without a card, with pipeshear_seal and pipeshear_unseal.
 *
 * Link with target/staticlib/libpipeshear.a, which `tests/made library` makes for Linux on x86-64. */
#ifndef PIPESHEAR_H
#define PIPESHEAR_H

#include <stddef.h>
#include <stdint.h>

#ifdef __cplusplus
extern "C" {
#endif

/* The words of a card. */
#define PIPESHEAR_CARD 672

/* The bytes of a parked line's image: the cipher's number, the position in eight bytes, the line that was parked, the park's number in four bytes, and the state, with zeros
 * after a shorter one. */
#define PIPESHEAR_IMAGE 166

/* One call: the first command in `command` is run on `card`.
 *
 *   card      the card, PIPESHEAR_CARD words; an accepted call changes it
 *   command   the command; bytes after it are ignored; not changed
 *   tray      the key tray, 32 bytes a key; not changed; read by commands 01, 07 and 08 only
 *   data      the bytes to encipher or decipher, from the first on; not changed
 *   out       where crypt and park write, from the first byte on; the bytes after those written are not changed
 *   counts    three counts: bytes used of command, bytes used of data, bytes written to out
 *
 * Each pointer is followed by the number of words, bytes or counts that it points to. The caller owns all buffers, before and after. card, out and counts must not overlap
 * each other or any other buffer, so a crypt in place is not allowed: data and out must be separate. No pointer may be null, even with length 0: pass any valid address.
 *
 * Returns 0 for an accepted command. Any other code is a refusal: card and out are not changed, and the three counts are 0.
 *
 *     1  command empty or cut short              10  key number not in the tray
 *     2  first byte not 01 to 09                 11  data shorter than the count
 *     3  line over 7                             12  out shorter than the count, or than an image for a park
 *     4  cipher not 1 to 6                       13  position after the crypt over 2^36
 *     5  open, load or resume on an open or      14  park number not held for the line in the image
 *        loaded line                             15  no park number left: the line has made 4,294,967,295 parks
 *     6  crypt, park or change on a line that    16  key all zero
 *        is not open, or close on an idle line   17  change or park while a change is waiting on the line
 *     7  a key or IV byte beyond the cipher's    18  change position below the line's position, or above 2^36
 *        length is not 0                         19  start on a line that is not loaded
 *     8  invalid image                          255  damaged card, card_words not PIPESHEAR_CARD, or places not 3
 *     9  tray length not a multiple of 32,
 *        or over 8192
 *
 * If several apply, the first is returned, in the order 255, 1 for empty, 2, 1 for cut short, 3, 4, 5, 6 or 19, 17, 18, 15, 9, 10, 7, 16, 8, 14, 13, 11, 12.
 * If places is not 3, counts is not changed either.
 *
 * The call has no state of its own and reads only what it is given, so threads may call it at the same time, each with its own card, out and counts. Two calls on one card
 * must not run at the same time. A call takes some 10 KB of stack. */
uint8_t pipeshear_call(uint32_t *card, size_t card_words,
                       const uint8_t *command, size_t command_bytes,
                       const uint8_t *tray, size_t tray_bytes,
                       const uint8_t *data, size_t data_bytes,
                       uint8_t *out, size_t out_bytes,
                       size_t *counts, size_t places);

/* The longest message that can be sealed, and the bytes that sealing adds to a message. */
#define PIPESHEAR_MESSAGE 16384
#define PIPESHEAR_SEAL 16

/* A message is sealed as a whole and opened again as a whole, so that one that was changed on its way is refused: MULTI-S01 of ISO/IEC 18033-4, clause 6.2.3, in blocks of
 * eight bytes. No card is used. What pipeshear_seal writes, pipeshear_unseal takes back to the message, with the same cipher, key, IV and redundancy.
 *
 *   cipher       1 ZUC, 2 Rabbit, 3 SNOW 2.0 with 16 key bytes, 4 SNOW 2.0 with 32, 5 KCipher-2, 6 MUGI
 *   key, iv      32 and 16 bytes; a shorter key or IV stands first, with zeros after it; not changed
 *   redundancy   8 bytes that both ends know, for example zeros; they need not be secret; not changed
 *   message      what is sealed: at most PIPESHEAR_MESSAGE bytes, a multiple of 8; an empty message can be sealed; not changed
 *   sealed       what is opened: what pipeshear_seal wrote; not changed
 *   out          where the sealed message, PIPESHEAR_SEAL bytes longer than the message, or the opened message is written, from the first byte on; the bytes after it are
 *                not changed
 *   written      one count: the bytes written to out
 *
 * Each pointer is followed by the number of bytes or counts that it points to. The caller owns all buffers, before and after. out and written must not overlap each other or
 * any other buffer, and no pointer may be null, even with length 0.
 *
 * Returns 0 for a message that was sealed or opened. Any other code is a refusal: out is not changed, and the count is 0. pipeshear_unseal writes nothing before the whole has
 * passed its test. If several apply, the first is returned, in this order:
 *
 *   255  key_bytes not 32, iv_bytes not 16, redundancy_bytes not 8, or places not 1; the count is not changed either
 *    23  message over 16384 bytes, or not a multiple of 8; of a sealed message: a length that no such message has, below 16, over 16400, or not a multiple of 8
 *     4  cipher not 1 to 6
 *     7  a key or IV byte beyond the cipher's length is not 0
 *    16  key all zero in the cipher's own length
 *    12  out shorter than what is to be written
 *    24  of a sealed message: redundancy or padding wrong; of either: the first 4096 blocks of the keystream all zero
 *
 * Seal one message with a pair of key and IV: no second message, and do not open a line with that pair either. Both would use the same keystream, and no check notices it. What
 * is proved of lines, that no keystream byte is used twice, does not cover sealing.
 *
 * A sealed message of which one block of eight bytes was changed, in whatever way, is always refused. Another text that nobody sealed may be accepted by chance: annex D of
 * the standard gives (u - 2) in 2^64 for a forged text of u blocks.
 *
 * Neither has a state of its own, so threads may call them at the same time, each with its own out and written. pipeshear_seal takes some 11 KB of stack, pipeshear_unseal
 * some 27 KB. */
uint8_t pipeshear_seal(uint8_t cipher,
                       const uint8_t *key, size_t key_bytes,
                       const uint8_t *iv, size_t iv_bytes,
                       const uint8_t *redundancy, size_t redundancy_bytes,
                       const uint8_t *message, size_t message_bytes,
                       uint8_t *out, size_t out_bytes,
                       size_t *written, size_t places);

uint8_t pipeshear_unseal(uint8_t cipher,
                         const uint8_t *key, size_t key_bytes,
                         const uint8_t *iv, size_t iv_bytes,
                         const uint8_t *redundancy, size_t redundancy_bytes,
                         const uint8_t *sealed, size_t sealed_bytes,
                         uint8_t *out, size_t out_bytes,
                         size_t *written, size_t places);

#ifdef __cplusplus
}
#endif

#endif
