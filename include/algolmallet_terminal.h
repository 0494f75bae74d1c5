/* Algolmallet for terminal boards: the words that a small board sends, and their images with parity.
 *
 * It is for a board that has "no flash to spare". The parity comes from "counting the word's ones with the machine's own operation": the
 * archive holds no table and no constants, keeps no memory of its own, and needs nothing of the board: it has no undefined symbols. A
 * monitor, which judges what was sent, has the library of algolmallet.h, with the table. Both headers may stand in one file, and both
 * archives in one program.
 *
 * Link with libalgolmallet_terminal.a, which `./install PREFIX` puts beside this header's folder (pkg-config algolmallet_terminal); in the
 * repository it is target/staticlib/libterminal.a, which `tools/archive terminal` proves and writes. It is for x86-64. The archive has the
 * entries below and nothing else that can be seen from outside. The words in quotes are the build paper's.
 *
 * A board owes nothing: no entry takes a pointer, any numbers may be handed in, from any thread.
 *
 * WHAT IS PROVED of each entry, for all arguments: its answer is the paper's word, or the refusal "given exactly when" a field "is outside
 * its size" (crates/word_numbers/specs/Numbers.antt); the image is the paper's (crates/word_sending), on every word with the parity that
 * the monitor looks up in its table (crates/words/specs/Agree.antt). No call traps.
 */
#ifndef ALGOLMALLET_TERMINAL_H
#define ALGOLMALLET_TERMINAL_H

#include <stddef.h>
#include <stdint.h>

#ifdef __cplusplus
extern "C" {
#endif

/* The version of this header, and of the archive that is installed with it. */
#define ALGOLMALLET_TERMINAL_VERSION "0.8.0"

/* What a word entry can answer, by the paper's refusal numbers. */
enum algolmallet_word_refusal {
    ALGOLMALLET_WORD_MADE = 0,
    /* "a word's field .. is outside its size" */
    ALGOLMALLET_FIELD_OUTSIDE_SIZE = 11
};

/* What a word entry answers. "A refused word entry answers the number alone." */
typedef struct {
    uint32_t refusal; /* enum algolmallet_word_refusal */
    uint16_t word;    /* 0 after a refusal */
} algolmallet_word;

/* The library's side of these offsets is proved in crates/word_numbers/proofs/Offsets.antt. */
#ifdef __cplusplus
#define ALGOLMALLET_HOLDS(fact, text) static_assert(fact, text)
#else
#define ALGOLMALLET_HOLDS(fact, text) _Static_assert(fact, text)
#endif
ALGOLMALLET_HOLDS(sizeof(algolmallet_word) == 8, "the size of a word's answer");
ALGOLMALLET_HOLDS(offsetof(algolmallet_word, word) == 4, "the layout of a word's answer");
ALGOLMALLET_HOLDS(sizeof(size_t) == 8, "the library is for x86-64");
#undef ALGOLMALLET_HOLDS

/* "Command word, high bits first: address 5, transmit 1, sub-address 5, words 5, where 32 is written as 0." The address is 0 to 31,
 * transmit 0 or 1; "the sub-address is 0 to 31 and the words 1 to 32; sub-address 0 makes it a mode command and the last field its number,
 * 0 to 31". Refused by 11. */
algolmallet_word algolmallet_command_word(uint32_t address, uint32_t transmit, uint32_t sub_address, uint32_t last);

/* "Status word: address 5, message error 1, status 9, terminal failure 1." The address is 0 to 31, error and failure 0 or 1, the status
 * 0 to 511. Refused by 11. */
algolmallet_word algolmallet_status_word(uint32_t address, uint32_t error, uint32_t status, uint32_t failure);

/* "With parity it is a 17-bit image, word times two plus parity": the parity is odd, over the word's ones and itself. */
uint32_t algolmallet_word_image(uint16_t word);

#ifdef __cplusplus
}
#endif
#endif
