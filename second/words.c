#include "words.h"

#include <stdbool.h>

#include "mutant.h"

/* 1 where the byte has an odd number of ones. */
#define ODD2(n) n, n ^ 1, n ^ 1, n
#define ODD4(n) ODD2(n), ODD2(n ^ 1), ODD2(n ^ 1), ODD2(n)
#define ODD6(n) ODD4(n), ODD4(n ^ 1), ODD4(n ^ 1), ODD4(n)
static const uint8_t odd_ones[256] = {ODD6(0), ODD6(1), ODD6(1), ODD6(0)};

enum {
    IMAGE_MAX = 131071,
    STATUS_MAX = 511,
    MODE_SUBADDRESS = 0,
    COMMAND_SUBADDRESS_MAX = 31,
    MODE_NUMBER_MAX = 31
};

static bool last_field_fits(const command_fields *f)
{
    if (f->subaddress == MODE_SUBADDRESS)
        return f->last <= MODE_NUMBER_MAX;
    return f->last >= 1 && f->last <= ROW_WORDS_MAX;
}

/* Whether a field of one bit is within its size. */
static bool is_bit(uint32_t field)
{
    return field <= 1 || MUTATED(BIT_CUT);
}

/* The lowest bit at a place of the word: all of a field of one bit that is within its size. */
static uint32_t bit_at(uint32_t field, unsigned place)
{
    return (field & 1) << place;
}

enum refusal command_word(const command_fields *f, uint16_t *out)
{
    if (f->address > ADDRESS_MAX || !is_bit(f->transmit) || f->subaddress > COMMAND_SUBADDRESS_MAX ||
        !last_field_fits(f))
        return BAD_FIELD;
    uint32_t low = f->last % 32; /* 32 words are written as 0 */
    if (MUTATED(WORDS_UNREDUCED))
        low = f->last;
    *out = (uint16_t)((f->address << 11 | bit_at(f->transmit, 10) | f->subaddress << 5) + low);
    return ACCEPTED;
}

command_fields command_apart(uint16_t word)
{
    command_fields f = {
        .address = word >> 11,
        .transmit = word >> 10 & 1,
        .subaddress = word >> 5 & 31,
        .last = word & 31,
    };
    if (f.subaddress != MODE_SUBADDRESS && f.last == 0)
        f.last = ROW_WORDS_MAX;
    return f;
}

enum refusal status_word(const status_fields *f, uint16_t *out)
{
    if (f->address > ADDRESS_MAX || !is_bit(f->error) || f->status > STATUS_MAX || !is_bit(f->failure))
        return BAD_FIELD;
    *out = (uint16_t)(f->address << 11 | bit_at(f->error, 10) | f->status << 1 | bit_at(f->failure, 0));
    return ACCEPTED;
}

status_fields status_apart(uint16_t word)
{
    return (status_fields){
        .address = word >> 11,
        .error = word >> 10 & 1,
        .status = word >> 1 & STATUS_MAX,
        .failure = word & 1,
    };
}

static unsigned looked_up(unsigned byte)
{
    if (MUTATED(ENTRY_WRONG) && byte == WRONG_ENTRY)
        return odd_ones[byte] ^ 1u;
    return odd_ones[byte];
}

unsigned parity(uint16_t word)
{
    return looked_up(word >> 8) ^ looked_up(word & 255) ^ 1u;
}

static unsigned ones_of(unsigned word)
{
    if (MUTATED(LOW_BYTE_COUNTED))
        word &= 0xff;
    if (MUTATED(HIGHEST_BIT_UNCOUNTED))
        word &= 0x7fff;
    return (unsigned)__builtin_popcount(word);
}

unsigned counted_parity(uint16_t word)
{
    unsigned ones = ones_of(word);
    return MUTATED(EVEN_PARITY_SENT) ? ones % 2 : (ones + 1) % 2;
}

uint32_t status_image(uint16_t word)
{
    unsigned bit = counted_parity(word);
    if (MUTATED(PARITY_ABOVE_WORD))
        return (uint32_t)bit << 16 | word;
    return (uint32_t)word * 2 + bit;
}

enum refusal status_judge(uint32_t image, uint32_t expected, verdict *out)
{
    if (image > IMAGE_MAX || expected > ADDRESS_MAX)
        return BAD_FIELD;
    uint16_t word = (uint16_t)(image >> 1);
    status_fields f = status_apart(word);
    if (parity(word) != (image & 1) || f.address != expected)
        *out = VERDICT_ERROR;
    else if (!MUTATED(EXCEPTION_CLEAN) && (f.error != 0 || f.status != 0 || f.failure != 0))
        *out = VERDICT_EXCEPTION;
    else
        *out = VERDICT_CLEAN;
    return ACCEPTED;
}
