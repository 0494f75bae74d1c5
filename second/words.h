/*
 * Bus words: command, status, parity and the 17-bit image ("Compool and bus
 * words").  Entries take wide numbers and refuse by 11 what is outside its
 * size; a refused entry answers the number alone and leaves *out untouched.
 */
#ifndef SECOND_WORDS_H
#define SECOND_WORDS_H

#include <stdint.h>

#include "paper.h"

/* `last` is the number of words, 1 to 32, or for sub-address 0 the mode number, 0 to 31. */
typedef struct {
    uint32_t address;
    uint32_t transmit;
    uint32_t subaddress;
    uint32_t last;
} command_fields;

typedef struct {
    uint32_t address;
    uint32_t error;   /* message error, 1 bit */
    uint32_t status;  /* 9 bits */
    uint32_t failure; /* terminal failure, 1 bit */
} status_fields;

typedef enum { VERDICT_ERROR, VERDICT_EXCEPTION, VERDICT_CLEAN } verdict;

enum refusal command_word(const command_fields *fields, uint16_t *out);
command_fields command_apart(uint16_t word);

enum refusal status_word(const status_fields *fields, uint16_t *out);
status_fields status_apart(uint16_t word);

/* The bit that makes the number of ones in word and parity odd, "looked up byte by byte in a fixed table": the
 * monitor's way, and the one that judges. */
unsigned parity(uint16_t word);

/* The same bit "by counting the word's ones with the machine's own operation": the way of a terminal that sends, which
 * has no room for a table. */
unsigned counted_parity(uint16_t word);

/* The 17-bit image that is sent: word times two plus parity. */
uint32_t status_image(uint16_t word);

enum refusal status_judge(uint32_t image, uint32_t expected, verdict *out);

#endif
