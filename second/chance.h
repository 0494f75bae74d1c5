/* Deterministic random numbers (splitmix64) and a growing text, for the generator. */
#ifndef SECOND_CHANCE_H
#define SECOND_CHANCE_H

#include <stdbool.h>
#include <stddef.h>
#include <stdint.h>

typedef struct {
    uint64_t state;
} chance;

/* A stream of numbers of its own for each pair. */
chance chance_of(uint64_t seed, uint64_t index);

uint64_t chance_next(chance *c);

/* A number from `least` to `most`, both included. */
unsigned pick(chance *c, unsigned least, unsigned most);

/* True `percent` times in a hundred. */
bool likely(chance *c, unsigned percent);

typedef struct {
    uint8_t *bytes;
    size_t length;
    size_t room;
} text;

void text_clear(text *t);
void text_add(text *t, const void *bytes, size_t length);
void text_print(text *t, const char *format, ...) __attribute__((format(printf, 2, 3)));
void text_free(text *t);

#endif
