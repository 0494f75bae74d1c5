#include "chance.h"

#include <stdarg.h>
#include <stdio.h>
#include <stdlib.h>
#include <string.h>

static uint64_t mix(uint64_t z)
{
    z = (z ^ (z >> 30)) * UINT64_C(0xbf58476d1ce4e5b9);
    z = (z ^ (z >> 27)) * UINT64_C(0x94d049bb133111eb);
    return z ^ (z >> 31);
}

chance chance_of(uint64_t seed, uint64_t index)
{
    return (chance){mix(mix(seed) + index * UINT64_C(0xd1342543de82ef95) + 1)};
}

uint64_t chance_next(chance *c)
{
    c->state += UINT64_C(0x9e3779b97f4a7c15);
    return mix(c->state);
}

unsigned pick(chance *c, unsigned least, unsigned most)
{
    return least + (unsigned)(chance_next(c) % ((uint64_t)most - least + 1));
}

bool likely(chance *c, unsigned percent)
{
    return pick(c, 0, 99) < percent;
}

void text_clear(text *t)
{
    t->length = 0;
}

static void make_room(text *t, size_t more)
{
    if (t->room - t->length >= more)
        return;
    t->room = (t->length + more) * 2;
    t->bytes = realloc(t->bytes, t->room);
    if (t->bytes == NULL) {
        perror("generator");
        exit(2);
    }
}

void text_add(text *t, const void *bytes, size_t length)
{
    make_room(t, length);
    if (length > 0)
        memcpy(t->bytes + t->length, bytes, length);
    t->length += length;
}

void text_print(text *t, const char *format, ...)
{
    char line[256];
    va_list list;
    va_start(list, format);
    int n = vsnprintf(line, sizeof line, format, list);
    va_end(list);
    text_add(t, line, (size_t)n);
}

void text_free(text *t)
{
    free(t->bytes);
    *t = (text){NULL, 0, 0};
}
