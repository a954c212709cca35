/* For the tests in C: checks that are counted, lent memory, and the encoding.
 *
 * A file that includes this defines _GNU_SOURCE before. */
#ifndef TESTING_H
#define TESTING_H

#include <stdint.h>
#include <stdio.h>
#include <stdlib.h>
#include <string.h>
#include <sys/mman.h>
#include <unistd.h>

static unsigned long cases, checks, failures;

#define CHECK(name, condition) check((name), (condition), #condition)

static inline int check(const char *name, int holds, const char *condition)
{
    checks++;
    if (!holds) {
        failures++;
        printf("FAILED %s: %s\n", name, condition);
    }
    return holds;
}

/* `PROGRAM short` leaves out texts of 16 MiB and lengths over 2^32, for valgrind, which is some fifty times slower. */
static inline int is_short(int argc, char **argv)
{
    return argc > 1 && strcmp(argv[1], "short") == 0;
}

/* Lent memory. The sanitizers do not see what the archive's code does, so a buffer also stands against pages that
 * nothing may touch: an octet read or written beyond its end, or before its start, stops the program. */
enum place { BEFORE_FENCE, AFTER_FENCE, MALLOC, PLACES };

static const char *const place_names[PLACES] = {"before a fence", "after a fence", "malloc"};

struct lent {
    uint8_t *start;
    uint8_t *map;
    size_t span;
};

static inline void *must(void *memory)
{
    if (memory == NULL || memory == MAP_FAILED) {
        perror("no memory");
        exit(2);
    }
    return memory;
}

static inline struct lent lend(enum place place, size_t length)
{
    if (place == MALLOC)
        return (struct lent){must(malloc(length)), NULL, 0};
    size_t page = (size_t)sysconf(_SC_PAGESIZE);
    size_t pages = (length + page - 1) / page * page;
    size_t span = pages + 2 * page;
    uint8_t *map = must(mmap(NULL, span, PROT_NONE, MAP_PRIVATE | MAP_ANONYMOUS, -1, 0));
    if (pages > 0 && mprotect(map + page, pages, PROT_READ | PROT_WRITE) != 0)
        must(NULL);
    return (struct lent){map + page + (place == BEFORE_FENCE ? pages - length : 0), map, span};
}

static inline void give_back(struct lent lent)
{
    if (lent.map == NULL)
        free(lent.start);
    else
        munmap(lent.map, lent.span);
}

static inline int all_are(const uint8_t *octets, size_t n, uint8_t value)
{
    return n == 0 || (octets[0] == value && memcmp(octets, octets + 1, n - 1) == 0);
}

/* Octets that a test sets down. */
struct text {
    const void *octets;
    size_t length;
};

#define TEXT(literal) ((struct text){(literal), sizeof(literal) - 1})

static inline struct lent lend_copy(enum place place, struct text text)
{
    struct lent lent = lend(place, text.length);
    if (text.length > 0)
        memcpy(lent.start, text.octets, text.length);
    return lent;
}

static inline struct lent lend_painted(enum place place, size_t length, uint8_t paint)
{
    struct lent lent = lend(place, length);
    memset(lent.start, paint, length);
    return lent;
}

/* A buffer that was lent to be read only. */
static inline int is_copy(struct lent lent, struct text text)
{
    return text.length == 0 || memcmp(lent.start, text.octets, text.length) == 0;
}

/* A painted buffer that begins with a text and has its paint after that. */
static inline int begins_with(struct lent lent, size_t length, struct text text, uint8_t paint)
{
    return text.length <= length && is_copy(lent, text) &&
           all_are(lent.start + text.length, length - text.length, paint);
}

static const char alphabet[] = "ABCDEFGHIJKLMNOPQRSTUVWXYZabcdefghijklmnopqrstuvwxyz0123456789-_";

/* The encoding, bit by bit: character i has the bits 6i to 6i + 5 of the octets, and zeros after the last. */
static inline size_t spell(const uint8_t *octets, size_t n, uint8_t *text)
{
    size_t length = 0;
    for (size_t bit = 0; bit < 8 * n; bit += 6) {
        unsigned value = 0;
        for (size_t b = bit; b < bit + 6; b++)
            value = value * 2 + (b < 8 * n ? octets[b / 8] >> (7 - b % 8) & 1 : 0);
        text[length++] = (uint8_t)alphabet[value];
    }
    return length;
}

#endif
