/* What the parts of the command share. */
#ifndef COMMAND_H
#define COMMAND_H

#include <stdbool.h>
#include <stddef.h>
#include <stdint.h>
#include <stdio.h>

#include "jwe_gateway.h"

/* Exit statuses; those of a comparison are the first two and TROUBLE, also for a message that is refused. */
enum { ACCEPTED = 0, REFUSED = 1, SAME = 0, DIFFERENT = 1, TROUBLE = 2 };

struct octets {
    uint8_t *start;
    size_t length;
};

/* Document 01's list of known names: at most so many, of 1 to so many octets. */
enum { MOST_NAMES = 16, LONGEST_NAME = 64 };

struct names {
    const char *name[MOST_NAMES];
    size_t count;
};

/* The files that a message is written of: each is the message's, or from OWN on a recipient's. */
enum { HEADER, SHARED, AAD, IV, CIPHERTEXT, TAG, OWN, KEY, PARTS };

/* Forms of messages, as jwe_read numbers them. */
enum { COMPACT, FLATTENED, GENERAL };

/* What the command line asks for. */
struct request {
    struct names names;
    uint8_t known[1 + MOST_NAMES + MOST_NAMES * LONGEST_NAME]; /* the names as the library takes them */
    size_t known_length;
    uint32_t recipient;
    bool numbers;
    int form; /* that is written */
    const char *paths[JWE_MOST_RECIPIENTS][PARTS]; /* by recipient, the message's own with the first; NULL: absent */
    size_t last_recipient;
    const char *operands[2];
    struct octets message, other; /* freed when the subcommand is done; of two messages the right one is the other */
};

/* What jwe_read hands out for a recipient. */
struct reading {
    uint8_t header[JWE_HEADER_OCTETS];
    uint32_t list[JWE_LIST_NUMBERS];
    uint32_t result[JWE_RESULT_NUMBERS];
};

/* files.c. What answers a status has told its trouble on standard error. */
int trouble(const char *about, const char *what);
int system_trouble(const char *about);
int read_file(const char *path, struct octets *octets); /* to be freed, also after trouble */
int write_output(const uint8_t *octets, size_t length);
int flush_output(void);
int hand_out(uint32_t refusal, const uint8_t *out, size_t length); /* what the library left in out, or its refusal */

/* What the command line names may be made to fool a terminal: only printable ASCII is repeated. */
char printable(char c);

/* Whether a file is longer than a message may be; no more of it is read than shows that. */
bool is_too_long(const struct octets *octets);

/* refusals.c: tells a refusal with what to do, and answers REFUSED. */
int refused(FILE *to, uint32_t refusal);

/* show.c: what a person is shown. Words for forms, and for components and origins also those of document 01's lines. */
enum { COMPONENTS = 6 };

struct words {
    const char *word, *words;
};

extern const char *const forms[];
extern const struct words components[COMPONENTS], origins[];

/* A row of jwe_read's list. */
enum { ORIGIN, NAME_START, NAME_LENGTH, VALUE_START, VALUE_LENGTH, KIND, ROW };

const uint32_t *place_of(const struct reading *reading, int component);

/* Some characters, and what is said of those that were cut. */
enum { MOST_SHOWN = 60 };

struct shown {
    char text[MOST_SHOWN + 40];
    size_t length;
};

/* Part of a JSON text, from about octet `from` on and at most so many characters, in printable ASCII, so that no name
 * or value can fool a terminal or look like another. Of what is cut the length is told. */
struct shown show(const uint8_t *text, size_t length, size_t from, size_t most);

/* How many octets a component has. */
struct shown show_component(const struct reading *reading, int component);

/* inspect.c: a component's number by its word, or -1; what a message is, for a person and in document 01's lines. */
int component_called(const char *word);
void print_words(const struct request *request, const struct reading *reading);
void print_numbers(const struct reading *reading);

/* write.c, compare.c: the subcommands. */
int write_message(struct request *request);
int compare(struct request *request);

#endif
