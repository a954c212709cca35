/* Decodes one component of a message: base64url on standard input, its octets on standard output.
 *
 * The whole input is the component, so a text with a newline at its end is refused. Refused, the program writes
 * `refused N` and LF, with a number of docs/REFUSALS.md, and exits 1. Trouble with files or memory is told on standard
 * error, and then it exits 2. */
#include "jwe_gateway.h"

#include <stdio.h>
#include <stdlib.h>

struct text {
    uint8_t *start;
    size_t length;
};

static int trouble(const char *what)
{
    fprintf(stderr, "decode: %s\n", what);
    return 2;
}

/* Reads all of a file, however long. Answers 0 where that failed; start is to be freed in either case. */
static int read_all(FILE *file, struct text *text)
{
    size_t room = 65536;
    text->length = 0;
    text->start = malloc(room);
    if (text->start == NULL)
        return 0;
    for (;;) {
        text->length += fread(text->start + text->length, 1, room - text->length, file);
        if (text->length < room)
            return !ferror(file);
        if (room > SIZE_MAX / 2)
            return 0;
        uint8_t *longer = realloc(text->start, room * 2);
        if (longer == NULL)
            return 0;
        text->start = longer;
        room *= 2;
    }
}

/* Writes the octets of a text, or its refusal. */
static int decode(const struct text *text)
{
    size_t room = text->length / 4 * 3 + 2;
    uint8_t *out = malloc(room);
    if (out == NULL)
        return trouble("no memory for the octets");
    size_t octets;
    uint32_t refusal = jwe_decode(text->start, text->length, out, room, &octets);
    if (refusal == JWE_OK)
        fwrite(out, 1, octets, stdout);
    else
        printf("refused %u\n", (unsigned)refusal);
    free(out);
    if (fflush(stdout) != 0 || ferror(stdout))
        return trouble("standard output cannot be written");
    return refusal == JWE_OK ? 0 : 1;
}

int main(void)
{
    struct text text;
    int status = read_all(stdin, &text) ? decode(&text) : trouble("standard input cannot be read");
    free(text.start);
    return status;
}
