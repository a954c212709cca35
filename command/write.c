/* The subcommand `write`: files in, one of the library's writers, a message out. */
#include "command.h"

#include <stdlib.h>
#include <string.h>

/* What a message is written of: each recipient's parts, the message's own with the first. */
struct parts {
    struct octets of[JWE_MOST_RECIPIENTS][PARTS];
    size_t recipients;
};

/* Where a part has no octets. */
static uint8_t nothing;

/* What the form has no place for, or cannot be without. */
static int check_form(const struct request *request)
{
    static const struct {
        int part;
        const char *option;
    } only_json[] = {{SHARED, "--shared"}, {AAD, "--aad"}, {OWN, "--own"}};
    if (request->form == GENERAL)
        return 0;
    if (request->last_recipient > 0)
        return trouble("--next", "only a message that is --general has more than one recipient");
    if (request->form == FLATTENED)
        return 0;
    for (size_t i = 0; i < sizeof only_json / sizeof *only_json; i++)
        if (request->paths[0][only_json[i].part] != NULL)
            return trouble(only_json[i].option, "a compact message has none: --flattened or --general is needed");
    return request->paths[0][HEADER] != NULL ? 0 : trouble("write", "--header FILE is needed in a compact message");
}

static int read_parts(const struct request *request, struct parts *parts)
{
    parts->recipients = request->last_recipient + 1;
    for (size_t i = 0; i < parts->recipients; i++)
        for (int part = 0; part < PARTS; part++)
            parts->of[i][part] = (struct octets){&nothing, 0};
    for (size_t i = 0; i < parts->recipients; i++)
        for (int part = 0; part < PARTS; part++)
            if (request->paths[i][part] != NULL && read_file(request->paths[i][part], &parts->of[i][part]) != 0)
                return TROUBLE;
    return 0;
}

static void free_parts(struct parts *parts)
{
    for (size_t i = 0; i < parts->recipients; i++)
        for (int part = 0; part < PARTS; part++)
            if (parts->of[i][part].start != &nothing)
                free(parts->of[i][part].start);
}

static uint8_t *put_length(uint8_t *next, size_t length)
{
    for (int shift = 24; shift >= 0; shift -= 8)
        *next++ = (uint8_t)(length >> shift);
    return next;
}

static uint8_t *put_octets(uint8_t *next, const struct octets *octets)
{
    memcpy(next, octets->start, octets->length);
    return next + octets->length;
}

/* The recipients as the library takes them, contents first. To be freed; no start where there is no memory. */
static struct octets lay_recipients(const struct parts *parts)
{
    size_t length = 1 + 8 * parts->recipients;
    for (size_t i = 0; i < parts->recipients; i++)
        length += parts->of[i][OWN].length + parts->of[i][KEY].length;
    uint8_t *start = malloc(length), *next = start;
    if (start == NULL)
        return (struct octets){NULL, 0};
    *next++ = (uint8_t)parts->recipients;
    for (size_t i = 0; i < parts->recipients; i++)
        next = put_length(put_length(next, parts->of[i][OWN].length), parts->of[i][KEY].length);
    for (size_t i = 0; i < parts->recipients; i++)
        next = put_octets(put_octets(next, &parts->of[i][OWN]), &parts->of[i][KEY]);
    return (struct octets){start, length};
}

/* The writers are asked with room for the longest message, so that they refuse a longer one for its length. */
static uint32_t write_compact(const struct request *request, const struct octets *part, uint8_t *out, size_t *n)
{
    return jwe_write_compact(part[HEADER].start, part[HEADER].length, part[KEY].start, part[KEY].length,
                             part[IV].start, part[IV].length, part[CIPHERTEXT].start, part[CIPHERTEXT].length,
                             part[TAG].start, part[TAG].length, request->known, request->known_length, out,
                             JWE_MESSAGE_OCTETS, n);
}

static uint32_t write_json(const struct request *request, const struct octets *part, const struct octets *recipients,
                           uint8_t *out, size_t *n)
{
    return (request->form == FLATTENED ? jwe_write_flattened : jwe_write_general)(
        part[HEADER].start, part[HEADER].length, part[SHARED].start, part[SHARED].length, part[AAD].start,
        part[AAD].length, part[IV].start, part[IV].length, part[CIPHERTEXT].start, part[CIPHERTEXT].length,
        part[TAG].start, part[TAG].length, request->known, request->known_length, recipients->start,
        recipients->length, out, JWE_MESSAGE_OCTETS, n);
}

/* A shared or own header that was not read to its end is too long for any message, whatever stands in the rest. */
static bool has_cut_text(const struct parts *parts)
{
    bool cut = is_too_long(&parts->of[0][SHARED]);
    for (size_t i = 0; i < parts->recipients; i++)
        cut |= is_too_long(&parts->of[i][OWN]);
    return cut;
}

static int write_parts(const struct request *request, const struct parts *parts)
{
    if (has_cut_text(parts))
        return refused(stderr, JWE_MESSAGE_TOO_LONG);
    uint8_t *out = malloc(JWE_MESSAGE_OCTETS);
    struct octets recipients = lay_recipients(parts);
    int status;
    if (out == NULL || recipients.start == NULL) {
        status = system_trouble("memory");
    } else {
        size_t n;
        uint32_t refusal = request->form == COMPACT ? write_compact(request, parts->of[0], out, &n)
                                                    : write_json(request, parts->of[0], &recipients, out, &n);
        status = hand_out(refusal, out, n);
    }
    free(recipients.start);
    free(out);
    return status;
}

int write_message(struct request *request)
{
    struct parts parts;
    if (check_form(request) != 0)
        return TROUBLE;
    int status = read_parts(request, &parts);
    if (status == 0)
        status = write_parts(request, &parts);
    free_parts(&parts);
    return status;
}
