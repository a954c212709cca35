/* The subcommand `compare`: two messages side by side, a line for each difference. */
#include "command.h"

#include <stdlib.h>
#include <string.h>

enum { LEFT, RIGHT, SIDES };

/* Of a value as many characters are shown, so that two stand side by side; of a file's name as many of its last. */
enum { VALUE_SHOWN = 40, PATH_SHOWN = 60, CELL = 160 };

/* Two messages, and what the library says of them. */
struct comparison {
    const struct request *request;
    const struct octets *messages[SIDES];
    uint32_t refusals[SIDES];
    uint32_t list[JWE_DIFFERENCES_ROOM];
    size_t lines;
    struct reading readings[SIDES][JWE_MOST_RECIPIENTS]; /* of the recipient numbers that both have */
};

/* What a line says: what differs, and how it is on either side. */
struct row {
    char what[CELL], sides[SIDES][CELL];
};

/* The component that a kind is about. */
static const int component_of[] = {
    [JWE_DIFFERS_PROTECTED] = JWE_PROTECTED, [JWE_DIFFERS_IV] = JWE_IV,
    [JWE_DIFFERS_AAD] = JWE_AAD,             [JWE_DIFFERS_CIPHERTEXT] = JWE_CIPHERTEXT,
    [JWE_DIFFERS_TAG] = JWE_TAG,             [JWE_DIFFERS_KEY] = JWE_ENCRYPTED_KEY,
};

static const char *const parameter_words[] = {
    [JWE_DIFFERS_ONLY_LEFT] = "only left",
    [JWE_DIFFERS_ONLY_RIGHT] = "only right",
    [JWE_DIFFERS_ORIGIN] = "moved",
    [JWE_DIFFERS_VALUE] = "other value",
};

/* Reads both messages for each recipient number that both have. They are accepted, so these readings are too. */
static uint32_t read_recipients(struct comparison *comparison)
{
    uint32_t both = 1, refusal = JWE_OK;
    for (uint32_t i = 0; i < both && refusal == JWE_OK; i++) {
        uint32_t counts[SIDES] = {0, 0};
        for (int side = LEFT; side < SIDES && refusal == JWE_OK; side++) {
            struct reading *reading = &comparison->readings[side][i];
            refusal = jwe_read(comparison->messages[side]->start, comparison->messages[side]->length,
                               comparison->request->known, comparison->request->known_length, i, reading->header,
                               JWE_HEADER_OCTETS, reading->list, JWE_LIST_NUMBERS, reading->result, JWE_RESULT_NUMBERS);
            counts[side] = reading->result[JWE_RESULT_RECIPIENTS];
        }
        both = counts[LEFT] < counts[RIGHT] ? counts[LEFT] : counts[RIGHT];
    }
    return refusal;
}

static unsigned six_bits(uint8_t c)
{
    if (c >= 'a')
        return c - 'a' + 26u;
    if (c == '_')
        return 63;
    if (c >= 'A')
        return c - 'A' + 0u;
    return c == '-' ? 62 : c - '0' + 52u;
}

static size_t first_difference(const uint8_t *one, size_t one_length, const uint8_t *other, size_t other_length)
{
    size_t at = 0;
    while (at < one_length && at < other_length && one[at] == other[at])
        at++;
    return at;
}

/* The first octet, counted from 0, in which two encoded texts that differ do so. */
static size_t first_octet(const struct octets *one, const struct octets *other)
{
    size_t at = first_difference(one->start, one->length, other->start, other->length);
    if (at == one->length || at == other->length)
        return at * 6 / 8;
    unsigned bits = six_bits(one->start[at]) ^ six_bits(other->start[at]);
    size_t bit = 6 * at;
    for (; bits < 32; bits <<= 1)
        bit++;
    return bit / 8;
}

static void describe_component(const struct comparison *comparison, unsigned recipient, int component, struct row *row)
{
    struct octets texts[SIDES];
    for (int side = LEFT; side < SIDES; side++) {
        const struct reading *reading = &comparison->readings[side][recipient];
        const uint32_t *place = place_of(reading, component);
        texts[side] = (struct octets){comparison->messages[side]->start + place[0], place[1]};
        snprintf(row->sides[side], CELL, "%s", show_component(reading, component).text);
    }
    if (component == JWE_ENCRYPTED_KEY)
        snprintf(row->what, CELL, "%s of recipient %u", components[component].words, recipient);
    else
        snprintf(row->what, CELL, "%s", components[component].words);
    if (texts[LEFT].length > 0 && texts[RIGHT].length > 0) {
        size_t length = strlen(row->sides[RIGHT]);
        snprintf(row->sides[RIGHT] + length, CELL - length, ", other from octet %zu on",
                 first_octet(&texts[LEFT], &texts[RIGHT]));
    }
}

/* Where the places of an origin count. */
static const uint8_t *text_of(const struct comparison *comparison, int side, unsigned recipient, uint32_t origin)
{
    return origin == 0 ? comparison->readings[side][recipient].header : comparison->messages[side]->start;
}

/* The name of the parameter whose value stands there. */
static struct shown show_name(const struct comparison *comparison, int side, unsigned recipient, const uint32_t *place)
{
    const struct reading *reading = &comparison->readings[side][recipient];
    const uint32_t *row = reading->list;
    while (row[ORIGIN] != place[0] || row[VALUE_START] != place[1])
        row += ROW;
    return show(text_of(comparison, side, recipient, place[0]) + row[NAME_START], row[NAME_LENGTH], 0, VALUE_SHOWN);
}

/* Values that begin alike are shown from some characters before the first octet in which they differ. */
static size_t shown_from(const uint8_t *const values[SIDES], const uint32_t *line)
{
    enum { BEFORE = 10 };
    size_t at = first_difference(values[LEFT], line[JWE_DIFFERENCE_LEFT + 2], values[RIGHT],
                                 line[JWE_DIFFERENCE_RIGHT + 2]);
    return at > VALUE_SHOWN - BEFORE ? at - BEFORE : 0;
}

static void describe_parameter(const struct comparison *comparison, const uint32_t *line, struct row *row)
{
    unsigned kind = line[JWE_DIFFERENCE_KIND], recipient = line[JWE_DIFFERENCE_RECIPIENT];
    const uint32_t *places[SIDES] = {line + JWE_DIFFERENCE_LEFT, line + JWE_DIFFERENCE_RIGHT};
    const uint8_t *values[SIDES];
    for (int side = LEFT; side < SIDES; side++)
        values[side] = text_of(comparison, side, recipient, places[side][0]) + places[side][1];
    size_t from = kind == JWE_DIFFERS_VALUE ? shown_from(values, line) : 0;
    int named = kind == JWE_DIFFERS_ONLY_RIGHT ? RIGHT : LEFT;
    snprintf(row->what, CELL, "recipient %u  %-11s  \"%s\"", recipient, parameter_words[kind],
             show_name(comparison, named, recipient, places[named]).text);
    for (int side = LEFT; side < SIDES; side++)
        if (kind == (side == LEFT ? JWE_DIFFERS_ONLY_RIGHT : JWE_DIFFERS_ONLY_LEFT))
            snprintf(row->sides[side], CELL, "-");
        else
            snprintf(row->sides[side], CELL, "%-9s  %s", origins[places[side][0]].words,
                     show(values[side], places[side][2], from, VALUE_SHOWN).text);
}

static void describe(const struct comparison *comparison, const uint32_t *line, struct row *row)
{
    unsigned kind = line[JWE_DIFFERENCE_KIND];
    if (kind >= JWE_DIFFERS_ONLY_LEFT) {
        describe_parameter(comparison, line, row);
        return;
    }
    if (kind >= JWE_DIFFERS_PROTECTED) {
        describe_component(comparison, line[JWE_DIFFERENCE_RECIPIENT], component_of[kind], row);
        return;
    }
    snprintf(row->what, CELL, "%s", kind == JWE_DIFFERS_FORM ? "form" : "recipients");
    for (int side = LEFT; side < SIDES; side++) {
        const uint32_t *result = comparison->readings[side][0].result;
        if (kind == JWE_DIFFERS_FORM)
            snprintf(row->sides[side], CELL, "%s", forms[result[JWE_RESULT_FORM]]);
        else
            snprintf(row->sides[side], CELL, "%u", (unsigned)result[JWE_RESULT_RECIPIENTS]);
    }
}

/* The file's name, or its end where it is long. */
static void show_path(const struct comparison *comparison, int side, char *cell)
{
    const char *path = comparison->request->operands[side];
    size_t length = strlen(path);
    if (strcmp(path, "-") == 0)
        snprintf(cell, CELL, "standard input");
    else if (length > PATH_SHOWN)
        snprintf(cell, CELL, "...%s", path + length - PATH_SHOWN);
    else
        snprintf(cell, CELL, "%s", path);
    for (; *cell != '\0'; cell++)
        *cell = printable(*cell);
}

/* Row 0 has how many there are and the names of the files; the others have a line each. */
static void describe_row(const struct comparison *comparison, size_t number, struct row *row)
{
    if (number > 0) {
        describe(comparison, comparison->list + JWE_DIFFERENCE_NUMBERS * (number - 1), row);
        return;
    }
    if (comparison->lines == 0)
        snprintf(row->what, CELL, "no difference");
    else
        snprintf(row->what, CELL, "%zu %s", comparison->lines, comparison->lines == 1 ? "difference" : "differences");
    for (int side = LEFT; side < SIDES; side++)
        show_path(comparison, side, row->sides[side]);
}

static void widen(int *width, const char *cell)
{
    int length = (int)strlen(cell);
    if (length > *width)
        *width = length;
}

/* In three columns. */
static void print_table(const struct comparison *comparison)
{
    struct row row;
    int what = 0, left = 0;
    for (size_t i = 0; i <= comparison->lines; i++) {
        describe_row(comparison, i, &row);
        widen(&what, row.what);
        widen(&left, row.sides[LEFT]);
    }
    for (size_t i = 0; i <= comparison->lines; i++) {
        describe_row(comparison, i, &row);
        printf("%-*s  %-*s  %s\n", what, row.what, left, row.sides[LEFT], row.sides[RIGHT]);
    }
}

static void print_lines(const struct comparison *comparison)
{
    for (size_t i = 0; i < comparison->lines; i++)
        for (size_t k = 0; k < JWE_DIFFERENCE_NUMBERS; k++)
            printf("%u%c", (unsigned)comparison->list[JWE_DIFFERENCE_NUMBERS * i + k],
                   k + 1 < JWE_DIFFERENCE_NUMBERS ? ' ' : '\n');
}

/* Says of each message whether it is refused, and by what. */
static int tell_refusals(const struct comparison *comparison)
{
    const uint32_t *refusals = comparison->refusals;
    if (comparison->request->numbers)
        printf("refused %u %u\n", (unsigned)refusals[LEFT], (unsigned)refusals[RIGHT]);
    for (int side = LEFT; side < SIDES && !comparison->request->numbers; side++) {
        char name[CELL];
        show_path(comparison, side, name);
        printf("%s: ", name);
        if (refusals[side] == JWE_OK)
            puts("accepted");
        else
            refused(stdout, refusals[side]);
    }
    flush_output();
    return TROUBLE;
}

static int compare_messages(struct comparison *comparison)
{
    const struct octets *left = comparison->messages[LEFT], *right = comparison->messages[RIGHT];
    uint32_t own = jwe_differences(left->start, left->length, right->start, right->length, comparison->request->known,
                                   comparison->request->known_length, comparison->list, JWE_DIFFERENCES_ROOM,
                                   &comparison->refusals[LEFT], &comparison->refusals[RIGHT], &comparison->lines);
    if (comparison->refusals[LEFT] != JWE_OK || comparison->refusals[RIGHT] != JWE_OK)
        return tell_refusals(comparison);
    if (own == JWE_OK)
        own = read_recipients(comparison);
    if (own != JWE_OK) { /* an archive that is newer than the command */
        refused(stderr, own);
        return TROUBLE;
    }
    if (comparison->request->numbers)
        print_lines(comparison);
    else
        print_table(comparison);
    return comparison->lines == 0 ? SAME : DIFFERENT;
}

int compare(struct request *request)
{
    if (read_file(request->operands[LEFT], &request->message) != 0 ||
        read_file(request->operands[RIGHT], &request->other) != 0)
        return TROUBLE;
    struct comparison *comparison = malloc(sizeof *comparison);
    if (comparison == NULL)
        return system_trouble("memory");
    comparison->request = request;
    comparison->messages[LEFT] = &request->message;
    comparison->messages[RIGHT] = &request->other;
    int status = compare_messages(comparison);
    free(comparison);
    return status;
}
