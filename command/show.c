/* What a person is shown of a message: words for its numbers, sizes, and parts of its texts. */
#include "command.h"

#include <string.h>

const char *const forms[] = {"compact", "flattened", "general"};

const struct words components[COMPONENTS] = {
    [JWE_PROTECTED] = {"protected", "protected header"},
    [JWE_ENCRYPTED_KEY] = {"key", "encrypted key"},
    [JWE_IV] = {"iv", "iv"},
    [JWE_AAD] = {"aad", "aad"},
    [JWE_CIPHERTEXT] = {"ciphertext", "ciphertext"},
    [JWE_TAG] = {"tag", "tag"},
};

const struct words origins[] = {{"p", "protected"}, {"u", "shared"}, {"r", "own"}};

const uint32_t *place_of(const struct reading *reading, int component)
{
    return reading->result + JWE_RESULT_PLACES + 2 * component;
}

/* Adds a piece, whole or not at all: an escape is not cut. */
static bool add(struct shown *shown, size_t most, const char *piece)
{
    size_t length = strlen(piece);
    if (length > most - shown->length)
        return false;
    memcpy(shown->text + shown->length, piece, length + 1);
    shown->length += length;
    return true;
}

static uint32_t hexadecimal(const uint8_t *digits)
{
    uint32_t value = 0;
    for (int i = 0; i < 4; i++) {
        uint32_t digit = digits[i];
        value = value * 16 + (digit <= '9' ? digit - '0' : (digit | 32) - 'a' + 10);
    }
    return value;
}

/* The code point of the escape at text; moves past it. The reader has seen that escapes and pairs are whole. */
static uint32_t undo_escape(const uint8_t **text)
{
    static const char letters[] = "b\bf\fn\nr\rt\t";
    uint8_t letter = (*text)[1];
    *text += 2;
    if (letter == 'u') {
        uint32_t unit = hexadecimal(*text);
        *text += 4;
        if (unit < 0xd800 || unit > 0xdbff)
            return unit;
        uint32_t second = hexadecimal(*text + 2);
        *text += 6;
        return 0x10000 + ((unit - 0xd800) << 10) + (second - 0xdc00);
    }
    for (const char *pair = letters; *pair != '\0'; pair += 2)
        if ((uint8_t)pair[0] == letter)
            return (uint8_t)pair[1];
    return letter;
}

/* The code point at text; moves past it. The reader has seen that the text is UTF-8. */
static uint32_t code_point(const uint8_t **text)
{
    uint32_t first = *(*text)++;
    if (first < 0x80)
        return first;
    int more = first < 0xe0 ? 1 : first < 0xf0 ? 2 : 3;
    uint32_t point = first & (0x3fu >> more);
    for (; more > 0; more--)
        point = point << 6 | (*(*text)++ & 0x3fu);
    return point;
}

static uint32_t next_point(const uint8_t **text)
{
    return **text == '\\' ? undo_escape(text) : code_point(text);
}

/* One character in printable ASCII; moves past it. Escapes are undone where what they say is printable ASCII, but not
 * those that keep a quotation mark or a backslash from being misread; every other code point is shown as an escape.
 * Between values, tabs and line ends are spaces. */
static void spell(const uint8_t **text, char piece[16])
{
    bool escaped = **text == '\\';
    uint32_t point = next_point(text);
    if (!escaped && point < ' ')
        point = ' ';
    if (escaped && (point == '"' || point == '\\'))
        snprintf(piece, 16, "\\%c", (char)point);
    else if (point >= ' ' && point <= '~')
        snprintf(piece, 16, "%c", (char)point);
    else if (point <= 0xffff)
        snprintf(piece, 16, "\\u%04x", (unsigned)point);
    else
        snprintf(piece, 16, "\\u%04x\\u%04x", (unsigned)(0xd800 + ((point - 0x10000) >> 10)),
                 (unsigned)(0xdc00 + (point & 0x3ff)));
}

static const char *octets_word(size_t n)
{
    return n == 1 ? "octet" : "octets";
}

struct shown show(const uint8_t *text, size_t length, size_t from, size_t most)
{
    struct shown shown = {.text = ""};
    const uint8_t *end = text + length, *first = text + from;
    bool cut_before = from > 0, cut_behind = false;
    char piece[16];
    while (text < first)
        next_point(&text);
    while (text < end && !cut_behind) {
        spell(&text, piece);
        cut_behind = !add(&shown, most, piece);
    }
    if (cut_before || cut_behind) {
        char whole[sizeof shown.text];
        int n = snprintf(whole, sizeof whole, "%s%s%s (%zu %s)", cut_before ? "..." : "", shown.text,
                         cut_behind ? "..." : "", length, octets_word(length));
        memcpy(shown.text, whole, (size_t)n + 1);
        shown.length = (size_t)n;
    }
    return shown;
}

struct shown show_component(const struct reading *reading, int component)
{
    const uint32_t *place = place_of(reading, component);
    size_t length = place[1], octets = length / 4 * 3 + (length % 4 == 0 ? 0 : length % 4 - 1);
    struct shown shown;
    if (length > 0)
        snprintf(shown.text, sizeof shown.text, "%zu %s", octets, octets_word(octets));
    else
        snprintf(shown.text, sizeof shown.text, "%s", place[0] == 0 ? "absent" : "empty");
    shown.length = strlen(shown.text);
    return shown;
}
