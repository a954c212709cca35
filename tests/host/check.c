/* Tests jwe_decode from C by named cases: RFC 4648 section 10, document 01's samples, and each refusal from both sides,
 * the text that is refused beside the nearest one that is not.
 *
 * Every case is tried with buffers of several lengths, in each of the places and over both paints below. Prints each
 * failure by its name and exits 1 if there was one. */
#define _GNU_SOURCE
#include "testing.h"
#include "jwe_gateway.h"

/* What a text decodes to: octets, or refusal 5. */
struct answer {
    uint32_t refusal;
    const uint8_t *octets;
    size_t n;
};

/* One call. Tried over two paints, so that no octet is what it should be by chance. */
static void try_once(const char *name, const uint8_t *text, size_t length, struct answer answer, size_t room,
                     enum place place, uint8_t paint)
{
    struct lent in = lend(place, length);
    struct lent out = lend(place, room);
    memcpy(in.start, text, length);
    memset(out.start, paint, room);
    uint32_t refusal = answer.refusal != JWE_OK ? answer.refusal : room < answer.n ? JWE_TOO_SHORT : JWE_OK;
    size_t n = refusal == JWE_OK ? answer.n : 0;
    size_t octets = ~n;
    uint32_t got = jwe_decode(in.start, length, out.start, room, &octets);
    int good = CHECK(name, got == refusal);
    good &= CHECK(name, octets == n);
    good &= CHECK(name, n == 0 || memcmp(out.start, answer.octets, n) == 0);
    good &= CHECK(name, all_are(out.start + n, room - n, paint));
    good &= CHECK(name, length == 0 || memcmp(in.start, text, length) == 0);
    if (!good)
        printf("       %zu characters, buffer of %zu, %s, painted %#x: expected %u and %zu octets, got %u and %zu\n",
               length, room, place_names[place], paint, (unsigned)refusal, n, (unsigned)got, octets);
    give_back(in);
    give_back(out);
}

/* One case: in each place over both paints; in one place over one paint where a text is so long that it takes time. */
static void try_rooms(const char *name, const void *text, size_t length, struct answer answer, const size_t *rooms,
                      size_t count)
{
    cases++;
    for (size_t i = 0; i < count; i++)
        for (enum place place = 0; place < PLACES; place++) {
            try_once(name, text, length, answer, rooms[i], place, 0x5a);
            if (length > (size_t)1 << 20)
                break;
            try_once(name, text, length, answer, rooms[i], place, 0xa5);
        }
}

/* A text that stands for these octets: with a buffer exactly right, longer, one short and empty. */
static void accepted(const char *name, const void *text, size_t length, const void *octets, size_t n)
{
    const size_t rooms[] = {n, n + 1, length / 4 * 3 + 2, n + 100, 0, n > 0 ? n - 1 : 0};
    try_rooms(name, text, length, (struct answer){JWE_OK, octets, n}, rooms, sizeof rooms / sizeof *rooms);
}

/* A text that is not base64url: 5 whatever the buffer, also one that is too short. */
static void refused(const char *name, const void *text, size_t length)
{
    const size_t rooms[] = {0, 1, length / 4 * 3, length / 4 * 3 + 2, length + 100};
    try_rooms(name, text, length, (struct answer){JWE_NOT_BASE64URL, NULL, 0}, rooms, sizeof rooms / sizeof *rooms);
}

#define ACCEPTED(name, text, octets) accepted((name), (text), sizeof(text) - 1, (octets), sizeof(octets) - 1)
#define REFUSED(name, text) refused((name), (text), sizeof(text) - 1)

static void published(void)
{
    ACCEPTED("RFC 4648 section 10, empty", "", "");
    ACCEPTED("RFC 4648 section 10, f", "Zg", "f");
    ACCEPTED("RFC 4648 section 10, fo", "Zm8", "fo");
    ACCEPTED("RFC 4648 section 10, foo", "Zm9v", "foo");
    ACCEPTED("RFC 4648 section 10, foob", "Zm9vYg", "foob");
    ACCEPTED("RFC 4648 section 10, fooba", "Zm9vYmE", "fooba");
    ACCEPTED("RFC 4648 section 10, foobar", "Zm9vYmFy", "foobar");
    ACCEPTED("RFC 7515 appendix C, with - and _", "A-z_4ME", "\x03\xec\xff\xe0\xc1");
    ACCEPTED("T2, AA", "AA", "\0");
    REFUSED("T2, AB", "AB");
    REFUSED("T3, A", "A");
    ACCEPTED("T4", "eyJhbGciOiJkaXIiLCJlbmMiOiJBMTI4R0NNIn0", "{\"alg\":\"dir\",\"enc\":\"A128GCM\"}");
    ACCEPTED("T5", "eyJhbGciOiJSU0EtT0FFUCIsImVuYyI6IkEyNTZHQ00ifQ", "{\"alg\":\"RSA-OAEP\",\"enc\":\"A256GCM\"}");
}

static void faults(void)
{
    REFUSED("padding, ==", "Zg==");
    REFUSED("padding, one of two", "Zg=");
    REFUSED("padding, =", "Zm8=");
    REFUSED("padding after a whole group", "Zm9v=");
    REFUSED("padding in the middle", "Zg==Zm9v");
    REFUSED("padding alone", "====");
    REFUSED("space before", " Zm9");
    REFUSED("space after", "Zm9v ");
    REFUSED("space inside", "Zm 9v");
    REFUSED("tab", "Zm9\t");
    REFUSED("LF after", "Zm9v\n");
    REFUSED("CR LF after", "Zm9vYg\r\n");
    REFUSED("NUL alone", "\0\0");
    REFUSED("NUL after", "Zm9v\0");
    REFUSED("NUL before", "\0m9v");
    REFUSED("NUL inside a group", "Zm\0v");
    REFUSED("+ of plain base64", "A+z_");
    REFUSED("/ of plain base64", "A-z/");
    ACCEPTED("- and _ in their places", "A-z_", "\x03\xec\xff");
    REFUSED("0x80", "Zm9\x80");
    REFUSED("0xff", "Zm9\xff");
    REFUSED("Z with the high bit", "\xdam9v");
    REFUSED("a dot", "Zm9v.Zm9v");

    ACCEPTED("length 4", "AAAA", "\0\0\0");
    REFUSED("length 5", "AAAAA");
    ACCEPTED("length 6", "AAAAAA", "\0\0\0\0");
    ACCEPTED("length 7", "AAAAAAA", "\0\0\0\0\0");
    REFUSED("length 9", "AAAAAAAAA");

    ACCEPTED("four spare bits, 0000", "_w", "\xff");
    REFUSED("four spare bits, 0001", "_x");
    REFUSED("four spare bits, 0010", "_y");
    REFUSED("four spare bits, 0100", "_0");
    REFUSED("four spare bits, 1000", "_4");
    REFUSED("four spare bits, 1111", "__");
    ACCEPTED("two spare bits, 00", "__8", "\xff\xff");
    REFUSED("two spare bits, 01", "__9");
    REFUSED("two spare bits, 10", "__-");
    REFUSED("two spare bits, 11", "___");
    ACCEPTED("no spare bits", "____", "\xff\xff\xff");
}

/* Each octet in each place of a group, and last in both short ones. */
static void every_character(void)
{
    for (unsigned c = 0; c < 256; c++) {
        const char *found = c == 0 ? NULL : strchr(alphabet, (int)c);
        unsigned value = found == NULL ? 64 : (unsigned)(found - alphabet);
        for (size_t place = 0; place < 4; place++)
            for (size_t length = place < 2 ? 2 : place + 1; length <= 4; length++) {
                char name[64];
                snprintf(name, sizeof name, "octet %u as character %zu of %zu", c, place, length);
                uint8_t text[4] = {'A', 'A', 'A', 'A'};
                text[place] = (uint8_t)c;
                uint32_t bits = value << (18 - 6 * place);
                const uint8_t octets[] = {(uint8_t)(bits >> 16), (uint8_t)(bits >> 8), (uint8_t)bits};
                size_t n = length - 1;
                unsigned spare = place + 1 < length || length == 4 ? 1 : length == 3 ? 4 : 16;
                if (value == 64 || value % spare != 0)
                    refused(name, text, length);
                else
                    accepted(name, text, length, octets, n);
            }
    }
}

/* So many octets; then their text with a fault at its start, in its middle and at its end; and the nearest length that
 * is 1 modulo 4. */
static void long_text(size_t n)
{
    uint8_t *octets = must(malloc(n));
    uint8_t *text = must(malloc(n / 3 * 4 + 5));
    uint32_t state = 1;
    for (size_t i = 0; i < n; i++)
        octets[i] = (uint8_t)((state = state * 1664525 + 1013904223) >> 24);
    size_t length = spell(octets, n, text);
    char name[64];
    snprintf(name, sizeof name, "%zu octets, %zu characters", n, length);
    CHECK(name, length == (4 * n + 2) / 3);
    accepted(name, text, length, octets, n);
    const size_t places[] = {0, length / 2, length - 1};
    for (size_t i = 0; i < sizeof places / sizeof *places; i++) {
        uint8_t kept = text[places[i]];
        text[places[i]] = '=';
        snprintf(name, sizeof name, "%zu characters, = at %zu", length, places[i]);
        refused(name, text, length);
        text[places[i]] = kept;
    }
    size_t lone = length % 4 == 0 ? length + 1 : length - (length % 4 - 1);
    text[length] = 'A';
    snprintf(name, sizeof name, "%zu characters, 1 modulo 4", lone);
    refused(name, text, lone);
    free(octets);
    free(text);
}

static void every_short_length(void)
{
    uint8_t octets[600];
    uint8_t text[800];
    for (size_t n = 0; n <= sizeof octets; n++) {
        for (size_t i = 0; i < n; i++)
            octets[i] = (uint8_t)(n * 89 + i * 151 + i / 7);
        char name[64];
        snprintf(name, sizeof name, "%zu octets", n);
        accepted(name, text, spell(octets, n, text), octets, n);
    }
}

/* A length cut to 16 or 32 bits would be another length. */
static void no_length_is_cut(void)
{
    const size_t bits16 = (size_t)1 << 16, bits32 = (size_t)1 << 32;
    const int reserved_late = MAP_PRIVATE | MAP_ANONYMOUS | MAP_NORESERVE;
    const size_t rooms[] = {bits16 - 1, bits16, bits16 + 2};
    try_rooms("buffers about 2^16", "Zm9v", 4, (struct answer){JWE_OK, (const uint8_t *)"foo", 3}, rooms, 3);

    size_t octets = 0;
    uint8_t *out = must(mmap(NULL, bits32 + 2, PROT_READ | PROT_WRITE, reserved_late, -1, 0));
    CHECK("a buffer of 2^32 + 2", jwe_decode((const uint8_t *)"Zm9v", 4, out, bits32 + 2, &octets) == JWE_OK);
    CHECK("a buffer of 2^32 + 2", octets == 3 && memcmp(out, "foo", 3) == 0 && out[3] == 0);
    munmap(out, bits32 + 2);

    /* The same 16 MiB of A, one mapping after the other, and no more memory than that. */
    const size_t piece = (size_t)1 << 24;
    int file = memfd_create("A", 0);
    uint8_t *text = must(mmap(NULL, bits32 + piece, PROT_NONE, reserved_late, -1, 0));
    if (file < 0 || ftruncate(file, (off_t)piece) != 0)
        must(NULL);
    for (size_t i = 0; i <= bits32; i += piece)
        must(mmap(text + i, piece, PROT_READ | PROT_WRITE, MAP_SHARED | MAP_FIXED, file, 0));
    memset(text, 'A', piece);
    uint8_t room = 0x5a;
    octets = 1;
    CHECK("2^32 + 2 characters", jwe_decode(text, bits32 + 2, &room, 1, &octets) == JWE_TOO_SHORT);
    CHECK("2^32 + 2 characters", octets == 0 && room == 0x5a);
    munmap(text, bits32 + piece);
    close(file);
    cases += 2;
}

int main(int argc, char **argv)
{
    published();
    faults();
    every_character();
    every_short_length();
    long_text(65535);
    long_text(65536);
    long_text(65537);
    if (!is_short(argc, argv)) {
        long_text((size_t)12 << 20); /* 16 MiB of text */
        long_text((size_t)16 << 20);
        no_length_is_cut();
    }
    printf("check: %lu cases, %lu checks, %lu failed\n", cases, checks, failures);
    return failures != 0;
}
