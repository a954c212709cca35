/* Tests jwe_write_compact and jwe_aad from C by named cases: document 01's samples, every refusal of the writer beside
 * the nearest input that is not refused, and for each two refusals that follow one another an input with both faults;
 * and what was written read again.
 *
 * Every case is tried with buffers of several lengths, in each place and over both paints. Prints each failure by its
 * name and exits 1 if there was one. */
#define _GNU_SOURCE
#include "testing.h"

#include "jwe_gateway.h"

#define H "eyJhbGciOiJkaXIiLCJlbmMiOiJBMTI4R0NNIn0"
#define M H "..AA.AQID.Ag"
#define DIR "\"alg\":\"dir\",\"enc\":\"A128GCM\""
#define HEADER "{" DIR "}"
#define WRAPPED "{\"alg\":\"A128KW\",\"enc\":\"A128GCM\"}"
#define LONGEST 16777216

/* What a message is written of; the known names are last. */
enum { PARTS = 5, KNOWN = PARTS, INPUTS };

struct inputs {
    struct text of[INPUTS];
};

/* A header with the other components of M, and no known names. */
static struct inputs with_header(struct text header)
{
    return (struct inputs){{header, TEXT(""), TEXT("\0"), TEXT("\1\2\3"), TEXT("\2"), TEXT("\0")}};
}

static struct inputs with(struct text header, int input, struct text text)
{
    struct inputs inputs = with_header(header);
    inputs.of[input] = text;
    return inputs;
}

static uint32_t write_inputs(const uint8_t *const *start, const struct inputs *inputs, uint8_t *out, size_t room,
                             size_t *n)
{
    const struct text *of = inputs->of;
    return jwe_write_compact(start[0], of[0].length, start[1], of[1].length, start[2], of[2].length, start[3],
                             of[3].length, start[4], of[4].length, start[5], of[5].length, out, room, n);
}

static void try_write(const char *name, const struct inputs *inputs, uint32_t refusal, struct text message, size_t room,
                      enum place place, uint8_t paint)
{
    struct lent lent[INPUTS];
    const uint8_t *start[INPUTS];
    for (int i = 0; i < INPUTS; i++) {
        lent[i] = lend_copy(place, inputs->of[i]);
        start[i] = lent[i].start;
    }
    struct lent out = lend_painted(place, room, paint);
    if (refusal == JWE_OK && room < message.length)
        refusal = JWE_TOO_SHORT;
    if (refusal != JWE_OK)
        message.length = 0;
    size_t n = ~message.length;
    uint32_t got = write_inputs(start, inputs, out.start, room, &n);
    int good = CHECK(name, got == refusal);
    good &= CHECK(name, n == message.length);
    good &= CHECK(name, begins_with(out, room, message, paint));
    for (int i = 0; i < INPUTS; i++)
        good &= CHECK(name, is_copy(lent[i], inputs->of[i]));
    if (!good)
        printf("       buffer of %zu, %s, painted %#x: expected %u and %zu octets, got %u and %zu\n", room,
               place_names[place], paint, (unsigned)refusal, message.length, (unsigned)got, n);
    for (int i = 0; i < INPUTS; i++)
        give_back(lent[i]);
    give_back(out);
}

static void try_rooms(const char *name, const struct inputs *inputs, uint32_t refusal, struct text message,
                      const size_t *rooms, size_t count)
{
    /* In one place over one paint where a part is so long that it takes time. */
    size_t length = 0;
    for (int i = 0; i < INPUTS; i++)
        length += inputs->of[i].length;
    int is_long = length > (size_t)1 << 20;
    cases++;
    for (size_t i = 0; i < count; i++)
        for (enum place place = 0; place < (is_long ? 1 : PLACES); place++)
            for (int paint = 0x5a; paint <= (is_long ? 0x5a : 0xa5); paint += 0xa5 - 0x5a)
                try_write(name, inputs, refusal, message, rooms[i], place, (uint8_t)paint);
}

/* With a buffer exactly right, longer, one short and empty. */
static void writes(const char *name, struct inputs inputs, struct text message)
{
    const size_t n = message.length, rooms[] = {n, n + 1, n + 100, n - 1, 0};
    try_rooms(name, &inputs, JWE_OK, message, rooms, sizeof rooms / sizeof *rooms);
}

/* 1 comes last, so the refusal is the same with an empty buffer. */
static void refuses(const char *name, uint32_t refusal, struct inputs inputs)
{
    const size_t rooms[] = {0, 1, 51, 10000};
    try_rooms(name, &inputs, refusal, (struct text){NULL, 0}, rooms, sizeof rooms / sizeof *rooms);
}

/* The message spelled bit by bit. To be freed. */
static struct text spelled(struct inputs inputs)
{
    size_t room = PARTS, length = 0;
    for (int i = 0; i < PARTS; i++)
        room += 2 * inputs.of[i].length;
    uint8_t *text = must(malloc(room));
    for (int i = 0; i < PARTS; i++) {
        if (i > 0)
            text[length++] = '.';
        length += spell(inputs.of[i].octets, inputs.of[i].length, text + length);
    }
    return (struct text){text, length};
}

static void writes_spelled(const char *name, struct inputs inputs)
{
    struct text message = spelled(inputs);
    writes(name, inputs, message);
    free((void *)message.octets);
}

#define WITH(members) TEXT("{" DIR "," members "}")
#define ARRAYS_11 "[[[[[[[[[[[]]]]]]]]]]]"
#define MEMBERS_10(n)                                                                                                  \
    "\"" n "0\":0,\"" n "1\":0,\"" n "2\":0,\"" n "3\":0,\"" n "4\":0,\"" n "5\":0,\"" n "6\":0,\"" n "7\":0,\"" n     \
    "8\":0,"                                                                                                           \
    "\"" n "9\":0"
#define MEMBERS_30 MEMBERS_10("a") "," MEMBERS_10("b") "," MEMBERS_10("c")

static void accepted(void)
{
    writes("M", with_header(TEXT(HEADER)), TEXT(M));
    writes("nothing but a header", (struct inputs){{TEXT(HEADER), TEXT(""), TEXT(""), TEXT(""), TEXT(""), TEXT("\0")}},
           TEXT(H "...."));
    writes_spelled("a key in mode 2", with(TEXT(WRAPPED), 1, TEXT("\1\2")));
    writes_spelled("a key of one zero octet", with(TEXT(WRAPPED), 1, TEXT("\0")));
    writes_spelled("spaces in the header stay", with_header(TEXT(" \n{\t" DIR " }\r")));
    writes_spelled("escapes in the header stay",
                   with_header(TEXT("{\"\\u0061lg\":\"d\\u0069r\",\"enc\":\"A128GCM\"}")));
    writes_spelled("crit, its name known", with(WITH("\"crit\":[\"x\"],\"x\":1"), KNOWN, TEXT("\2\1\1yx")));
    writes_spelled("12 levels", with_header(WITH("\"x\":" ARRAYS_11)));
    writes_spelled("32 members", with_header(WITH(MEMBERS_30)));
}

static void refused(void)
{
    refuses("3, no list", JWE_KNOWN_MALFORMED, with(TEXT(HEADER), KNOWN, TEXT("")));
    refuses("3, an octet too many", JWE_KNOWN_MALFORMED, with(TEXT(HEADER), KNOWN, TEXT("\0x")));
    refuses("3, an octet too few", JWE_KNOWN_MALFORMED, with(TEXT(HEADER), KNOWN, TEXT("\1\2x")));
    refuses("7, nothing", JWE_NOT_JSON, with_header(TEXT("")));
    refuses("7, no object", JWE_NOT_JSON, with_header(TEXT("[]")));
    refuses("7, more after the object", JWE_NOT_JSON, with_header(TEXT(HEADER "}")));
    refuses("7, a NUL after the object", JWE_NOT_JSON, with_header(TEXT(HEADER "\0")));
    refuses("7, no UTF-8", JWE_NOT_JSON, with_header(WITH("\"x\":\"\xed\xa0\x80\"")));
    refuses("7, half of a pair", JWE_NOT_JSON, with_header(WITH("\"x\":\"\\ud834\"")));
    refuses("7, 13 levels", JWE_NOT_JSON, with_header(WITH("\"x\":[" ARRAYS_11 "]")));
    refuses("8, 33 members", JWE_MANY_MEMBERS, with_header(WITH(MEMBERS_30 ",\"x\":0")));
    refuses("9, T9", JWE_NAME_TWICE, with_header(TEXT("{\"alg\":\"dir\",\"\\u0061lg\":\"dir\",\"enc\":\"A128GCM\"}")));
    refuses("13, no members", JWE_NO_ALG_OR_ENC, with_header(TEXT("{}")));
    refuses("13, no alg", JWE_NO_ALG_OR_ENC, with_header(TEXT("{\"enc\":\"A128GCM\"}")));
    refuses("13, no enc", JWE_NO_ALG_OR_ENC, with_header(TEXT("{\"alg\":\"dir\"}")));
    refuses("14", JWE_WRONG_KIND, with_header(WITH("\"kid\":1")));
    refuses("15, alg", JWE_UNLISTED, with_header(TEXT("{\"alg\":\"none\",\"enc\":\"A128GCM\"}")));
    refuses("15, enc", JWE_UNLISTED, with_header(TEXT("{\"alg\":\"dir\",\"enc\":\"A128KW\"}")));
    refuses("15, zip", JWE_UNLISTED, with_header(WITH("\"zip\":\"def\"")));
    refuses("17, no elements", JWE_CRIT, with_header(WITH("\"crit\":[]")));
    refuses("17, nothing known", JWE_CRIT, with_header(WITH("\"crit\":[\"x\"],\"x\":1")));
    refuses("17, absent", JWE_CRIT, with(WITH("\"crit\":[\"x\"]"), KNOWN, TEXT("\1\1x")));
    refuses("17, registered", JWE_CRIT, with(WITH("\"crit\":[\"alg\"]"), KNOWN, TEXT("\1\3alg")));
    refuses("18, T12: a key in mode 5", JWE_KEY, with(TEXT(HEADER), 1, TEXT("\0")));
    refuses("18, no key in mode 2", JWE_KEY, with_header(TEXT(WRAPPED)));
}

/* Both faults, for 6 and those after it. */
static void orders(void)
{
    refuses("7 before 8", JWE_NOT_JSON, with_header(WITH(MEMBERS_30 ",\"x\":[" ARRAYS_11 "]")));
    refuses("8 before 9", JWE_MANY_MEMBERS, with_header(WITH(MEMBERS_30 ",\"a0\":0")));
    refuses("9 before 13", JWE_NAME_TWICE, with_header(TEXT("{\"enc\":\"A128GCM\",\"\\u0065nc\":\"A128GCM\"}")));
    refuses("13 before 14", JWE_NO_ALG_OR_ENC, with_header(TEXT("{\"alg\":1}")));
    refuses("14 before 15", JWE_WRONG_KIND, with_header(TEXT("{\"alg\":\"none\",\"enc\":\"A128GCM\",\"kid\":1}")));
    refuses("15 before 17", JWE_UNLISTED, with_header(TEXT("{\"alg\":\"none\",\"enc\":\"A128GCM\",\"crit\":[]}")));
    refuses("17 before 18", JWE_CRIT, with(WITH("\"crit\":[]"), 1, TEXT("\0")));
}

/* Headers of 4,096 and 4,097 octets. */
static void long_headers(void)
{
    char header[4097];
    memset(header, ' ', sizeof header);
    memcpy(header, HEADER, strlen(HEADER));
    writes_spelled("a header of 4,096 octets", with_header((struct text){header, 4096}));
    struct text text = {header, 4097};
    refuses("6, a header of 4,097 octets", JWE_HEADER_TOO_LONG, with_header(text));
    refuses("3 before 6", JWE_KNOWN_MALFORMED, with(text, KNOWN, TEXT("")));
    memset(header, 'x', sizeof header);
    refuses("6 before 7", JWE_HEADER_TOO_LONG, with_header(text));
}

/* Messages of 16,777,216 octets and of one more: 39 for the header, 4 dots, 2 for the iv, 3 or 4 for the tag, and the
 * ciphertext's 16,777,168. */
static void long_messages(void)
{
    const size_t n = 12582876;
    uint8_t *octets = must(calloc(n + 100, 1));
    struct inputs longest = with(TEXT(HEADER), 3, (struct text){octets, n});
    longest.of[4] = TEXT("\2\0");
    uint8_t *message = must(malloc(LONGEST));
    memset(message, 'A', LONGEST);
    memcpy(message, H "..AA.", 44);
    memcpy(message + LONGEST - 4, ".AgA", 4);
    writes("a message of 16 MiB", longest, (struct text){message, LONGEST});
    free(message);

    const size_t rooms[] = {0, LONGEST, LONGEST + 1};
    struct inputs longer = longest;
    longer.of[4] = TEXT("\2\0\0");
    try_rooms("2, and 2 before 1", &longer, JWE_MESSAGE_TOO_LONG, (struct text){NULL, 0}, rooms, 3);
    longer.of[1] = TEXT("\0");
    try_rooms("18 before 2", &longer, JWE_KEY, (struct text){NULL, 0}, rooms, 3);
    /* A ciphertext that is too long by itself, and every other fault before it. */
    const struct {
        uint32_t refusal;
        struct text header;
    } faults[] = {
        {JWE_NOT_JSON, TEXT("")},
        {JWE_MANY_MEMBERS, WITH(MEMBERS_30 ",\"x\":0")},
        {JWE_NAME_TWICE, WITH("\"alg\":\"dir\"")},
        {JWE_NO_ALG_OR_ENC, TEXT("{}")},
        {JWE_WRONG_KIND, WITH("\"kid\":1")},
        {JWE_UNLISTED, WITH("\"zip\":\"\"")},
        {JWE_CRIT, WITH("\"crit\":[]")},
        {JWE_KEY, TEXT(WRAPPED)},
    };
    for (size_t i = 0; i < sizeof faults / sizeof *faults; i++) {
        longer = with(faults[i].header, 3, (struct text){octets, n + 100});
        try_rooms("2 after others", &longer, faults[i].refusal, (struct text){NULL, 0}, rooms, 1);
    }
    longer.of[0] = (struct text){octets, 4097};
    try_rooms("6 before 2", &longer, JWE_HEADER_TOO_LONG, (struct text){NULL, 0}, rooms, 1);
    longer.of[KNOWN] = TEXT("");
    try_rooms("3 before 2", &longer, JWE_KNOWN_MALFORMED, (struct text){NULL, 0}, rooms, 1);
    for (int part = 1; part < PARTS; part++) {
        longer = with(TEXT(WRAPPED), 1, TEXT("\0"));
        longer.of[part] = (struct text){octets, n + 100};
        try_rooms("2, each part the long one", &longer, JWE_MESSAGE_TOO_LONG, (struct text){NULL, 0}, rooms, 1);
    }
    free(octets);
}

/* A ciphertext so long, written, read and decoded again; nothing wraps at 2^16. */
static void there_and_back(size_t n, uint32_t characters)
{
    char name[64];
    snprintf(name, sizeof name, "a ciphertext of %zu octets, %u characters", n, (unsigned)characters);
    uint8_t *octets = must(malloc(n));
    uint32_t state = 1;
    for (size_t i = 0; i < n; i++)
        octets[i] = (uint8_t)((state = state * 1664525 + 1013904223) >> 24);
    struct inputs inputs = with(TEXT(HEADER), 3, (struct text){octets, n});
    struct text message = spelled(inputs);
    CHECK(name, message.length == 44 + characters + 3);
    writes(name, inputs, message);

    const uint32_t expected[] = {0, 0, 1, 5, 0, 39, 40, 0, 41, 2, 0, 0, 44, characters, 44 + characters + 1, 2, 29, 2};
    uint8_t header[4096];
    uint32_t list[576], result[18];
    uint32_t refusal =
        jwe_read(message.octets, message.length, (const uint8_t *)"", 1, 0, header, 4096, list, 576, result, 18);
    CHECK(name, refusal == JWE_OK && memcmp(result, expected, sizeof expected) == 0);
    for (enum place place = 0; place < PLACES; place++) {
        struct lent out = lend_painted(place, n + 1, 0x5a);
        size_t found = 0;
        refusal = jwe_component(message.octets, message.length, (const uint8_t *)"", 1, 0, JWE_CIPHERTEXT, out.start,
                                n - 1, &found);
        CHECK(name, refusal == JWE_TOO_SHORT && found == 0 && all_are(out.start, n + 1, 0x5a));
        refusal = jwe_component(message.octets, message.length, (const uint8_t *)"", 1, 0, JWE_CIPHERTEXT, out.start, n,
                                &found);
        CHECK(name, refusal == JWE_OK && found == n && begins_with(out, n + 1, inputs.of[3], 0x5a));
        give_back(out);
    }
    free((void *)message.octets);
    free(octets);
}

static void try_aad(const char *name, struct text header, struct text aad, struct text joined, size_t room,
                    enum place place, uint8_t paint)
{
    struct lent header_lent = lend_copy(place, header), aad_lent = lend_copy(place, aad);
    struct lent out = lend_painted(place, room, paint);
    uint32_t refusal = room < joined.length ? JWE_TOO_SHORT : JWE_OK;
    if (refusal != JWE_OK)
        joined.length = 0;
    size_t n = ~joined.length;
    uint32_t got = jwe_aad(header_lent.start, header.length, aad_lent.start, aad.length, out.start, room, &n);
    int good = CHECK(name, got == refusal && n == joined.length);
    good &= CHECK(name, begins_with(out, room, joined, paint));
    good &= CHECK(name, is_copy(header_lent, header) && is_copy(aad_lent, aad));
    if (!good)
        printf("       jwe_aad, buffer of %zu, %s, painted %#x: expected %u and %zu octets, got %u and %zu\n", room,
               place_names[place], paint, (unsigned)refusal, joined.length, (unsigned)got, n);
    give_back(header_lent);
    give_back(aad_lent);
    give_back(out);
}

static void joins(const char *name, struct text header, struct text aad, struct text joined)
{
    const size_t n = joined.length, rooms[] = {n, n + 1, n + 100, n > 0 ? n - 1 : 0, 0};
    cases++;
    for (size_t i = 0; i < sizeof rooms / sizeof *rooms; i++)
        for (enum place place = 0; place < PLACES; place++)
            for (int paint = 0x5a; paint <= 0xa5; paint += 0xa5 - 0x5a)
                try_aad(name, header, aad, joined, rooms[i], place, (uint8_t)paint);
}

static void aads(void)
{
    joins("neither", TEXT(""), TEXT(""), TEXT(""));
    joins("only an aad", TEXT(""), TEXT("AA"), TEXT(".AA"));
    joins("only a header", TEXT(H), TEXT(""), TEXT(H));
    joins("both", TEXT(H), TEXT("AA"), TEXT(H ".AA"));
    joins("one character each", TEXT("x"), TEXT("y"), TEXT("x.y"));

    /* T10: the places that the reader gives. */
    const char *t10 = "{\"unprotected\":{\"alg\":\"dir\",\"enc\":\"A128GCM\"},\"aad\":\"AA\",\"ciphertext\":\"\"}";
    const uint8_t *message = (const uint8_t *)t10;
    uint8_t header[4096], out[4] = "????";
    uint32_t list[576], result[18];
    size_t n;
    CHECK("T10",
          jwe_read(message, strlen(t10), (const uint8_t *)"", 1, 0, header, 4096, list, 576, result, 18) == JWE_OK);
    const uint32_t *place = result + JWE_RESULT_PLACES, *aad = place + 2 * JWE_AAD;
    CHECK("T10",
          jwe_aad(message + place[0], place[1], message + aad[0], aad[1], out, sizeof out, &n) == JWE_OK && n == 3);
    CHECK("T10", memcmp(out, ".AA?", 4) == 0);
}

/* A length cut to 32 bits would be another length. */
static void no_length_is_cut(void)
{
    const size_t bits32 = (size_t)1 << 32;
    uint8_t *zeros =
        must(mmap(NULL, bits32 + 4096, PROT_READ | PROT_WRITE, MAP_PRIVATE | MAP_ANONYMOUS | MAP_NORESERVE, -1, 0));
    /* What each part gets with 2^32 octets more than M has. */
    const uint32_t refusals[INPUTS] = {JWE_HEADER_TOO_LONG,  JWE_KEY,
                                       JWE_MESSAGE_TOO_LONG, JWE_MESSAGE_TOO_LONG,
                                       JWE_MESSAGE_TOO_LONG, JWE_KNOWN_MALFORMED};
    uint8_t out[51];
    size_t n;
    for (int i = 0; i < INPUTS; i++) {
        struct inputs inputs = with_header(TEXT(HEADER));
        const uint8_t *start[INPUTS];
        for (int k = 0; k < INPUTS; k++)
            start[k] = inputs.of[k].octets;
        memcpy(zeros, start[i], inputs.of[i].length);
        start[i] = zeros;
        inputs.of[i].length += bits32;
        n = 1;
        CHECK("a part of 2^32 octets", write_inputs(start, &inputs, out, sizeof out, &n) == refusals[i] && n == 0);
    }
    struct inputs inputs = with_header(TEXT(HEADER));
    const uint8_t *start[INPUTS];
    for (int k = 0; k < INPUTS; k++)
        start[k] = inputs.of[k].octets;
    CHECK("a buffer of 2^32 + 50", write_inputs(start, &inputs, zeros, bits32 + 50, &n) == JWE_OK && n == 51);
    CHECK("a buffer of 2^32 + 50", memcmp(zeros, M, 51) == 0 && zeros[51] == 0);

    const uint8_t *x = (const uint8_t *)"x";
    CHECK("a header of 2^32 octets", jwe_aad(zeros, bits32, x, 0, out, sizeof out, &n) == JWE_TOO_SHORT && n == 0);
    CHECK("an aad of 2^32 octets", jwe_aad(x, 1, zeros, bits32, out, sizeof out, &n) == JWE_TOO_SHORT && n == 0);
    CHECK("a buffer of 2^32 octets", jwe_aad(x, 1, x, 1, zeros, bits32, &n) == JWE_OK && n == 3);
    munmap(zeros, bits32 + 4096);
    cases += 10;
}

int main(int argc, char **argv)
{
    accepted();
    refused();
    orders();
    long_headers();
    there_and_back(65535, 87380);
    there_and_back(65536, 87382);
    aads();
    if (!is_short(argc, argv)) {
        long_messages();
        no_length_is_cut();
    }
    printf("writing: %lu cases, %lu checks, %lu failed\n", cases, checks, failures);
    return failures != 0;
}
