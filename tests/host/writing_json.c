/* Tests jwe_write_flattened and jwe_write_general from C by named cases: document 01's T10, every refusal beside the
 * nearest input that is not refused, inputs with two faults, and what was written read again for each recipient. (The
 * harness has many more; here is how C calls the functions.)
 *
 * Every case is tried with buffers of several lengths, in each place and over both paints. Prints each failure by its
 * name and exits 1 if there was one. */
#define _GNU_SOURCE
#include "testing.h"

#include "jwe_gateway.h"

#define H "eyJhbGciOiJkaXIiLCJlbmMiOiJBMTI4R0NNIn0"
#define DIR "\"alg\":\"dir\",\"enc\":\"A128GCM\""
#define HEADER "{" DIR "}"
#define REST "\"iv\":\"AA\",\"ciphertext\":\"AQID\",\"tag\":\"Ag\"}"
#define LONGEST 16777216

enum { FLATTENED, GENERAL, FORMS };

/* What a message is written of, in the functions' order. */
enum { PROTECTED, SHARED, AAD, IV, CIPHERTEXT, TAG, KNOWN, RECIPIENTS, INPUTS };

struct inputs {
    struct text of[INPUTS];
};

/* Tables of recipients: how many, for each the lengths of its header and its key, and then these. */
#define LENGTHS(header, key) "\0\0\0" header "\0\0\0" key
#define NONE LENGTHS("\0", "\0")
#define ALONE TEXT("\1" NONE)
/* Own headers of 7 and of 16 octets. */
#define X1 "{\"x\":1}"
#define WRAPPED "{\"alg\":\"A128KW\"}"
#define OWN_X1 TEXT("\1" LENGTHS("\7", "\0") X1)

/* The other components of M, no known names, and one recipient who has neither header nor key. */
static struct inputs with_headers(struct text protected_header, struct text shared)
{
    return (struct inputs){{protected_header, shared, TEXT(""), TEXT("\0"), TEXT("\1\2\3"), TEXT("\2"), TEXT("\0"),
                            ALONE}};
}

/* M's header, and one input another. */
static struct inputs with(int input, struct text text)
{
    struct inputs inputs = with_headers(TEXT(HEADER), TEXT(""));
    inputs.of[input] = text;
    return inputs;
}

static struct inputs and(struct inputs inputs, int input, struct text text)
{
    inputs.of[input] = text;
    return inputs;
}

static uint32_t write_inputs(int form, const uint8_t *const *start, const struct inputs *inputs, uint8_t *out,
                             size_t room, size_t *n)
{
    const struct text *of = inputs->of;
    return (form == FLATTENED ? jwe_write_flattened : jwe_write_general)(
        start[0], of[0].length, start[1], of[1].length, start[2], of[2].length, start[3], of[3].length, start[4],
        of[4].length, start[5], of[5].length, start[6], of[6].length, start[7], of[7].length, out, room, n);
}

static void try_write(const char *name, int form, const struct inputs *inputs, uint32_t refusal, struct text message,
                      size_t room, enum place place, uint8_t paint)
{
    struct lent lent[INPUTS];
    const uint8_t *start[INPUTS];
    for (int i = 0; i < INPUTS; i++) {
        lent[i] = lend_copy(place, inputs->of[i]);
        start[i] = lent[i].start;
    }
    struct lent out = lend_painted(place, room, paint);
    if (refusal == JWE_OK && room < message.length)
        refusal = JWE_TOO_SHORT;
    if (refusal != JWE_OK)
        message.length = 0;
    size_t n = ~message.length;
    uint32_t got = write_inputs(form, start, inputs, out.start, room, &n);
    int good = CHECK(name, got == refusal);
    good &= CHECK(name, n == message.length);
    good &= CHECK(name, begins_with(out, room, message, paint));
    for (int i = 0; i < INPUTS; i++)
        good &= CHECK(name, is_copy(lent[i], inputs->of[i]));
    if (!good)
        printf("       %s, buffer of %zu, %s, painted %#x: expected %u and %zu octets, got %u and %zu\n",
               form == FLATTENED ? "flattened" : "general", room, place_names[place], paint, (unsigned)refusal,
               message.length, (unsigned)got, n);
    for (int i = 0; i < INPUTS; i++)
        give_back(lent[i]);
    give_back(out);
}

static void try_rooms(const char *name, int form, const struct inputs *inputs, uint32_t refusal, struct text message,
                      const size_t *rooms, size_t count)
{
    /* In one place over one paint where an input is so long that it takes time. */
    size_t length = 0;
    for (int i = 0; i < INPUTS; i++)
        length += inputs->of[i].length;
    int is_long = length > (size_t)1 << 20;
    cases++;
    for (size_t i = 0; i < count; i++)
        for (enum place place = 0; place < (is_long ? 1 : PLACES); place++)
            for (int paint = 0x5a; paint <= (is_long ? 0x5a : 0xa5); paint += 0xa5 - 0x5a)
                try_write(name, form, inputs, refusal, message, rooms[i], place, (uint8_t)paint);
}

/* With a buffer exactly right, longer, one short and empty. */
static void writes(const char *name, int form, struct inputs inputs, struct text message)
{
    const size_t n = message.length, rooms[] = {n, n + 1, n + 100, n - 1, 0};
    try_rooms(name, form, &inputs, JWE_OK, message, rooms, sizeof rooms / sizeof *rooms);
}

/* 1 comes last, so the refusal is the same with an empty buffer. */
static void refuses_in(const char *name, int form, uint32_t refusal, struct inputs inputs)
{
    const size_t rooms[] = {0, 1, 200, 10000};
    try_rooms(name, form, &inputs, refusal, (struct text){NULL, 0}, rooms, sizeof rooms / sizeof *rooms);
}

static void refuses(const char *name, uint32_t refusal, struct inputs inputs)
{
    for (int form = 0; form < FORMS; form++)
        refuses_in(name, form, refusal, inputs);
}

/* A text that is refused the same as protected, shared and own header. */
static void refuses_text(const char *name, uint32_t refusal, struct text text)
{
    uint8_t *table = must(malloc(9 + text.length));
    memcpy(table, "\1\0\0\0\0\0\0\0\0", 9);
    table[3] = (uint8_t)(text.length >> 8);
    table[4] = (uint8_t)text.length;
    memcpy(table + 9, text.octets, text.length);
    refuses(name, refusal, with_headers(text, TEXT(HEADER)));
    refuses(name, refusal, with(SHARED, text));
    refuses(name, refusal, with(RECIPIENTS, (struct text){table, 9 + text.length}));
    free(table);
}

/* Arrays in an object: so many levels, the object being the first. */
#define OPEN_8 "{\"x\":[[[[[[["
#define CLOSED_8 "]]]]]]]}"
#define DEEP_9 OPEN_8 "[]" CLOSED_8
#define DEEP_10 OPEN_8 "[[]]" CLOSED_8
#define DEEP_11 OPEN_8 "[[[]]]" CLOSED_8
#define DEEP_12 OPEN_8 "[[[[]]]]" CLOSED_8
#define DEEP_13 OPEN_8 "[[[[[]]]]]" CLOSED_8
#define MEMBERS_10(n)                                                                                                  \
    "\"" n "0\":0,\"" n "1\":0,\"" n "2\":0,\"" n "3\":0,\"" n "4\":0,\"" n "5\":0,\"" n "6\":0,\"" n "7\":0,\"" n     \
    "8\":0,"                                                                                                           \
    "\"" n "9\":0"
#define MEMBERS_32 MEMBERS_10("a") "," MEMBERS_10("b") "," MEMBERS_10("c") ",\"y\":0,\"z\":0"

/* Every member: {"enc":"A128GCM"} is protected. */
#define ENC "{\"enc\":\"A128GCM\"}"
#define EVERY "{\"protected\":\"eyJlbmMiOiJBMTI4R0NNIn0\",\"unprotected\":" X1 ","
#define KEYED "\"header\":" WRAPPED ",\"encrypted_key\":\"AQI\""

static void accepted(void)
{
    writes("M's parts", FLATTENED, with(SHARED, TEXT("")), TEXT("{\"protected\":\"" H "\"," REST));
    writes("M's parts, general", GENERAL, with(SHARED, TEXT("")),
           TEXT("{\"protected\":\"" H "\",\"recipients\":[{}]," REST));
    struct inputs t10 = with_headers(TEXT(""), TEXT(HEADER));
    t10 = and(and(and(and(t10, AAD, TEXT("\0")), IV, TEXT("")), CIPHERTEXT, TEXT("")), TAG, TEXT(""));
    writes("T10", FLATTENED, t10, TEXT("{\"unprotected\":" HEADER ",\"aad\":\"AA\",\"ciphertext\":\"\"}"));
    struct inputs every = with_headers(TEXT(ENC), TEXT(X1));
    every = and(and(every, AAD, TEXT("\377")), RECIPIENTS, TEXT("\1" LENGTHS("\20", "\2") WRAPPED "\1\2"));
    writes("every member", FLATTENED, every, TEXT(EVERY KEYED ",\"aad\":\"_w\"," REST));
    writes("every member, general", GENERAL, every, TEXT(EVERY "\"recipients\":[{" KEYED "}],\"aad\":\"_w\"," REST));
    /* The bodies stand one behind the other: header and key of the first, key of the second, header of the third. */
    struct text three = TEXT("\3" LENGTHS("\20", "\2") LENGTHS("\0", "\1") LENGTHS("\7", "\1") WRAPPED "\1\2"
                             "\0" X1 "\377");
    struct inputs shared_alg = and(with_headers(TEXT(ENC), TEXT("")), RECIPIENTS, three);
    refuses_in("three recipients, the second without alg", GENERAL, JWE_NO_ALG_OR_ENC, shared_alg);
    three = TEXT("\3" LENGTHS("\0", "\2") LENGTHS("\0", "\1") LENGTHS("\7", "\1") "\1\2"
                 "\0" X1 "\377");
    shared_alg = and(with_headers(TEXT(ENC), TEXT(WRAPPED)), RECIPIENTS, three);
    writes("three recipients", GENERAL, shared_alg,
           TEXT("{\"protected\":\"eyJlbmMiOiJBMTI4R0NNIn0\",\"unprotected\":" WRAPPED
                ",\"recipients\":[{\"encrypted_key\":\"AQI\"},{\"encrypted_key\":\"AA\"},{\"header\":" X1
                ",\"encrypted_key\":\"_w\"}]," REST));
    writes("8 recipients", GENERAL, with(RECIPIENTS, TEXT("\10" NONE NONE NONE NONE NONE NONE NONE NONE)),
           TEXT("{\"protected\":\"" H "\",\"recipients\":[{},{},{},{},{},{},{},{}]," REST));
    writes("space around the shared text stays", FLATTENED, with(SHARED, TEXT(" " X1 "\n")),
           TEXT("{\"protected\":\"" H "\",\"unprotected\": " X1 "\n," REST));
    writes("space around an own text stays", GENERAL, with(RECIPIENTS, TEXT("\1" LENGTHS("\11", "\0") "\t" X1 "\r")),
           TEXT("{\"protected\":\"" H "\",\"recipients\":[{\"header\":\t" X1 "\r}]," REST));
    writes("11 levels, shared", FLATTENED, with(SHARED, TEXT(DEEP_11)),
           TEXT("{\"protected\":\"" H "\",\"unprotected\":" DEEP_11 "," REST));
    writes("11 levels, own", FLATTENED, with(RECIPIENTS, TEXT("\1" LENGTHS("\32", "\0") DEEP_11)),
           TEXT("{\"protected\":\"" H "\",\"header\":" DEEP_11 "," REST));
    writes("9 levels, own, general", GENERAL, with(RECIPIENTS, TEXT("\1" LENGTHS("\26", "\0") DEEP_9)),
           TEXT("{\"protected\":\"" H "\",\"recipients\":[{\"header\":" DEEP_9 "}]," REST));
    writes("32 members", FLATTENED, with(SHARED, TEXT("{" MEMBERS_32 "}")),
           TEXT("{\"protected\":\"" H "\",\"unprotected\":{" MEMBERS_32 "}," REST));
}

static void tables(void)
{
    refuses("20, no table", JWE_RECIPIENTS_MALFORMED, with(RECIPIENTS, TEXT("")));
    refuses("20, no recipients", JWE_RECIPIENTS_MALFORMED, with(RECIPIENTS, TEXT("\0")));
    refuses("20, 9 recipients", JWE_RECIPIENTS_MALFORMED,
            with(RECIPIENTS, TEXT("\11" NONE NONE NONE NONE NONE NONE NONE NONE NONE)));
    refuses("20, contents cut off", JWE_RECIPIENTS_MALFORMED, with(RECIPIENTS, TEXT("\1\0\0\0\0\0\0\0")));
    refuses("20, an octet too many", JWE_RECIPIENTS_MALFORMED, with(RECIPIENTS, TEXT("\1" NONE "x")));
    refuses("20, an octet too few", JWE_RECIPIENTS_MALFORMED,
            with(RECIPIENTS, TEXT("\1" LENGTHS("\7", "\1") "{\"x\":1}")));
    refuses("20, lengths of 2^32 - 1", JWE_RECIPIENTS_MALFORMED,
            with(RECIPIENTS, TEXT("\1\377\377\377\377\377\377\377\377")));
    refuses("20, lengths whose sum is 2^32", JWE_RECIPIENTS_MALFORMED,
            with(RECIPIENTS, TEXT("\1\200\0\0\0\200\0\0\0")));
    refuses("20, lengths with the lowest octet first", JWE_RECIPIENTS_MALFORMED,
            with(RECIPIENTS, TEXT("\1\7\0\0\0\0\0\0\0" X1)));
    refuses_in("20, flattened for two", FLATTENED, JWE_RECIPIENTS_MALFORMED, with(RECIPIENTS, TEXT("\2" NONE NONE)));
}

static void refused(void)
{
    refuses("3, no list", JWE_KNOWN_MALFORMED, with(KNOWN, TEXT("")));
    refuses("3, an octet too few", JWE_KNOWN_MALFORMED, with(KNOWN, TEXT("\1\2x")));
    refuses_text("7, no object", JWE_NOT_JSON, TEXT("[]"));
    refuses_text("7, space alone", JWE_NOT_JSON, TEXT(" \n"));
    refuses_text("7, a NUL behind", JWE_NOT_JSON, TEXT(X1 "\0"));
    refuses_text("7, an object that goes on", JWE_NOT_JSON, TEXT("{},\"iv\":{}"));
    refuses_text("7, an element that goes on", JWE_NOT_JSON, TEXT(X1 "},{\"header\":" X1));
    refuses_text("7, 13 levels", JWE_NOT_JSON, TEXT(DEEP_13));
    refuses("7, 12 levels, shared", JWE_NOT_JSON, with(SHARED, TEXT(DEEP_12)));
    refuses("7, 12 levels, own", JWE_NOT_JSON, with(RECIPIENTS, TEXT("\1" LENGTHS("\34", "\0") DEEP_12)));
    refuses_in("7, 10 levels, own, general", GENERAL, JWE_NOT_JSON,
               with(RECIPIENTS, TEXT("\1" LENGTHS("\30", "\0") DEEP_10)));
    refuses_text("8, 33 members", JWE_MANY_MEMBERS, TEXT("{" MEMBERS_32 ",\"x\":0}"));
    refuses_text("9, a name twice", JWE_NAME_TWICE, TEXT("{\"x\":1,\"\\u0078\":1}"));
    refuses_text("10, no member", JWE_SHAPE, TEXT("{}"));
    refuses_text("10, no member but space", JWE_SHAPE, TEXT(" { } "));
    refuses("12, protected and shared", JWE_NAME_IN_TWO_HEADERS, with(SHARED, TEXT("{\"alg\":\"dir\"}")));
    refuses("12, shared and own", JWE_NAME_IN_TWO_HEADERS, and(with(SHARED, TEXT(X1)), RECIPIENTS, OWN_X1));
    refuses("13, no header", JWE_NO_ALG_OR_ENC, with_headers(TEXT(""), TEXT("")));
    refuses("13, no alg", JWE_NO_ALG_OR_ENC, with_headers(TEXT(ENC), TEXT("")));
    refuses_text("14", JWE_WRONG_KIND, TEXT("{\"kid\":1}"));
    refuses("15", JWE_UNLISTED, with_headers(TEXT(ENC), TEXT("{\"alg\":\"none\"}")));
    refuses("16", JWE_UNPROTECTED, with(SHARED, TEXT("{\"zip\":\"DEF\"}")));
    struct inputs crit = with_headers(TEXT("{" DIR ",\"crit\":[\"x\"]}"), TEXT(X1));
    refuses("17, nothing known", JWE_CRIT, crit);
    refuses("17, absent", JWE_CRIT, and(and(crit, SHARED, TEXT("")), KNOWN, TEXT("\1\1x")));
    refuses("18, a key in mode 5", JWE_KEY, with(RECIPIENTS, TEXT("\1" LENGTHS("\0", "\1") "\0")));
    refuses("18, no key in mode 2", JWE_KEY, with_headers(TEXT(ENC), TEXT(WRAPPED)));
    writes("crit, its name known", GENERAL, and(crit, KNOWN, TEXT("\1\1x")),
           TEXT("{\"protected\":\"eyJhbGciOiJkaXIiLCJlbmMiOiJBMTI4R0NNIiwiY3JpdCI6WyJ4Il19\",\"unprotected\":" X1
                ",\"recipients\":[{}]," REST));
}

/* Own headers of 29 octets with `enc`: the same for all or 21, which only the general form can get. */
#define OTHER_HEADER "{\"alg\":\"dir\",\"enc\":\"A256GCM\"}"
#define OWN LENGTHS("\35", "\0")
#define TWO_OWN TEXT("\2" OWN OWN HEADER OTHER_HEADER)

static void content_algorithms(void)
{
    struct inputs bare = with_headers(TEXT(""), TEXT(""));
    writes("the same enc", GENERAL, and(bare, RECIPIENTS, TEXT("\2" OWN OWN HEADER HEADER)),
           TEXT("{\"recipients\":[{\"header\":" HEADER "},{\"header\":" HEADER "}]," REST));
    writes("enc of one", FLATTENED, and(bare, RECIPIENTS, TEXT("\1" OWN OTHER_HEADER)),
           TEXT("{\"header\":" OTHER_HEADER "," REST));
    refuses_in("21", GENERAL, JWE_CONTENT_ALGORITHMS_DIFFER, and(bare, RECIPIENTS, TWO_OWN));
    refuses_in("21, the last of three", GENERAL, JWE_CONTENT_ALGORITHMS_DIFFER,
               and(bare, RECIPIENTS, TEXT("\3" OWN OWN OWN HEADER HEADER OTHER_HEADER)));
    refuses_in("20 of a flattened message before 21", FLATTENED, JWE_RECIPIENTS_MALFORMED, and(bare, RECIPIENTS, TWO_OWN));
    refuses_in("12 before 21", GENERAL, JWE_NAME_IN_TWO_HEADERS,
               and(with_headers(TEXT(""), TEXT("{\"alg\":\"dir\"}")), RECIPIENTS, TWO_OWN));
    refuses_in("13 of the last before 21", GENERAL, JWE_NO_ALG_OR_ENC,
               and(bare, RECIPIENTS, TEXT("\3" OWN OWN NONE HEADER OTHER_HEADER)));
    refuses_in("18 of the last before 21", GENERAL, JWE_KEY,
               and(bare, RECIPIENTS, TEXT("\3" OWN OWN LENGTHS("\35", "\1") HEADER OTHER_HEADER HEADER "\0")));
}

/* Both faults. */
static void orders(void)
{
    char header[4097];
    memset(header, ' ', sizeof header);
    memcpy(header, HEADER, strlen(HEADER));
    struct text long_header = {header, 4097};
    refuses("6, a header of 4,097 octets", JWE_HEADER_TOO_LONG, with(PROTECTED, long_header));
    refuses("3 before 20", JWE_KNOWN_MALFORMED, and(with(RECIPIENTS, TEXT("")), KNOWN, TEXT("")));
    refuses("20 before 6", JWE_RECIPIENTS_MALFORMED, and(with(RECIPIENTS, TEXT("\0")), PROTECTED, long_header));
    refuses("6 before 7", JWE_HEADER_TOO_LONG, and(with(SHARED, TEXT("{")), PROTECTED, long_header));
    refuses("7 of an own text before 10", JWE_NOT_JSON,
            and(with(SHARED, TEXT("{}")), RECIPIENTS, TEXT("\1" LENGTHS("\1", "\0") "{")));
    refuses("7 where a text stands before 10", JWE_NOT_JSON,
            and(with(SHARED, TEXT(DEEP_12)), RECIPIENTS, TEXT("\1" LENGTHS("\2", "\0") "{}")));
    refuses("10 before 9", JWE_SHAPE, with_headers(TEXT("{\"x\":1,\"x\":1}"), TEXT("{}")));
    refuses("9 before 12", JWE_NAME_TWICE, with(SHARED, TEXT("{\"alg\":1,\"alg\":1}")));
    refuses("12 before 13", JWE_NAME_IN_TWO_HEADERS, with_headers(TEXT(ENC), TEXT(ENC)));
    refuses_in("18 of one before 12 of the next", GENERAL, JWE_KEY,
               with(RECIPIENTS, TEXT("\2" LENGTHS("\0", "\1") LENGTHS("\35", "\0") "\0" HEADER)));
}

/* Messages of 16,777,216 octets and of one more: the ciphertext has 16,777,124 characters, the tag 2 or 3. */
static void long_messages(void)
{
    const char *start = "{\"protected\":\"" H "\",\"iv\":\"AA\",\"ciphertext\":\"", *end = "\",\"tag\":\"Ag\"}";
    const size_t n = 12582843, rooms[] = {0, LONGEST, LONGEST + 1};
    const struct text nothing = {NULL, 0};
    uint8_t *octets = must(calloc(n + 100, 1)), *message = must(malloc(LONGEST));
    struct inputs longest = with(CIPHERTEXT, (struct text){octets, n});
    memset(message, 'A', LONGEST);
    memcpy(message, start, strlen(start));
    memcpy(message + LONGEST - strlen(end), end, strlen(end));
    writes("a message of 16 MiB", FLATTENED, longest, (struct text){message, LONGEST});
    free(message);

    struct inputs longer = and(longest, TAG, TEXT("\2\0"));
    try_rooms("2, and 2 before 1", FLATTENED, &longer, JWE_MESSAGE_TOO_LONG, nothing, rooms, 3);
    struct inputs other = and(longer, RECIPIENTS, TEXT("\1" LENGTHS("\0", "\1") "\0"));
    try_rooms("2 before 18", FLATTENED, &other, JWE_MESSAGE_TOO_LONG, nothing, rooms, 1);
    other = and(longer, SHARED, TEXT(DEEP_12));
    try_rooms("2 before 7 where a text stands", FLATTENED, &other, JWE_MESSAGE_TOO_LONG, nothing, rooms, 1);
    other = and(longer, SHARED, TEXT(DEEP_13));
    try_rooms("7 of a text by itself before 2", GENERAL, &other, JWE_NOT_JSON, nothing, rooms, 1);
    for (int input = AAD; input <= TAG; input++) {
        other = with(input, (struct text){octets, n + 100});
        try_rooms("2, each component the long one", GENERAL, &other, JWE_MESSAGE_TOO_LONG, nothing, rooms, 1);
    }
    free(octets);

    /* A shared text of 16 MiB and more, which is judged before the length is. */
    uint8_t *text = must(malloc(LONGEST + 1));
    memset(text, ' ', LONGEST + 1);
    memcpy(text, X1, strlen(X1));
    other = with(SHARED, (struct text){text, LONGEST + 1});
    try_rooms("2, a shared text over 16 MiB", FLATTENED, &other, JWE_MESSAGE_TOO_LONG, nothing, rooms, 3);
    text[LONGEST] = 'x';
    try_rooms("7 of a shared text over 16 MiB", FLATTENED, &other, JWE_NOT_JSON, nothing, rooms, 3);
    free(text);
}

/* Two recipients, read again: what each gets, with the places counted by hand. */
static void there_and_back(void)
{
    const char *name = "there and back";
    struct inputs inputs = with_headers(TEXT(ENC), TEXT(""));
    inputs = and(inputs, RECIPIENTS,
                 TEXT("\2" LENGTHS("\15", "\0") LENGTHS("\20", "\2") "{\"alg\":\"dir\"}" WRAPPED "\1\2"));
    const uint8_t *start[INPUTS];
    for (int i = 0; i < INPUTS; i++)
        start[i] = inputs.of[i].octets;
    uint8_t out[300], header[JWE_HEADER_OCTETS], octets[300];
    uint32_t list[JWE_LIST_NUMBERS], result[JWE_RESULT_NUMBERS];
    size_t n, count;
    CHECK(name, write_inputs(GENERAL, start, &inputs, out, sizeof out, &n) == JWE_OK);
    const uint32_t modes[] = {5, 2};
    /* Of alg: the name's start and length, the value's, and its kind. */
    const uint32_t rows[2][6] = {{2, 65, 3, 70, 5, 2}, {2, 90, 3, 95, 8, 2}};
    const struct text keys[] = {TEXT(""), TEXT("\1\2")};
    for (uint32_t recipient = 0; recipient < 2; recipient++) {
        CHECK(name, jwe_read(out, n, (const uint8_t *)"", 1, recipient, header, sizeof header, list, JWE_LIST_NUMBERS,
                             result, JWE_RESULT_NUMBERS) == JWE_OK);
        CHECK(name, result[JWE_RESULT_FORM] == 2 && result[JWE_RESULT_RECIPIENTS] == 2);
        CHECK(name, result[JWE_RESULT_MODE] == modes[recipient] && result[JWE_RESULT_PARAMETERS] == 2);
        CHECK(name, result[JWE_RESULT_HEADER_LENGTH] == strlen(ENC) && memcmp(header, ENC, strlen(ENC)) == 0);
        CHECK(name, memcmp(list + 6, rows[recipient], sizeof rows[recipient]) == 0);
        const struct text given[] = {TEXT(ENC), keys[recipient], TEXT("\0"), TEXT(""), TEXT("\1\2\3"), TEXT("\2")};
        for (uint32_t component = 0; component < 6; component++) {
            CHECK(name, jwe_component(out, n, (const uint8_t *)"", 1, recipient, component, octets, sizeof octets,
                                      &count) == JWE_OK);
            CHECK(name, count == given[component].length && memcmp(octets, given[component].octets, count) == 0);
        }
    }
    cases++;
}

/* A length cut to 32 bits would be another length. */
static void no_length_is_cut(void)
{
    const size_t bits32 = (size_t)1 << 32;
    uint8_t *zeros =
        must(mmap(NULL, bits32 + 4096, PROT_READ | PROT_WRITE, MAP_PRIVATE | MAP_ANONYMOUS | MAP_NORESERVE, -1, 0));
    /* What each input gets with 2^32 octets more, which are zeros. */
    const uint32_t refusals[INPUTS] = {JWE_HEADER_TOO_LONG,  JWE_NOT_JSON,         JWE_MESSAGE_TOO_LONG,
                                       JWE_MESSAGE_TOO_LONG, JWE_MESSAGE_TOO_LONG, JWE_MESSAGE_TOO_LONG,
                                       JWE_KNOWN_MALFORMED,  JWE_RECIPIENTS_MALFORMED};
    uint8_t out[200];
    size_t n;
    for (int form = 0; form < FORMS; form++) {
        struct inputs inputs = with(SHARED, TEXT(X1));
        const uint8_t *start[INPUTS];
        for (int i = 0; i < INPUTS; i++) {
            for (int k = 0; k < INPUTS; k++)
                start[k] = inputs.of[k].octets;
            memcpy(zeros, start[i], inputs.of[i].length);
            start[i] = zeros;
            inputs.of[i].length += bits32;
            n = 1;
            CHECK("an input of 2^32 octets",
                  write_inputs(form, start, &inputs, out, sizeof out, &n) == refusals[i] && n == 0);
            inputs.of[i].length -= bits32;
            memset(zeros, 0, inputs.of[i].length);
            cases++;
        }
        for (int k = 0; k < INPUTS; k++)
            start[k] = inputs.of[k].octets;
        CHECK("a buffer of 2^32 + 50",
              write_inputs(form, start, &inputs, zeros, bits32 + 50, &n) == JWE_OK && n > 100 && zeros[n] == 0);
        memset(zeros, 0, n);
        cases++;
    }
    munmap(zeros, bits32 + 4096);
}

int main(int argc, char **argv)
{
    accepted();
    tables();
    refused();
    content_algorithms();
    orders();
    there_and_back();
    if (!is_short(argc, argv)) {
        long_messages();
        no_length_is_cut();
    }
    printf("writing JSON: %lu cases, %lu checks, %lu failed\n", cases, checks, failures);
    return failures != 0;
}
