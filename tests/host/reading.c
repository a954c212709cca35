/* Tests jwe_judge, jwe_component and jwe_read from C by named messages, each with the answer that document 01 gives it:
 * its samples with their exact places and lists, and every number that a message can get. (The harness has many more
 * messages; here is how C calls the functions.)
 *
 * Every message is tried with rooms of several sizes, in each place and over both paints. Prints each failure by its
 * name and exits 1 if there was one. */
#define _GNU_SOURCE
#include "testing.h"

#include "jwe_gateway.h"

#define H "eyJhbGciOiJkaXIiLCJlbmMiOiJBMTI4R0NNIn0"
#define M H "..AA.AQID.Ag"
#define HEADER "{\"alg\":\"dir\",\"enc\":\"A128GCM\"}"
#define T10 "{\"unprotected\":{\"alg\":\"dir\",\"enc\":\"A128GCM\"},\"aad\":\"AA\",\"ciphertext\":\"\""
/* The protected header is {"enc":"A128GCM"}. */
#define GENERAL                                                                                                        \
    "{\"protected\":\"eyJlbmMiOiJBMTI4R0NNIn0\",\"recipients\":[{\"header\":{\"alg\":\"dir\"}},"                       \
    "{\"header\":{\"alg\":\"A128KW\",\"x\":null},\"encrypted_key\":\"AQI\"}],"                                         \
    "\"iv\":\"AA\",\"aad\":\"_w\",\"ciphertext\":\"AQID\",\"tag\":\"Ag\"}"

#define NO_NAMES TEXT("\0")

/* What a message gets for a recipient; all but the refusal only where that is 0. */
struct answer {
    uint32_t refusal;
    uint32_t result[JWE_RESULT_NUMBERS];
    struct text header;
    uint32_t list[3 * 6];
    struct text components[6];
};

struct asked {
    const char *name;
    struct text message, known;
    uint32_t recipient;
};

struct rooms {
    size_t header, list, result;
};

static uint32_t *numbers(struct lent lent)
{
    return (uint32_t *)(void *)lent.start;
}

static void try_judge(const struct asked *asked, const struct answer *answer, enum place place)
{
    struct lent message = lend_copy(place, asked->message), known = lend_copy(place, asked->known);
    uint32_t got = jwe_judge(message.start, asked->message.length, known.start, asked->known.length, asked->recipient);
    if (!CHECK(asked->name, got == answer->refusal))
        printf("       jwe_judge, %s: expected %u, got %u\n", place_names[place], (unsigned)answer->refusal,
               (unsigned)got);
    CHECK(asked->name, is_copy(message, asked->message));
    CHECK(asked->name, is_copy(known, asked->known));
    give_back(message);
    give_back(known);
}

static void try_read(const struct asked *asked, const struct answer *answer, struct rooms rooms, enum place place,
                     uint8_t paint)
{
    struct lent message = lend_copy(place, asked->message), known = lend_copy(place, asked->known);
    struct lent header = lend_painted(place, rooms.header, paint);
    struct lent list = lend_painted(place, 4 * rooms.list, paint);
    struct lent result = lend_painted(place, 4 * rooms.result, paint);
    int short_of = rooms.header < 4096 || rooms.list < 576 || rooms.result < 18;
    uint32_t refusal = short_of ? JWE_TOO_SHORT : answer->refusal;
    struct text nothing = {NULL, 0};
    struct text list_text = {answer->list, 24 * answer->result[JWE_RESULT_PARAMETERS]};
    struct text result_text = {answer->result, sizeof answer->result};

    uint32_t got = jwe_read(message.start, asked->message.length, known.start, asked->known.length, asked->recipient,
                            header.start, rooms.header, numbers(list), rooms.list, numbers(result), rooms.result);
    int good = CHECK(asked->name, got == refusal);
    int accepted = refusal == JWE_OK;
    good &= CHECK(asked->name, begins_with(header, rooms.header, accepted ? answer->header : nothing, paint));
    good &= CHECK(asked->name, begins_with(list, 4 * rooms.list, accepted ? list_text : nothing, paint));
    good &= CHECK(asked->name, begins_with(result, 4 * rooms.result, accepted ? result_text : nothing, paint));
    good &= CHECK(asked->name, is_copy(message, asked->message) && is_copy(known, asked->known));
    if (!good)
        printf("       jwe_read, rooms %zu, %zu, %zu, %s, painted %#x: expected %u, got %u\n", rooms.header, rooms.list,
               rooms.result, place_names[place], paint, (unsigned)refusal, (unsigned)got);
    give_back(message);
    give_back(known);
    give_back(header);
    give_back(list);
    give_back(result);
}

static void try_component(const struct asked *asked, const struct answer *answer, uint32_t component, size_t room,
                          enum place place, uint8_t paint)
{
    struct lent message = lend_copy(place, asked->message), known = lend_copy(place, asked->known);
    struct lent out = lend_painted(place, room, paint);
    struct text octets = component < 6 ? answer->components[component] : (struct text){NULL, 0};
    uint32_t refusal = answer->refusal != JWE_OK ? answer->refusal : room < octets.length ? JWE_TOO_SHORT : JWE_OK;
    if (refusal != JWE_OK)
        octets.length = 0;
    size_t n = ~octets.length;
    uint32_t got = jwe_component(message.start, asked->message.length, known.start, asked->known.length,
                                 asked->recipient, component, out.start, room, &n);
    int good = CHECK(asked->name, got == refusal);
    good &= CHECK(asked->name, n == octets.length);
    good &= CHECK(asked->name, begins_with(out, room, octets, paint));
    good &= CHECK(asked->name, is_copy(message, asked->message) && is_copy(known, asked->known));
    if (!good)
        printf("       jwe_component %u, buffer of %zu, %s, painted %#x: expected %u and %zu octets, got %u and %zu\n",
               (unsigned)component, room, place_names[place], paint, (unsigned)refusal, octets.length, (unsigned)got,
               n);
    give_back(message);
    give_back(known);
    give_back(out);
}

/* One message for one recipient: judged; read with every room just enough, with one of them one short or one longer,
 * and with none; and each component with a buffer exactly right, longer, one short and empty. */
static void asks(struct asked asked, struct answer answer)
{
    const struct rooms rooms[] = {{4096, 576, 18}, {4097, 577, 19}, {4095, 576, 18}, {4096, 575, 18},
                                  {4096, 576, 17}, {5000, 600, 0},  {0, 600, 20},    {0, 0, 0}};
    const uint32_t components[] = {0, 1, 2, 3, 4, 5, 6, 7, 65536, 4294967295};
    /* In one place over one paint where a message is so long that it takes time. */
    int is_long = asked.message.length > (size_t)1 << 20;
    cases++;
    for (enum place place = 0; place < (is_long ? 1 : PLACES); place++) {
        try_judge(&asked, &answer, place);
        for (int paint = 0x5a; paint <= (is_long ? 0x5a : 0xa5); paint += 0xa5 - 0x5a) {
            for (size_t i = 0; i < sizeof rooms / sizeof *rooms; i++)
                try_read(&asked, &answer, rooms[i], place, (uint8_t)paint);
            for (size_t i = 0; i < sizeof components / sizeof *components; i++) {
                size_t n = components[i] < 6 ? answer.components[components[i]].length : 0;
                const size_t sizes[] = {n, n + 1, n + 100, 0, n > 0 ? n - 1 : 0};
                for (size_t k = 0; k < sizeof sizes / sizeof *sizes; k++)
                    try_component(&asked, &answer, components[i], sizes[k], place, (uint8_t)paint);
            }
        }
    }
}

static void refused(const char *name, uint32_t refusal, struct text message)
{
    asks((struct asked){name, message, NO_NAMES, 0}, (struct answer){.refusal = refusal});
}

static void refused_with(const char *name, uint32_t refusal, struct text message, struct text known, uint32_t recipient)
{
    asks((struct asked){name, message, known, recipient}, (struct answer){.refusal = refusal});
}

/* M, also for more known names than none. */
static struct answer answer_of_m(void)
{
    return (struct answer){
        .result = {0, 0, 1, 5, 0, 39, 40, 0, 41, 2, 0, 0, 44, 4, 49, 2, 29, 2},
        .header = TEXT(HEADER),
        .list = {0, 2, 3, 7, 5, 2, 0, 14, 3, 19, 9, 2},
        .components = {TEXT(HEADER), TEXT(""), TEXT("\0"), TEXT(""), TEXT("\1\2\3"), TEXT("\2")},
    };
}

static void samples(void)
{
    asks((struct asked){"T6: M", TEXT(M), NO_NAMES, 0}, answer_of_m());
    asks((struct asked){"M, a name known", TEXT(M), TEXT("\1\1x"), 0}, answer_of_m());
    refused("T7: M and a dot", JWE_NOT_FOUR_DOTS, TEXT(M "."));
    refused("T8: the empty message", JWE_NOT_FOUR_DOTS, TEXT(""));
    /* {"alg":"dir","\u0061lg":"dir","enc":"A128GCM"} */
    refused("T9", JWE_NAME_TWICE, TEXT("eyJhbGciOiJkaXIiLCJcdTAwNjFsZyI6ImRpciIsImVuYyI6IkExMjhHQ00ifQ..AA.AQID.Ag"));
    asks((struct asked){"T10", TEXT(T10 "}"), NO_NAMES, 0},
         (struct answer){
             .result = {0, 1, 1, 5, 0, 0, 0, 0, 0, 0, 52, 2, 70, 0, 0, 0, 0, 2},
             .header = TEXT(""),
             .list = {1, 17, 3, 22, 5, 2, 1, 29, 3, 34, 9, 2},
             .components = {TEXT(""), TEXT(""), TEXT(""), TEXT("\0"), TEXT(""), TEXT("")},
         });
    refused("T11: T10 with an empty iv", JWE_SHAPE, TEXT(T10 ",\"iv\":\"\"}"));
    refused("T12: a key in mode 5", JWE_KEY, TEXT(H ".AA.AA.AQID.Ag"));
}

/* Each recipient has its own key, mode and parameters; the places of origin 2 count in the message. */
static void recipients(void)
{
    struct answer answer = {
        .result = {0, 2, 2, 5, 14, 23, 0, 0, 144, 2, 155, 2, 173, 4, 186, 2, 17, 2},
        .header = TEXT("{\"enc\":\"A128GCM\"}"),
        .list = {0, 2, 3, 7, 9, 2, 2, 65, 3, 70, 5, 2},
        .components = {TEXT("{\"enc\":\"A128GCM\"}"), TEXT(""), TEXT("\0"), TEXT("\xff"), TEXT("\1\2\3"), TEXT("\2")},
    };
    asks((struct asked){"general, recipient 0", TEXT(GENERAL), NO_NAMES, 0}, answer);
    struct answer second = {
        .result = {0, 2, 2, 2, 14, 23, 131, 3, 144, 2, 155, 2, 173, 4, 186, 2, 17, 3},
        .header = answer.header,
        .list = {0, 2, 3, 7, 9, 2, 2, 90, 3, 95, 8, 2, 2, 105, 1, 108, 4, 6},
    };
    memcpy(second.components, answer.components, sizeof second.components);
    second.components[JWE_ENCRYPTED_KEY] = TEXT("\1\2");
    asks((struct asked){"general, recipient 1", TEXT(GENERAL), NO_NAMES, 1}, second);
    refused_with("general, recipient 2", JWE_NO_SUCH_RECIPIENT, TEXT(GENERAL), NO_NAMES, 2);
    refused_with("compact, recipient 1", JWE_NO_SUCH_RECIPIENT, TEXT(M), NO_NAMES, 1);
    refused_with("compact, the largest recipient", JWE_NO_SUCH_RECIPIENT, TEXT(M), NO_NAMES, 4294967295);
    refused_with("18 before 19", JWE_KEY, TEXT(H ".AA.AA.AQID.Ag"), NO_NAMES, 1);
}

/* Own headers with `enc`: the same for all, however it is spelled, or 21, whomever is asked for. */
#define SEALED(enc) "{\"header\":{\"alg\":\"dir\",\"enc\":\"" enc "\"}}"
#define SEALED_FOR(elements) "{\"ciphertext\":\"AQID\",\"recipients\":[" elements "]}"

static void content_algorithms(void)
{
    struct answer answer = {
        .result = {0, 2, 2, 5, 0, 0, 0, 0, 0, 0, 0, 0, 15, 4, 0, 0, 0, 2},
        .header = TEXT(""),
        .list = {2, 47, 3, 52, 5, 2, 2, 59, 3, 64, 9, 2},
        .components = {TEXT(""), TEXT(""), TEXT(""), TEXT(""), TEXT("\1\2\3"), TEXT("")},
    };
    struct text same = TEXT(SEALED_FOR(SEALED("A128GCM") "," SEALED("A128GC\\u004d")));
    asks((struct asked){"the same enc, recipient 0", same, NO_NAMES, 0}, answer);
    const uint32_t second[] = {2, 88, 3, 93, 5, 2, 2, 100, 3, 105, 14, 2};
    memcpy(answer.list, second, sizeof second);
    asks((struct asked){"the same enc, recipient 1", same, NO_NAMES, 1}, answer);
    refused_with("19, the same enc", JWE_NO_SUCH_RECIPIENT, same, NO_NAMES, 2);
    struct text other = TEXT(SEALED_FOR(SEALED("A128GCM") "," SEALED("A128GCM") "," SEALED("A256GCM")));
    for (uint32_t recipient = 0; recipient < 4; recipient++)
        refused_with("21, and 21 before 19", JWE_CONTENT_ALGORITHMS_DIFFER, other, NO_NAMES, recipient);
    refused("21, the first differs", JWE_CONTENT_ALGORITHMS_DIFFER,
            TEXT(SEALED_FOR(SEALED("A\\u003192GCM") "," SEALED("A128GCM"))));
    refused("13 of the last before 21", JWE_NO_ALG_OR_ENC, TEXT(SEALED_FOR(SEALED("A128GCM") "," SEALED("A256GCM") ",{}")));
    refused("15 before 21", JWE_UNLISTED, TEXT(SEALED_FOR(SEALED("A128GCM") "," SEALED("A128GC\\u004e"))));
}

/* The numbers that the samples leave out, on the shortest messages that get them. T10 has room for another member. */
static void every_number(void)
{
    refused_with("no known list", JWE_KNOWN_MALFORMED, TEXT(M), TEXT(""), 0);
    refused_with("an octet too many in the known list", JWE_KNOWN_MALFORMED, TEXT(M), TEXT("\0x"), 0);
    refused_with("3 before 4", JWE_KNOWN_MALFORMED, TEXT(""), TEXT("\1"), 0);
    refused("5", JWE_NOT_BASE64URL, TEXT(H "..AB.AQID.Ag"));
    refused("7, no header", JWE_NOT_JSON, TEXT("...."));
    refused("7, the message", JWE_NOT_JSON, TEXT("{"));
    refused("9, the message", JWE_NAME_TWICE, TEXT(T10 ",\"a\\u0061d\":\"AA\"}"));
    refused("11", JWE_MANY_RECIPIENTS, TEXT(T10 ",\"recipients\":[{},{},{},{},{},{},{},{},{}]}"));
    refused("12", JWE_NAME_IN_TWO_HEADERS, TEXT(T10 ",\"header\":{\"alg\":\"dir\"}}"));
    refused("13, an empty header", JWE_NO_ALG_OR_ENC, TEXT("e30...."));
    refused("14", JWE_WRONG_KIND, TEXT(T10 ",\"header\":{\"kid\":1}}"));
    refused("15", JWE_UNLISTED, TEXT("{\"unprotected\":{\"alg\":\"none\",\"enc\":\"A128GCM\"},\"ciphertext\":\"\"}"));
    refused("16", JWE_UNPROTECTED, TEXT(T10 ",\"header\":{\"zip\":\"DEF\"}}"));
    /* {"crit":["x"]} */
    struct text critical = TEXT(T10 ",\"protected\":\"eyJjcml0IjpbIngiXX0\",\"header\":{\"x\":1}}");
    refused("17, nothing known", JWE_CRIT, critical);
    refused_with("17, another name known", JWE_CRIT, critical, TEXT("\1\1y"), 0);
    uint32_t judged = jwe_judge(critical.octets, critical.length, (const uint8_t *)"\2\1\1yx", 5, 0);
    CHECK("crit, its name known", judged == JWE_OK);
}

/* Sizes from both sides: the header (6) and members (8). */
static void sizes(void)
{
    const size_t longest = 16384;
    uint8_t *text = must(malloc(longest));
    uint8_t header[4097];
    memset(header, ' ', sizeof header);
    memcpy(header, HEADER, strlen(HEADER));
    for (size_t n = 4096; n <= 4097; n++) {
        size_t length = spell(header, n, text);
        memcpy(text + length, "....", 4);
        struct answer answer = {.refusal = JWE_HEADER_TOO_LONG};
        if (n == 4096) {
            uint32_t end = (uint32_t)length;
            struct text octets = {header, n};
            answer = (struct answer){
                .result = {0, 0, 1, 5, 0, end, end + 1, 0, end + 2, 0, 0, 0, end + 3, 0, end + 4, 0, 4096, 2},
                .header = octets,
                .list = {0, 2, 3, 7, 5, 2, 0, 14, 3, 19, 9, 2},
                .components = {octets, TEXT(""), TEXT(""), TEXT(""), TEXT(""), TEXT("")},
            };
        }
        char name[64];
        snprintf(name, sizeof name, "a header of %zu octets", n);
        asks((struct asked){name, {text, length + 4}, NO_NAMES, 0}, answer);
    }

    /* 3 members in T10, and 29 or 30 more. */
    for (int more = 29; more <= 30; more++) {
        int length = snprintf((char *)text, longest, "%s", T10);
        for (int i = 0; i < more; i++)
            length += snprintf((char *)text + length, 100, ",\"m%d\":0", i);
        text[length++] = '}';
        struct text message = {text, (size_t)length};
        uint32_t judged = jwe_judge(text, message.length, (const uint8_t *)"", 1, 0);
        CHECK("members", judged == (more == 29 ? JWE_OK : JWE_MANY_MEMBERS));
        if (more == 30)
            refused("33 members", JWE_MANY_MEMBERS, message);
    }

    free(text);
}

/* And the message (2). */
static void long_messages(void)
{
    const size_t longest = 16777216;
    uint8_t *text = must(malloc(longest + 1));
    memset(text, 'A', longest + 1);
    refused("16 MiB without a dot", JWE_NOT_FOUR_DOTS, (struct text){text, longest});
    refused("16 MiB and an octet", JWE_MESSAGE_TOO_LONG, (struct text){text, longest + 1});
    refused_with("2 before 3", JWE_MESSAGE_TOO_LONG, (struct text){text, longest + 1}, TEXT(""), 0);
    free(text);
}

/* A length cut to 32 bits would be another length. */
static void no_length_is_cut(void)
{
    const size_t bits32 = (size_t)1 << 32;
    const int reserved_late = MAP_PRIVATE | MAP_ANONYMOUS | MAP_NORESERVE;
    uint8_t *long_one = must(mmap(NULL, bits32 + 4096, PROT_READ | PROT_WRITE, reserved_late, -1, 0));
    const size_t list_span = 4 * (bits32 + 575);
    uint32_t *long_list = must(mmap(NULL, list_span, PROT_READ | PROT_WRITE, reserved_late, -1, 0));
    const uint8_t *m = (const uint8_t *)M, *none = (const uint8_t *)"";
    const size_t length = strlen(M);
    uint8_t header[4096], out[4];
    uint32_t list[576], result[18];
    size_t n;
#define READ(message, message_len, known_len, header, header_len, list, list_len, result, result_len)                  \
    jwe_read(message, message_len, none, known_len, 0, header, header_len, list, list_len, result, result_len)
    CHECK("a header of 2^32 + 4095",
          READ(m, length, 1, long_one, bits32 + 4095, list, 576, result, 18) == JWE_OK && long_one[29] == 0);
    CHECK("a list of 2^32 + 575",
          READ(m, length, 1, header, 4096, long_list, bits32 + 575, result, 18) == JWE_OK && long_list[12] == 0);
    CHECK("a result of 2^32 + 17",
          READ(m, length, 1, header, 4096, list, 576, long_list, bits32 + 17) == JWE_OK && long_list[18] == 0);
    CHECK("an output of 2^32 + 2",
          jwe_component(m, length, none, 1, 0, JWE_CIPHERTEXT, long_one, bits32 + 2, &n) == JWE_OK && n == 3);

    memcpy(long_one, M, length);
    CHECK("2^32 + 51 octets",
          READ(long_one, bits32 + length, 1, header, 4096, list, 576, result, 18) == JWE_MESSAGE_TOO_LONG);
    CHECK("2^32 + 51 octets", jwe_judge(long_one, bits32 + length, none, 1, 0) == JWE_MESSAGE_TOO_LONG);
    CHECK("2^32 + 51 octets",
          jwe_component(long_one, bits32 + length, none, 1, 0, 4, out, sizeof out, &n) == JWE_MESSAGE_TOO_LONG &&
              n == 0);
    long_one[0] = 0;
    CHECK("known names of 2^32 + 1", jwe_judge(m, length, long_one, bits32 + 1, 0) == JWE_KNOWN_MALFORMED);
#undef READ
    munmap(long_one, bits32 + 4096);
    munmap(long_list, list_span);
    cases += 6;
}

int main(int argc, char **argv)
{
    samples();
    recipients();
    content_algorithms();
    every_number();
    sizes();
    if (!is_short(argc, argv)) {
        long_messages();
        no_length_is_cut();
    }
    printf("reading: %lu cases, %lu checks, %lu failed\n", cases, checks, failures);
    return failures != 0;
}
