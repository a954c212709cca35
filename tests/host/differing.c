/* Tests jwe_differences from C by named pairs of messages, each with the lines that request 4 of document 02 gives it.
 * (The harness has many more; here is how C calls the function.)
 *
 * Every pair is tried with lists of several lengths, in each place and over both paints. Prints each failure by its
 * name and exits 1 if there was one. */
#define _GNU_SOURCE
#include "testing.h"

#include "jwe_gateway.h"

#define H "eyJhbGciOiJkaXIiLCJlbmMiOiJBMTI4R0NNIn0"
#define M H "..AA.AQID.Ag"
#define T10 "{\"unprotected\":{\"alg\":\"dir\",\"enc\":\"A128GCM\"},\"aad\":\"AA\",\"ciphertext\":\"\"}"
/* The protected header is {"enc":"A128GCM"}. */
#define ENC "{\"protected\":\"eyJlbmMiOiJBMTI4R0NNIn0\","
#define REST "\"iv\":\"AA\",\"aad\":\"_w\",\"ciphertext\":\"AQID\",\"tag\":\"Ag\"}"
/* With an own parameter whose value begins at octet 69. */
#define OWN(value) "{\"protected\":\"" H "\",\"header\":{\"x\":" value "},\"ciphertext\":\"\"}"

#define NO_NAMES TEXT("\0")

enum { MOST_LINES = 10 };

struct pair {
    const char *name;
    struct text left, right, known;
    uint32_t left_refusal, right_refusal;
    size_t lines;
    uint32_t list[MOST_LINES][JWE_DIFFERENCE_NUMBERS];
};

static void try_pair(const struct pair *pair, size_t room, enum place place, uint8_t paint)
{
    struct lent left = lend_copy(place, pair->left), right = lend_copy(place, pair->right);
    struct lent known = lend_copy(place, pair->known), list = lend_painted(place, 4 * room, paint);
    uint32_t own = JWE_DIFFERENCE_NUMBERS * pair->lines > room ? JWE_TOO_SHORT : JWE_OK;
    size_t expected = own == JWE_OK ? pair->lines : 0;
    uint32_t left_refusal = ~pair->left_refusal, right_refusal = ~pair->right_refusal;
    size_t lines = ~expected;
    uint32_t got = jwe_differences(left.start, pair->left.length, right.start, pair->right.length, known.start,
                                   pair->known.length, (uint32_t *)(void *)list.start, room, &left_refusal,
                                   &right_refusal, &lines);
    int good = CHECK(pair->name, got == own);
    good &= CHECK(pair->name, left_refusal == pair->left_refusal && right_refusal == pair->right_refusal);
    good &= CHECK(pair->name, lines == expected);
    struct text text = {pair->list, expected * sizeof pair->list[0]};
    good &= CHECK(pair->name, begins_with(list, 4 * room, text, paint));
    good &= CHECK(pair->name, is_copy(left, pair->left) && is_copy(right, pair->right) && is_copy(known, pair->known));
    if (!good)
        printf("       a list of %zu, %s, painted %#x: expected %u and %zu lines, got %u, %u, %u and %zu\n", room,
               place_names[place], paint, (unsigned)own, expected, (unsigned)got, (unsigned)left_refusal,
               (unsigned)right_refusal, lines);
    give_back(left);
    give_back(right);
    give_back(known);
    give_back(list);
}

/* With the list exactly full, one number and one line short, empty, longer, and with what is always enough. */
static void tries(struct pair pair)
{
    const size_t n = JWE_DIFFERENCE_NUMBERS * pair.lines;
    const size_t rooms[] = {n, n > 0 ? n - 1 : 0, n > 8 ? n - 8 : 0, 0, n + 1, n + 100, JWE_DIFFERENCES_ROOM};
    cases++;
    for (enum place place = 0; place < PLACES; place++)
        for (int paint = 0x5a; paint <= 0xa5; paint += 0xa5 - 0x5a)
            for (size_t i = 0; i < sizeof rooms / sizeof *rooms; i++)
                try_pair(&pair, rooms[i], place, (uint8_t)paint);
}

static void same(const char *name, struct text left, struct text right)
{
    tries((struct pair){.name = name, .left = left, .right = right, .known = NO_NAMES});
    tries((struct pair){.name = name, .left = right, .right = left, .known = NO_NAMES});
    tries((struct pair){.name = name, .left = left, .right = left, .known = NO_NAMES});
}

/* Two values of x, neither of which is the other. */
static void other(const char *name, struct text left, struct text right)
{
    /* What stands around the value: {"protected":"..39..","header":{"x": before it, },"ciphertext":""} behind. */
    enum { BEFORE = 69, BEHIND = 18 };
    const uint32_t sizes[] = {(uint32_t)left.length - BEFORE - BEHIND, (uint32_t)right.length - BEFORE - BEHIND};
    tries((struct pair){name, left, right, NO_NAMES, 0, 0, 1, {{11, 0, 2, BEFORE, sizes[0], 2, BEFORE, sizes[1]}}});
    tries((struct pair){name, right, left, NO_NAMES, 0, 0, 1, {{11, 0, 2, BEFORE, sizes[1], 2, BEFORE, sizes[0]}}});
}

static void refused(const char *name, struct text left, struct text right, uint32_t left_refusal,
                    uint32_t right_refusal)
{
    tries((struct pair){name, left, right, NO_NAMES, left_refusal, right_refusal, 0, {{0}}});
}

static void refused_with(const char *name, struct text left, struct text right, struct text known)
{
    tries((struct pair){name, left, right, known, JWE_KNOWN_MALFORMED, JWE_KNOWN_MALFORMED, 0, {{0}}});
}

static void messages(void)
{
    same("M", TEXT(M), TEXT(M));
    same("T10, a space", TEXT(T10), TEXT(" " T10 "\n"));
    tries((struct pair){"another tag", TEXT(M), TEXT(H "..AA.AQID.Aw"), NO_NAMES, 0, 0, 1, {{JWE_DIFFERS_TAG}}});
    tries((struct pair){"M and T10", TEXT(M), TEXT(T10), NO_NAMES, 0, 0, 8, {
        {JWE_DIFFERS_FORM}, {JWE_DIFFERS_PROTECTED}, {JWE_DIFFERS_IV}, {JWE_DIFFERS_AAD}, {JWE_DIFFERS_CIPHERTEXT},
        {JWE_DIFFERS_TAG}, {JWE_DIFFERS_ORIGIN, 0, 0, 7, 5, 1, 22, 5}, {JWE_DIFFERS_ORIGIN, 0, 0, 19, 9, 1, 34, 9}}});
    tries((struct pair){"two recipients",
        TEXT(ENC "\"recipients\":[{\"header\":{\"alg\":\"dir\"}},"
             "{\"header\":{\"alg\":\"A128KW\",\"x\":null},\"encrypted_key\":\"AQI\"}]," REST),
        TEXT(ENC "\"unprotected\":{\"x\":1},\"recipients\":[{\"header\":{\"alg\":\"dir\"}},"
             "{\"header\":{\"alg\":\"A128KW\"},\"encrypted_key\":\"AQM\"}]," REST),
        NO_NAMES, 0, 0, 4, {
        {JWE_DIFFERS_KEY, 1}, {JWE_DIFFERS_ONLY_RIGHT, 0, 0, 0, 0, 1, 58, 1},
        {JWE_DIFFERS_ORIGIN, 1, 2, 108, 4, 1, 58, 1}, {JWE_DIFFERS_VALUE, 1, 2, 108, 4, 1, 58, 1}}});
    tries((struct pair){"one recipient and two", TEXT(ENC "\"header\":{\"alg\":\"dir\"}," REST),
        TEXT(ENC "\"recipients\":[{\"header\":{\"alg\":\"dir\"}},{\"header\":{\"alg\":\"ECDH-ES\"}}]," REST),
        NO_NAMES, 0, 0, 2, {{JWE_DIFFERS_FORM}, {JWE_DIFFERS_RECIPIENTS}}});
    /* {"alg":"dir","enc":"A128GCM","crit":["x"],"x":1} */
    tries((struct pair){"a known name",
        TEXT("eyJhbGciOiJkaXIiLCJlbmMiOiJBMTI4R0NNIiwiY3JpdCI6WyJ4Il0sIngiOjF9..AA.AQID.Ag"), TEXT(M), TEXT("\1\1x"), 0,
        0, 3, {{JWE_DIFFERS_PROTECTED}, {JWE_DIFFERS_ONLY_LEFT, 0, 0, 36, 5}, {JWE_DIFFERS_ONLY_LEFT, 0, 0, 46, 1}}});
}

static void values(void)
{
    same("an escape", TEXT(OWN("\"a/\"")), TEXT(OWN("\"\\u0061\\/\"")));
    same("space", TEXT(OWN("[1,{}]")), TEXT(OWN("[ 1 , { } ]")));
    same("order", TEXT(OWN("{\"a\":[1],\"b\":\"c\"}")), TEXT(OWN("{\"b\":\"c\",\"\\u0061\":[1]}")));
    same("a name twice", TEXT(OWN("[{\"a\":1,\"a\":2}]")), TEXT(OWN("[ {\"a\":1,\"a\":2} ]")));
    other("letters", TEXT(OWN("\"a\"")), TEXT(OWN("\"b\"")));
    other("a number and a string", TEXT(OWN("1")), TEXT(OWN("\"1\"")));
    other("numbers", TEXT(OWN("1")), TEXT(OWN("1.0")));
    other("elements in another order", TEXT(OWN("[1,2]")), TEXT(OWN("[2,1]")));
    other("a member more", TEXT(OWN("{\"a\":1}")), TEXT(OWN("{\"a\":1,\"b\":1}")));
    other("as many members", TEXT(OWN("{\"a\":1,\"a\":1}")), TEXT(OWN("{\"a\":1,\"b\":1}")));
    other("a name twice, a space", TEXT(OWN("{\"a\":1,\"a\":2}")), TEXT(OWN("{\"a\":1, \"a\":2}")));
    other("a name twice, another order", TEXT(OWN("{\"a\":1,\"a\":2}")), TEXT(OWN("{\"a\":2,\"a\":1}")));
}

/* Both are judged, and the own number is 0 however short the list is. */
static void refusals(void)
{
    refused("right", TEXT(M), TEXT(M "."), 0, JWE_NOT_FOUR_DOTS);
    refused("left", TEXT(H ".AA.AA.AQID.Ag"), TEXT(M), JWE_KEY, 0);
    refused("both", TEXT(M "."), TEXT(H ".AA.AA.AQID.Ag"), JWE_NOT_FOUR_DOTS, JWE_KEY);
    refused("nothing", TEXT(""), TEXT(T10), JWE_NOT_FOUR_DOTS, 0);
    refused("a fault of recipient 1", TEXT(M),
            TEXT("{\"protected\":\"" H "\",\"recipients\":[{},{\"header\":{\"alg\":\"dir\"}}],\"ciphertext\":\"\"}"), 0,
            JWE_NAME_IN_TWO_HEADERS);
    refused_with("known names", TEXT(M), TEXT(M "."), TEXT("\1"));
    refused_with("no known names", TEXT(M), TEXT(M), TEXT(""));
}

/* Lengths of 2^32 and more. */
static void no_length_is_cut(void)
{
    const size_t bits32 = (size_t)1 << 32;
    const int reserved_late = MAP_PRIVATE | MAP_ANONYMOUS | MAP_NORESERVE;
    uint8_t *long_one = must(mmap(NULL, bits32 + 4096, PROT_READ | PROT_WRITE, reserved_late, -1, 0));
    uint32_t *long_list = must(mmap(NULL, 4 * (bits32 + 8), PROT_READ | PROT_WRITE, reserved_late, -1, 0));
    const uint8_t *m = (const uint8_t *)M, *t10 = (const uint8_t *)T10, *none = (const uint8_t *)"";
    uint32_t list[8], left, right;
    size_t lines = 1;
    CHECK("a list of 2^32 + 7", jwe_differences(m, strlen(M), t10, strlen(T10), none, 1, long_list, bits32 + 7, &left,
                                                &right, &lines) == JWE_OK &&
                                    lines == 8 && long_list[64] == 0);
    memcpy(long_one, M, strlen(M));
    CHECK("left of 2^32 + 51", jwe_differences(long_one, bits32 + strlen(M), m, strlen(M), none, 1, list, 8, &left,
                                               &right, &lines) == JWE_OK &&
                                   left == JWE_MESSAGE_TOO_LONG && right == JWE_OK && lines == 0);
    CHECK("right of 2^32 + 51", jwe_differences(m, strlen(M), long_one, bits32 + strlen(M), none, 1, list, 8, &left,
                                                &right, &lines) == JWE_OK &&
                                    left == JWE_OK && right == JWE_MESSAGE_TOO_LONG && lines == 0);
    long_one[0] = 0;
    CHECK("known names of 2^32 + 1", jwe_differences(m, strlen(M), m, strlen(M), long_one, bits32 + 1, list, 8, &left,
                                                     &right, &lines) == JWE_OK &&
                                         left == JWE_KNOWN_MALFORMED && right == JWE_KNOWN_MALFORMED && lines == 0);
    munmap(long_one, bits32 + 4096);
    munmap(long_list, 4 * (bits32 + 8));
    cases += 4;
}

int main(int argc, char **argv)
{
    messages();
    values();
    refusals();
    if (!is_short(argc, argv))
        no_length_is_cut();
    printf("differing: %lu cases, %lu checks, %lu failed\n", cases, checks, failures);
    return failures != 0;
}
