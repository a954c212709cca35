/* A host outside the tree, in what C and C++ share: each function of the installed header on document 01's samples. */
#include <jwe_gateway.h>

#include <stdio.h>
#include <string.h>

#define H "eyJhbGciOiJkaXIiLCJlbmMiOiJBMTI4R0NNIn0"
#define M H "..AA.AQID.Ag"

static int failures;

static void check(int holds, const char *what)
{
    if (!holds) {
        printf("FAILED consumer: %s\n", what);
        failures++;
    }
}

static int is(const uint8_t *octets, size_t n, const char *text)
{
    return n == strlen(text) && memcmp(octets, text, n) == 0;
}

int main(void)
{
    static const uint8_t no_names[] = {0}, key[] = {0}, iv[] = {0}, ciphertext[] = {1, 2, 3}, tag[] = {2};
    /* One recipient, who has neither header nor key. */
    static const uint8_t recipients[] = {1, 0, 0, 0, 0, 0, 0, 0, 0};
    const char *header_text = "{\"alg\":\"dir\",\"enc\":\"A128GCM\"}";
    const uint8_t *m = (const uint8_t *)M, *text = (const uint8_t *)header_text;
    uint8_t out[200], header[JWE_HEADER_OCTETS];
    uint32_t list[JWE_LIST_NUMBERS], result[JWE_RESULT_NUMBERS], left = 1, right = 1;
    size_t n = 1;
    char version[32];

    check(jwe_judge(m, strlen(M), no_names, 1, 0) == JWE_OK, "M is judged");
    check(jwe_judge(m, strlen(M), no_names, 1, 1) == JWE_NO_SUCH_RECIPIENT, "M has one recipient");
    check(jwe_component(m, strlen(M), no_names, 1, 0, JWE_CIPHERTEXT, out, sizeof out, &n) == JWE_OK && n == 3 &&
              memcmp(out, ciphertext, 3) == 0,
          "M's ciphertext");
    check(jwe_read(m, strlen(M), no_names, 1, 0, header, JWE_HEADER_OCTETS, list, JWE_LIST_NUMBERS, result,
                   JWE_RESULT_NUMBERS) == JWE_OK &&
              result[JWE_RESULT_MODE] == 5 && is(header, result[JWE_RESULT_HEADER_LENGTH], header_text),
          "M is read");
    check(jwe_decode(m, strlen(H), out, sizeof out, &n) == JWE_OK && is(out, n, header_text), "H is decoded");
    check(jwe_decode(m, strlen(H), out, 1, &n) == JWE_TOO_SHORT && n == 0, "an output that is too short");
    check(jwe_aad(m, 0, (const uint8_t *)"AA", 2, out, sizeof out, &n) == JWE_OK && is(out, n, ".AA"), "T10's AAD");
    check(jwe_write_compact(text, strlen(header_text), key, 0, iv, 1, ciphertext, 3, tag, 1, no_names, 1, out,
                            sizeof out, &n) == JWE_OK &&
              is(out, n, M),
          "M is written");
    check(jwe_write_flattened(text, strlen(header_text), text, 0, text, 0, iv, 1, ciphertext, 3, tag, 1, no_names, 1,
                              recipients, sizeof recipients, out, sizeof out, &n) == JWE_OK &&
              is(out, n, "{\"protected\":\"" H "\",\"iv\":\"AA\",\"ciphertext\":\"AQID\",\"tag\":\"Ag\"}"),
          "M's parts, flattened");
    check(jwe_write_general(text, strlen(header_text), text, 0, text, 0, iv, 0, ciphertext, 0, tag, 0, no_names, 1,
                            recipients, sizeof recipients, out, sizeof out, &n) == JWE_OK &&
              is(out, n, "{\"protected\":\"" H "\",\"recipients\":[{}],\"ciphertext\":\"\"}"),
          "M's header, general");
    check(jwe_write_general(text, strlen(header_text), text, 0, text, 0, iv, 0, ciphertext, 0, tag, 0, no_names, 1,
                            recipients, 8, out, sizeof out, &n) == JWE_RECIPIENTS_MALFORMED && n == 0,
          "a table that is cut off");
    check(jwe_differences(m, strlen(M), m, strlen(M), no_names, 1, list, 0, &left, &right, &n) == JWE_OK &&
              left == JWE_OK && right == JWE_OK && n == 0,
          "M and itself");
    check(jwe_differences(m, strlen(M), (const uint8_t *)H "..AA.AQID.", strlen(M) - 2, no_names, 1, list,
                          JWE_LIST_NUMBERS, &left, &right, &n) == JWE_OK &&
              left == JWE_OK && right == JWE_OK && n == 1 && list[JWE_DIFFERENCE_KIND] == JWE_DIFFERS_TAG,
          "M and M without its tag");
    check(jwe_differences(m, strlen(M), m, strlen(H), no_names, 1, list, 0, &left, &right, &n) == JWE_OK &&
              left == JWE_OK && right == JWE_NOT_FOUR_DOTS && n == 0,
          "M and H");

    snprintf(version, sizeof version, "%d.%d.%d", JWE_GATEWAY_VERSION_MAJOR, JWE_GATEWAY_VERSION_MINOR,
             JWE_GATEWAY_VERSION_PATCH);
    check(strcmp(jwe_version(), version) == 0 && strcmp(version, JWE_GATEWAY_VERSION) == 0, "the version");
    puts(jwe_version());
    return failures != 0;
}
