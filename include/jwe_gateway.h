/* The JWE gateway's proved functions, for C and C++ on x86-64 Linux. Link libjwe_gateway.a, as `pkg-config jwe_gateway`
 * says after `make install`, or target/staticlib/libhost.a, which is the same and which `rt staticlib host` writes. It
 * needs memcpy and memset of the C library and nothing else.
 *
 * Every function answers a refusal: 0, or a number of docs/REFUSALS.md. Where octets are written, *octets is how many,
 * at the start of out, and the rest of out is unchanged; refused, *octets is 0 and every lent buffer is unchanged.
 * jwe_differences reads two messages and says besides what each was refused for.
 * Every length is a size_t and is never cut. Texts need not end in a NUL. docs/RULES.md has the rules.
 *
 * The functions keep no state, allocate nothing and may be called from any thread. Pointers are not NULL, also where
 * the length beside them is 0; no two of a call's buffers overlap where one of them is written. jwe_judge,
 * jwe_component, jwe_read, jwe_write_flattened and jwe_write_general use at most 48 KiB of stack, jwe_differences,
 * which has its work memory there, at most 1,280 KiB, the others at most 8 KiB; tests/host/stack.c holds them to that.
 * A thread whose own stack is smaller must not call jwe_differences. */
#ifndef JWE_GATEWAY_H
#define JWE_GATEWAY_H

#include <stddef.h>
#include <stdint.h>

#if SIZE_MAX != UINT64_MAX
#error "jwe_gateway.h: a length is a size_t of 64 bits"
#endif

/* What the pointers promise: a buffer that is written overlaps no other, and none is NULL. */
#if defined(__GNUC__)
#define JWE_RESTRICT __restrict__
#define JWE_NONNULL __attribute__((nonnull))
#elif defined(__cplusplus)
#define JWE_RESTRICT
#define JWE_NONNULL
#else
#define JWE_RESTRICT restrict
#define JWE_NONNULL
#endif

#define JWE_GATEWAY_VERSION "0.10.0"
#define JWE_GATEWAY_VERSION_MAJOR 0
#define JWE_GATEWAY_VERSION_MINOR 10
#define JWE_GATEWAY_VERSION_PATCH 0

#ifdef __cplusplus
extern "C" {
#endif

/* The version of this header, and of the archive that is installed with it. */
static inline const char *jwe_version(void)
{
    return JWE_GATEWAY_VERSION;
}

/* Refusals; docs/REFUSALS.md has a sentence for each. A message gets them in this order, but 21 after 18 and before 19;
 * for those that write the order stands with the function. */
#define JWE_OK 0u                 /* not refused */
#define JWE_TOO_SHORT 1u          /* a lent output is shorter than asked */
#define JWE_MESSAGE_TOO_LONG 2u   /* over 16,777,216 octets */
#define JWE_KNOWN_MALFORMED 3u    /* the list of known names */
#define JWE_NOT_FOUR_DOTS 4u      /* compact */
#define JWE_NOT_BASE64URL 5u      /* a component */
#define JWE_HEADER_TOO_LONG 6u    /* over 4,096 octets, decoded */
#define JWE_NOT_JSON 7u           /* no JSON object within 12 levels */
#define JWE_MANY_MEMBERS 8u       /* over 32 */
#define JWE_NAME_TWICE 9u         /* in one object */
#define JWE_SHAPE 10u             /* of a JSON message */
#define JWE_MANY_RECIPIENTS 11u   /* over 8 */
#define JWE_NAME_IN_TWO_HEADERS 12u
#define JWE_NO_ALG_OR_ENC 13u
#define JWE_WRONG_KIND 14u        /* of a parameter */
#define JWE_UNLISTED 15u          /* alg, enc or zip */
#define JWE_UNPROTECTED 16u       /* zip or crit outside the protected header */
#define JWE_CRIT 17u              /* contents of crit */
#define JWE_KEY 18u               /* not empty in direct modes, or empty in others */
#define JWE_NO_SUCH_RECIPIENT 19u
#define JWE_RECIPIENTS_MALFORMED 20u /* the table of recipients, or not one of them for a flattened message */
#define JWE_CONTENT_ALGORITHMS_DIFFER 21u /* enc is not the same for all recipients; general messages alone */

#define JWE_MESSAGE_OCTETS 16777216u /* of the longest message */

/* The known extension names, `known` below, are a table of contents and then the names: one octet n (0 to 16), n length
 * octets (each 1 to 64), then the names one behind the other, filling known_len exactly. No names: one octet 0. */

/* Components by their numbers, for jwe_component. */
#define JWE_PROTECTED 0u
#define JWE_ENCRYPTED_KEY 1u
#define JWE_IV 2u
#define JWE_AAD 3u
#define JWE_CIPHERTEXT 4u
#define JWE_TAG 5u

/* Judges a message for a recipient, counted from 0. */
JWE_NONNULL
uint32_t jwe_judge(const uint8_t *message, size_t message_len, const uint8_t *known, size_t known_len,
                   uint32_t recipient);

/* Judges a message for a recipient and decodes one of its components into out. An absent component, and one of another
 * number, has no octets. Refusals are jwe_judge's, then JWE_TOO_SHORT. message_len / 4 * 3 + 2 octets are always
 * enough. */
JWE_NONNULL
uint32_t jwe_component(const uint8_t *message, size_t message_len, const uint8_t *known, size_t known_len,
                       uint32_t recipient, uint32_t component, uint8_t *JWE_RESTRICT out, size_t out_len,
                       size_t *JWE_RESTRICT octets);

/* Decodes one component's text: base64url without padding (RFC 4648, section 5). Refusals: JWE_NOT_BASE64URL, then
 * JWE_TOO_SHORT. text_len / 4 * 3 + 2 octets are always enough. */
JWE_NONNULL
uint32_t jwe_decode(const uint8_t *text, size_t text_len, uint8_t *JWE_RESTRICT out, size_t out_len,
                    size_t *JWE_RESTRICT octets);

/* Writes a compact message (RFC 7516, section 7.1) of the protected header's text and the raw other components.
 * Refusals in order: 3; 6; 7, 8, 9; 13, 14, 15, 17, 18; 2; 1. */
JWE_NONNULL
uint32_t jwe_write_compact(const uint8_t *header, size_t header_len, const uint8_t *key, size_t key_len,
                           const uint8_t *iv, size_t iv_len, const uint8_t *ciphertext, size_t ciphertext_len,
                           const uint8_t *tag, size_t tag_len, const uint8_t *known, size_t known_len,
                           uint8_t *JWE_RESTRICT out, size_t out_len, size_t *JWE_RESTRICT octets);

/* The recipients of a JSON message, `recipients` below, are a table of contents and then the bodies: one octet n (1 to
 * JWE_MOST_RECIPIENTS), for each recipient the length of its own header's text and that of its raw key, 4 octets each,
 * the highest first, then header and key of each one behind the other, filling recipients_len exactly. A length of 0
 * means that the recipient has no such member. */
#define JWE_MOST_RECIPIENTS 8u

/* Write a JSON message (RFC 7516, section 7.2), flattened or general, of the texts of the protected, the shared and the
 * recipients' own headers and the raw other components. What has length 0 is left out, but ciphertext. The members come
 * as protected, unprotected, recipients (or header, encrypted_key), aad, iv, ciphertext, tag; the texts of shared and
 * own headers stand as given, and no space is added. Each text is a JSON object by itself, so that it cannot end its
 * member and begin another. A flattened message has one recipient; a general one has recipients also for one alone.
 * Refusals in order: 3; 20; 6; 7 on each text by itself, protected, shared, own in turn; 2; then what jwe_judge would
 * answer on the message: 7, as a text may be too deep only where it stands, 10, 8 and 9, 12 to 18 for each recipient and,
 * in the general form, 21; 1. */
JWE_NONNULL
uint32_t jwe_write_flattened(const uint8_t *protected_header, size_t protected_len, const uint8_t *shared,
                             size_t shared_len, const uint8_t *aad, size_t aad_len, const uint8_t *iv, size_t iv_len,
                             const uint8_t *ciphertext, size_t ciphertext_len, const uint8_t *tag, size_t tag_len,
                             const uint8_t *known, size_t known_len, const uint8_t *recipients, size_t recipients_len,
                             uint8_t *JWE_RESTRICT out, size_t out_len, size_t *JWE_RESTRICT octets);
JWE_NONNULL
uint32_t jwe_write_general(const uint8_t *protected_header, size_t protected_len, const uint8_t *shared,
                           size_t shared_len, const uint8_t *aad, size_t aad_len, const uint8_t *iv, size_t iv_len,
                           const uint8_t *ciphertext, size_t ciphertext_len, const uint8_t *tag, size_t tag_len,
                           const uint8_t *known, size_t known_len, const uint8_t *recipients, size_t recipients_len,
                           uint8_t *JWE_RESTRICT out, size_t out_len, size_t *JWE_RESTRICT octets);

/* Writes the additional authenticated data (RFC 7516, section 5.1, step 14) of an encoded protected header and an
 * encoded aad: the header where the aad is empty, else header, full stop, aad. Only JWE_TOO_SHORT can refuse. */
JWE_NONNULL
uint32_t jwe_aad(const uint8_t *encoded_header, size_t header_len, const uint8_t *encoded_aad, size_t aad_len,
                 uint8_t *JWE_RESTRICT out, size_t out_len, size_t *JWE_RESTRICT octets);

/* Apart from the others, because it lends numbers and not only octets: the reader. */

#define JWE_HEADER_OCTETS 4096u /* what is lent for the decoded protected header, at least */
#define JWE_LIST_NUMBERS 576u   /* for the list of parameters, at least */
#define JWE_RESULT_NUMBERS 18u  /* for the result, at least */

/* Where the numbers of the result stand. A place is two numbers, start and length, in the message; an absent component
 * has place 0, 0. Forms: 0 compact, 1 flattened, 2 general. Modes: 1 key encryption, 2 key wrapping, 3 direct
 * agreement, 4 agreement with wrapping, 5 direct encryption. */
enum {
    JWE_RESULT_REFUSAL = 0,
    JWE_RESULT_FORM = 1,
    JWE_RESULT_RECIPIENTS = 2,
    JWE_RESULT_MODE = 3,
    JWE_RESULT_PLACES = 4, /* of component n at JWE_RESULT_PLACES + 2 * n */
    JWE_RESULT_HEADER_LENGTH = 16,
    JWE_RESULT_PARAMETERS = 17
};

/* Reads a message for a recipient. Accepted: header begins with the decoded protected header; list with six numbers a
 * parameter: origin (0 protected, 1 shared, 2 own), the name's start and length without quotation marks, the value's
 * start and length with them, and its kind (0 object, 1 array, 2 string, 3 number, 4 true, 5 false, 6 null), places of
 * origin 0 counting in the header and others in the message; result with 18 numbers. The rest of each is unchanged;
 * refused, all of it is, so that result holds numbers only where the answer is 0. */
JWE_NONNULL
uint32_t jwe_read(const uint8_t *message, size_t message_len, const uint8_t *known, size_t known_len,
                  uint32_t recipient, uint8_t *JWE_RESTRICT header, size_t header_len, uint32_t *JWE_RESTRICT list,
                  size_t list_len, uint32_t *JWE_RESTRICT result, size_t result_len);

/* What differs between two messages, left and right. */

/* Kinds of differences, in the order in which they are listed: those of the whole message; the keys of each recipient
 * number that both have; then for each such number its parameters, by name. */
enum {
    JWE_DIFFERS_FORM = 0,
    JWE_DIFFERS_RECIPIENTS = 1, /* how many there are */
    JWE_DIFFERS_PROTECTED = 2,  /* the octets of the decoded protected header */
    JWE_DIFFERS_IV = 3,
    JWE_DIFFERS_AAD = 4,
    JWE_DIFFERS_CIPHERTEXT = 5,
    JWE_DIFFERS_TAG = 6,
    JWE_DIFFERS_KEY = 7,
    JWE_DIFFERS_ONLY_LEFT = 8,
    JWE_DIFFERS_ONLY_RIGHT = 9,
    JWE_DIFFERS_ORIGIN = 10, /* a name that both have, in another header */
    JWE_DIFFERS_VALUE = 11   /* a name that both have, with another value */
};

/* Where the numbers of a line stand. Origins and value places are those of jwe_read's list, for that recipient. */
enum {
    JWE_DIFFERENCE_KIND = 0,
    JWE_DIFFERENCE_RECIPIENT = 1,
    JWE_DIFFERENCE_LEFT = 2, /* origin, value start, value length */
    JWE_DIFFERENCE_RIGHT = 5 /* the same */
};

#define JWE_DIFFERENCE_NUMBERS 8u  /* a line */
#define JWE_DIFFERENCES_ROOM 12408u /* numbers, with which a list is never too short */

/* Judges two messages as jwe_judge does for recipient 0, always both, and puts the answers into *left_refusal and
 * *right_refusal. Where both are 0, lists what differs, *lines lines of eight numbers: kind, recipient, and on either
 * side origin, value start and value length. Kinds 0 to 6 leave the other seven numbers 0, kind 7 the last six, and a
 * side that has no such parameter its three. A message and itself have no lines.
 *
 * Components are compared by their decoded octets, and one that is absent is as one that is empty. Parameters are told
 * apart by name, escapes undone: first those of left in its order (only left; or another origin, another value, or both
 * in that order), then those only in right in its order. Values are the same where strings say the same after undoing
 * escapes, numbers have the same characters, arrays the same elements in order, and objects the same members by name,
 * whatever their order. An object that has a name twice is the same only as the same octets.
 *
 * Answers 0, or JWE_TOO_SHORT where both messages are accepted and the list cannot hold all lines. Where that or a
 * message is refused, *lines is 0 and the list is unchanged; else the rest of the list is. */
JWE_NONNULL
uint32_t jwe_differences(const uint8_t *left, size_t left_len, const uint8_t *right, size_t right_len,
                         const uint8_t *known, size_t known_len, uint32_t *JWE_RESTRICT list, size_t list_len,
                         uint32_t *JWE_RESTRICT left_refusal, uint32_t *JWE_RESTRICT right_refusal,
                         size_t *JWE_RESTRICT lines);

#ifdef __cplusplus
}
#endif

#endif
