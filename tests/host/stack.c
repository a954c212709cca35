/* Measures the stack that the functions for C use, and check, encode and judge: they run on a stack of their own that
 * was painted before, and the lowest octet that lost its paint shows how deep they went. Fails above 8 KiB, for
 * those that read a message or write a JSON one above 48 KiB, for the one that compares two above 1,280 KiB.
 *
 * Not built with the sanitizers, which use the stack themselves. */
#define _GNU_SOURCE
#include "jwe_gateway.h"

#include <stdio.h>
#include <stdlib.h>
#include <string.h>
#include <sys/mman.h>
#include <ucontext.h>

uint32_t probe_check(const uint8_t *text, size_t text_len);
uint32_t probe_encode(const uint8_t *octets, size_t octets_len, uint8_t *out, size_t out_len, size_t at, size_t *end);
uint32_t probe_judge(const uint8_t *text, size_t text_len, uint32_t levels, size_t *end);

enum { LIMIT = 8192, MESSAGE_LIMIT = 49152, COMPARING_LIMIT = 1310720, FENCE = 65536, SHORT = 1000, LONG = 1 << 24 };
/* A part of the stack is enough for all but jwe_differences, and is painted sooner. */
enum { STACK = 2097152, PART = 131072 };
enum { LEVELS = 12, RECIPIENTS = 8, NO_OBJECT = 7 };

typedef uint32_t call(const uint8_t *in, size_t in_len, uint8_t *out, size_t out_len, size_t *n);

/* Uses nothing but its return address: where the others begin. */
__attribute__((noipa)) static uint32_t idle(const uint8_t *in, size_t in_len, uint8_t *out, size_t out_len, size_t *n)
{
    (void)in, (void)in_len, (void)out, (void)out_len, (void)n;
    return 0;
}

static uint32_t check(const uint8_t *in, size_t in_len, uint8_t *out, size_t out_len, size_t *n)
{
    (void)out, (void)out_len, (void)n;
    return probe_check(in, in_len);
}

static uint32_t encode(const uint8_t *in, size_t in_len, uint8_t *out, size_t out_len, size_t *n)
{
    return probe_encode(in, in_len, out, out_len, 0, n);
}

static uint32_t judge(const uint8_t *in, size_t in_len, uint8_t *out, size_t out_len, size_t *n)
{
    (void)out, (void)out_len;
    return probe_judge(in, in_len, LEVELS, n);
}

static const uint8_t octet[] = {0}, names[] = {1, 1, 'x'};

/* The last recipient of the message that is asked about. */
static uint32_t recipient;

static uint32_t judge_message(const uint8_t *in, size_t in_len, uint8_t *out, size_t out_len, size_t *n)
{
    (void)out, (void)out_len, (void)n;
    return jwe_judge(in, in_len, names, sizeof names, recipient);
}

static uint32_t component(const uint8_t *in, size_t in_len, uint8_t *out, size_t out_len, size_t *n)
{
    return jwe_component(in, in_len, names, sizeof names, recipient, JWE_CIPHERTEXT, out, out_len, n);
}

static uint32_t read_message(const uint8_t *in, size_t in_len, uint8_t *out, size_t out_len, size_t *n)
{
    static uint8_t header[JWE_HEADER_OCTETS];
    static uint32_t list[JWE_LIST_NUMBERS], result[JWE_RESULT_NUMBERS];
    (void)out, (void)out_len, (void)n;
    return jwe_read(in, in_len, names, sizeof names, recipient, header, sizeof header, list, JWE_LIST_NUMBERS, result,
                    JWE_RESULT_NUMBERS);
}

/* A message of this header, without a key. */
static uint32_t write_message(const uint8_t *in, size_t in_len, uint8_t *out, size_t out_len, size_t *n)
{
    return jwe_write_compact(in, in_len, octet, 0, octet, 1, octet, 1, octet, 1, names, sizeof names, out, out_len, n);
}

/* What a JSON message is written of, but for the ciphertext: texts with as much nesting as they can have. */
static struct {
    uint8_t header[JWE_HEADER_OCTETS], shared[SHORT], recipients[1 + RECIPIENTS * (8 + SHORT)];
    size_t header_len, shared_len, recipients_len;
} pieces;

static uint32_t write_flattened(const uint8_t *in, size_t in_len, uint8_t *out, size_t out_len, size_t *n)
{
    return jwe_write_flattened(pieces.header, pieces.header_len, pieces.shared, pieces.shared_len, octet, 1, octet, 1,
                               in, in_len, octet, 1, names, sizeof names, pieces.recipients, pieces.recipients_len,
                               out, out_len, n);
}

static uint32_t write_general(const uint8_t *in, size_t in_len, uint8_t *out, size_t out_len, size_t *n)
{
    return jwe_write_general(pieces.header, pieces.header_len, pieces.shared, pieces.shared_len, octet, 1, octet, 1, in,
                             in_len, octet, 1, names, sizeof names, pieces.recipients, pieces.recipients_len, out,
                             out_len, n);
}

/* The message with which others are compared. */
static struct {
    uint8_t *text;
    size_t length;
} right;

/* Answers the refusals too, so that the caller sees both. */
static uint32_t compare(const uint8_t *in, size_t in_len, uint8_t *out, size_t out_len, size_t *n)
{
    static uint32_t list[JWE_DIFFERENCES_ROOM];
    uint32_t left_refusal, right_refusal;
    (void)out;
    uint32_t own = jwe_differences(in, in_len, right.text, right.length, names, sizeof names, list, out_len,
                                   &left_refusal, &right_refusal, n);
    return own | left_refusal | right_refusal;
}

static uint32_t join(const uint8_t *in, size_t in_len, uint8_t *out, size_t out_len, size_t *n)
{
    return jwe_aad(in, in_len, in, in_len, out, out_len, n);
}

static uint8_t *stack;
static size_t stack_length;
static ucontext_t outside, inside;

/* Takes so much of the memory's upper end. */
static void take_stack(uint8_t *map, size_t length)
{
    stack = map + FENCE + STACK - length;
    stack_length = length;
}

/* The call to be measured, and what came of it. */
static struct {
    call *function;
    const uint8_t *in;
    size_t in_len;
    uint8_t *out;
    size_t out_len;
    uint8_t paint;
    uint32_t answer;
    size_t lowest;
} run;

/* Looks for the lowest touched octet before it returns, as what comes after uses the stack too. */
static void on_painted_stack(void)
{
    size_t n;
    run.answer = run.function(run.in, run.in_len, run.out, run.out_len, &n);
    size_t lowest = 0;
    while (stack[lowest] == run.paint)
        lowest++;
    run.lowest = lowest;
}

static size_t lowest_touched(call *function, uint8_t paint)
{
    run.function = function;
    run.paint = paint;
    memset(stack, paint, stack_length);
    getcontext(&inside);
    inside.uc_stack.ss_sp = stack;
    inside.uc_stack.ss_size = stack_length;
    inside.uc_link = &outside;
    makecontext(&inside, on_painted_stack, 0);
    swapcontext(&outside, &inside);
    return run.lowest;
}

/* The octets a call uses, its return address among them. Two paints, as an octet written may look like one of them. */
static size_t used(call *function, const uint8_t *in, size_t in_len, uint8_t *out, size_t out_len, uint32_t answer)
{
    run.in = in;
    run.in_len = in_len;
    run.out = out;
    run.out_len = out_len;
    size_t lowest = stack_length, start = stack_length;
    for (int paint = 0x5a; paint <= 0xa5; paint += 0xa5 - 0x5a) {
        size_t found = lowest_touched(idle, (uint8_t)paint);
        start = found < start ? found : start;
        found = lowest_touched(function, (uint8_t)paint);
        lowest = found < lowest ? found : lowest;
        if (run.answer != answer) {
            printf("FAILED stack: %zu octets in, %zu out: expected %u, got %u\n", in_len, out_len, (unsigned)answer,
                   (unsigned)run.answer);
            exit(1);
        }
    }
    return start + sizeof(void *) - lowest;
}

static size_t larger(size_t a, size_t b)
{
    return a < b ? b : a;
}

static int report(const char *name, size_t most_short, size_t most_long)
{
    int good = larger(most_short, most_long) <= LIMIT;
    printf("stack: %-19s %5zu octets for 16 MiB, at most %zu for up to %d octets%s\n", name, most_long, most_short,
           SHORT, good ? "" : ": FAILED, more than 8 KiB");
    return good;
}

/* Writes an object nested so deep: of objects, of arrays, or of both in turn, with what stands in the innermost one.
 * Answers its length. */
static size_t nest(uint8_t *text, size_t levels, unsigned arrays, const char *inmost)
{
    char closing[64];
    size_t n = 0;
    for (size_t i = 0; i < levels; i++) {
        int array = i > 0 && (arrays >> i & 1);
        closing[i] = array ? ']' : '}';
        const char *opening = array ? "[" : i + 1 < levels || *inmost != '\0' ? "{\"a\":" : "{";
        memcpy(text + n, opening, strlen(opening));
        n += strlen(opening);
    }
    memcpy(text + n, inmost, strlen(inmost));
    n += strlen(inmost);
    for (size_t i = levels; i-- > 0;)
        text[n++] = (uint8_t)closing[i];
    return n;
}

/* The most that judge uses on 12 levels and on 13, which it refuses. */
static int report_judge(uint8_t *text)
{
    const unsigned arrays[] = {0, ~0u, 0xaaaa, 0x5555};
    const char *const inmost[] = {"", "1", "-1.5e+3", "\"\\ud834\\udd1e\\n\"", "false"};
    size_t most = 0, refused = 0;
    for (size_t a = 0; a < sizeof arrays / sizeof *arrays; a++)
        for (size_t i = 0; i < sizeof inmost / sizeof *inmost; i++) {
            most = larger(most, used(judge, text, nest(text, LEVELS, arrays[a], inmost[i]), NULL, 0, JWE_OK));
            refused =
                larger(refused, used(judge, text, nest(text, LEVELS + 1, arrays[a], inmost[i]), NULL, 0, NO_OBJECT));
        }
    int good = larger(most, refused) <= LIMIT;
    printf("stack: %-19s %5zu octets for %d levels, %zu for %d, which it refuses%s\n", "judge", most, LEVELS, refused,
           LEVELS + 1, good ? "" : ": FAILED, more than 8 KiB");
    return good;
}

/* Appends a text, and answers the length after that. */
static size_t put(uint8_t *text, size_t n, const char *more)
{
    memcpy(text + n, more, strlen(more));
    return n + strlen(more);
}

/* How a text is nested. */
struct nesting {
    size_t levels;
    unsigned arrays;
    const char *inmost;
};

/* Appends a value nested so deep that the whole has its levels, where so many are around it. */
static size_t put_nested(uint8_t *text, size_t n, struct nesting nesting, size_t around)
{
    return n + nest(text + n, nesting.levels - around, nesting.arrays, nesting.inmost);
}

/* Writes a header that is nested so deep and has a critical parameter. */
static size_t put_header(uint8_t *text, size_t n, struct nesting nesting)
{
    n = put(text, n, "{\"alg\":\"dir\",\"enc\":\"A128GCM\",\"crit\":[\"x\"],\"x\":");
    return put(text, put_nested(text, n, nesting, 1), "}");
}

static size_t put_encoded_header(uint8_t *text, size_t n, struct nesting nesting)
{
    uint8_t header[JWE_HEADER_OCTETS];
    size_t end;
    if (probe_encode(header, put_header(header, 0, nesting), text, LONG, n, &end) != JWE_OK)
        exit(2);
    return end;
}

/* A message of a form, 0 to 2, with as much nesting as it can have everywhere. The general one has 8 recipients. */
static size_t put_message(uint8_t *text, int form, struct nesting nesting)
{
    if (form == 0)
        return put(text, put_encoded_header(text, 0, nesting), "..AA.AQID.Ag");
    size_t n = put(text, 0, "{\"protected\":\"");
    n = put(text, put_encoded_header(text, n, nesting), "\",\"ciphertext\":\"AQID\",\"ignored\":");
    n = put(text, put_nested(text, n, nesting, 1), ",\"unprotected\":{\"u\":");
    n = put(text, put_nested(text, n, nesting, 2), "}");
    if (form == 1) {
        n = put(text, put_nested(text, put(text, n, ",\"header\":{\"r\":"), nesting, 2), "}}");
    } else {
        n = put(text, n, ",\"recipients\":[");
        for (int i = 0; i < RECIPIENTS; i++) {
            n = put(text, put(text, n, i > 0 ? "," : ""), "{\"header\":{\"r\":");
            n = put(text, put_nested(text, n, nesting, 4), "}}");
        }
        n = put(text, n, "]}");
    }
    return n;
}

/* Lays the pieces for a form, 1 or 2, with 1 recipient or 8. */
static void put_pieces(int form, struct nesting nesting)
{
    size_t count = form == 1 ? 1 : RECIPIENTS, n = 1 + 8 * count;
    pieces.header_len = put_header(pieces.header, 0, nesting);
    size_t end = put(pieces.shared, 0, "{\"u\":");
    pieces.shared_len = put(pieces.shared, put_nested(pieces.shared, end, nesting, 2), "}");
    memset(pieces.recipients, 0, n);
    pieces.recipients[0] = (uint8_t)count;
    for (size_t i = 0; i < count; i++) {
        end = put_nested(pieces.recipients, put(pieces.recipients, n, "{\"r\":"), nesting, form == 1 ? 2 : 4);
        end = put(pieces.recipients, end, "}");
        pieces.recipients[3 + 8 * i] = (uint8_t)((end - n) >> 8);
        pieces.recipients[4 + 8 * i] = (uint8_t)(end - n);
        n = end;
    }
    pieces.recipients_len = n;
}

static int report_message(const char *name, size_t most, size_t limit)
{
    int good = most <= limit;
    printf("stack: %-19s %5zu octets for messages of %d levels and %d recipients", name, most, LEVELS, RECIPIENTS);
    if (!good)
        printf(": FAILED, more than %zu", limit);
    putchar('\n');
    return good;
}

/* The most that the functions on messages use: on 12 levels, on 13, which they refuse, and on a message of 16 MiB. */
static int report_messages(uint8_t *text, uint8_t *out)
{
    const unsigned arrays[] = {0, ~0u, 0xaaaa, 0x5555};
    const char *const inmost[] = {"", "-1.5e+3", "\"\\ud834\\udd1e\\n\""};
    const struct {
        const char *name;
        call *function;
    } functions[] = {{"jwe_judge", judge_message}, {"jwe_component", component}, {"jwe_read", read_message}},
      writers[] = {{"jwe_write_flattened", write_flattened}, {"jwe_write_general", write_general}};
    size_t most[sizeof functions / sizeof *functions] = {0}, most_written = 0, most_json[2] = {0};
    for (size_t i = 0; i < sizeof arrays / sizeof *arrays * (sizeof inmost / sizeof *inmost); i++)
        for (size_t levels = LEVELS; levels <= LEVELS + 1; levels++) {
            struct nesting nesting = {levels, arrays[i % 4], inmost[i / 4]};
            uint32_t answer = levels == LEVELS ? JWE_OK : JWE_NOT_JSON;
            for (int form = 0; form < 3; form++) {
                size_t length = put_message(text, form, nesting);
                recipient = form == 2 ? RECIPIENTS - 1 : 0;
                for (size_t f = 0; f < sizeof functions / sizeof *functions; f++)
                    most[f] = larger(most[f], used(functions[f].function, text, length, out, LONG, answer));
            }
            size_t length = put_header(text, 0, nesting);
            most_written = larger(most_written, used(write_message, text, length, out, LONG, answer));
            for (int form = 1; form <= 2; form++) {
                put_pieces(form, nesting);
                most_json[form - 1] =
                    larger(most_json[form - 1], used(writers[form - 1].function, octet, 1, out, LONG, answer));
            }
        }
    size_t length = put_message(text, 0, (struct nesting){LEVELS, 0, ""});
    memset(text + length, 'A', LONG - length);
    recipient = 0;
    int good = 1;
    for (size_t f = 0; f < sizeof functions / sizeof *functions; f++) {
        /* As many as make whole groups with the two that the tag has. */
        most[f] = larger(most[f], used(functions[f].function, text, LONG - (LONG - length + 2) % 4, out, LONG, JWE_OK));
        good &= report_message(functions[f].name, most[f], MESSAGE_LIMIT);
    }
    good &= report_message("jwe_write_compact", most_written, LIMIT);
    for (int form = 1; form <= 2; form++) {
        put_pieces(form, (struct nesting){LEVELS, 0, ""});
        call *writer = writers[form - 1].function;
        most_json[form - 1] = larger(most_json[form - 1], used(writer, text, LONG / 2, out, LONG, JWE_OK));
        good &= report_message(writers[form - 1].name, most_json[form - 1], MESSAGE_LIMIT);
    }
    size_t joined = used(join, text, LONG / 2, out, LONG + 1, JWE_OK);
    printf("stack: %-19s %5zu octets%s\n", "jwe_aad", joined, joined <= LIMIT ? "" : ": FAILED, more than 8 KiB");
    return good && joined <= LIMIT;
}

/* The most that comparing uses: two messages with as much nesting as they can have, which are the same octets, the same
 * values in other octets, or differ in their innermost values; on 13 levels, which are refused; and on many members. */
static int report_comparing(uint8_t *text)
{
    const unsigned arrays[] = {0, ~0u, 0xaaaa, 0x5555};
    const char *const inmost[][2] = {{"", ""}, {"1", " 1"}, {"1", "1.0"}, {"\"\\u0061\"", "\"a\""}};
    size_t most = 0, refused = 0;
    for (size_t i = 0; i < sizeof arrays / sizeof *arrays * (sizeof inmost / sizeof *inmost); i++)
        for (int form = 0; form < 3; form++)
            for (size_t levels = LEVELS; levels <= LEVELS + 1; levels++) {
                const char *const *two = inmost[i / 4];
                size_t length = put_message(text, form, (struct nesting){levels, arrays[i % 4], two[0]});
                right.length = put_message(right.text, form, (struct nesting){levels, arrays[i % 4], two[1]});
                uint32_t answer = levels == LEVELS ? JWE_OK : JWE_NOT_JSON;
                size_t found = used(compare, text, length, NULL, JWE_DIFFERENCES_ROOM, answer);
                if (answer == JWE_OK)
                    most = larger(most, found);
                else
                    refused = larger(refused, found);
            }
    /* An object of many members, and the same ones in another order. */
    const char *opening = "{\"unprotected\":{\"alg\":\"dir\",\"enc\":\"A128GCM\",\"x\":{";
    size_t length = put(text, 0, opening);
    right.length = put(right.text, 0, opening);
    enum { MEMBERS = 100000 };
    for (unsigned i = 0; i < MEMBERS; i++) {
        char member[32];
        snprintf(member, sizeof member, "%s\"m%06u\":%u", i > 0 ? "," : "", i, i);
        length = put(text, length, member);
        snprintf(member, sizeof member, "%s\"m%06u\":%u", i > 0 ? "," : "", MEMBERS - 1 - i, MEMBERS - 1 - i);
        right.length = put(right.text, right.length, member);
    }
    length = put(text, length, "}},\"ciphertext\":\"\"}");
    right.length = put(right.text, right.length, "}},\"ciphertext\":\"\"}");
    most = larger(most, used(compare, text, length, NULL, JWE_DIFFERENCES_ROOM, JWE_OK));
    int good = larger(most, refused) <= COMPARING_LIMIT;
    printf("stack: %-19s %5zu octets for messages of %d levels and %d recipients, %zu for %d levels, refused%s\n",
           "jwe_differences", most, LEVELS, RECIPIENTS, refused, LEVELS + 1,
           good ? "" : ": FAILED, more than 1,280 KiB");
    return good;
}

int main(void)
{
    uint8_t *text = malloc(LONG + 1), *out = malloc(LONG / 3 * 4 + 4);
    right.text = out;
    uint8_t *map = mmap(NULL, FENCE + STACK, PROT_NONE, MAP_PRIVATE | MAP_ANONYMOUS, -1, 0);
    if (text == NULL || out == NULL || map == MAP_FAILED || mprotect(map + FENCE, STACK, PROT_READ | PROT_WRITE) != 0) {
        perror("stack: no memory");
        return 2;
    }
    take_stack(map, PART);
    memset(text, 'A', LONG + 1);

    size_t decode_short = 0, check_short = 0, encode_short = 0;
    for (size_t n = 0; n <= SHORT; n++) {
        uint32_t answer = n % 4 == 1 ? JWE_NOT_BASE64URL : JWE_OK;
        decode_short = larger(decode_short, used(jwe_decode, text, n, out, n, answer));
        check_short = larger(check_short, used(check, text, n, out, 0, answer));
        encode_short = larger(encode_short, used(encode, text, n, out, (4 * n + 2) / 3, JWE_OK));
    }

    size_t decode_long = used(jwe_decode, text, LONG, out, LONG / 4 * 3, JWE_OK);
    decode_long = larger(decode_long, used(jwe_decode, text, LONG, out, LONG / 4 * 3 - 1, JWE_TOO_SHORT));
    decode_long = larger(decode_long, used(jwe_decode, text, LONG + 1, out, LONG, JWE_NOT_BASE64URL));
    size_t check_long = used(check, text, LONG, out, 0, JWE_OK);
    size_t encode_long = used(encode, text, LONG, out, LONG / 3 * 4 + 2, JWE_OK);

    int good = report("jwe_decode", decode_short, decode_long);
    good &= report("check", check_short, check_long);
    good &= report("encode", encode_short, encode_long);
    good &= report_judge(text);
    good &= report_messages(text, out);
    take_stack(map, STACK);
    good &= report_comparing(text);
    free(text);
    free(out);
    munmap(map, FENCE + STACK);
    return good ? 0 : 1;
}
