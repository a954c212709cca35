/* The command `jwe`: its command line and its subcommands. man/jwe.1 says what each does. */
#define _POSIX_C_SOURCE 200809L
#include "command.h"

#include <signal.h>
#include <stdlib.h>
#include <string.h>

static uint32_t read_message(const struct request *request, struct reading *reading)
{
    return jwe_read(request->message.start, request->message.length, request->known, request->known_length,
                    request->recipient, reading->header, JWE_HEADER_OCTETS, reading->list, JWE_LIST_NUMBERS,
                    reading->result, JWE_RESULT_NUMBERS);
}

static int inspect(struct request *request)
{
    if (read_file(request->operands[0], &request->message) != 0)
        return TROUBLE;
    struct reading reading;
    uint32_t refusal = read_message(request, &reading);
    if (refusal != JWE_OK && request->numbers) {
        printf("refused %u\n", (unsigned)refusal);
        return REFUSED;
    }
    if (refusal != JWE_OK)
        return refused(stdout, refusal);
    if (request->numbers)
        print_numbers(&reading);
    else
        print_words(request, &reading);
    return ACCEPTED;
}

static int judge(struct request *request)
{
    if (read_file(request->operands[0], &request->message) != 0)
        return TROUBLE;
    uint32_t refusal = jwe_judge(request->message.start, request->message.length, request->known,
                                 request->known_length, request->recipient);
    if (refusal != JWE_OK)
        return refused(stdout, refusal);
    puts("accepted");
    return ACCEPTED;
}

static int component(struct request *request)
{
    int number = component_called(request->operands[0]);
    if (number < 0)
        return trouble(request->operands[0], "no component; there are protected, key, iv, aad, ciphertext and tag");
    if (read_file(request->operands[1], &request->message) != 0)
        return TROUBLE;
    const struct octets *message = &request->message;
    size_t room = message->length / 4 * 3 + 2, n;
    uint8_t *out = malloc(room);
    if (out == NULL)
        return system_trouble("memory");
    uint32_t refusal = jwe_component(message->start, message->length, request->known, request->known_length,
                                     request->recipient, (uint32_t)number, out, room, &n);
    int status = hand_out(refusal, out, n);
    free(out);
    return status;
}

static int aad(struct request *request)
{
    if (read_file(request->operands[0], &request->message) != 0)
        return TROUBLE;
    const struct octets *message = &request->message;
    struct reading reading;
    uint32_t refusal = read_message(request, &reading);
    if (refusal != JWE_OK)
        return refused(stderr, refusal);
    const uint32_t *header = reading.result + JWE_RESULT_PLACES + 2 * JWE_PROTECTED;
    const uint32_t *aad = reading.result + JWE_RESULT_PLACES + 2 * JWE_AAD;
    size_t room = (size_t)header[1] + 1 + aad[1], n;
    uint8_t *out = malloc(room);
    if (out == NULL)
        return system_trouble("memory");
    refusal = jwe_aad(message->start + header[0], header[1], message->start + aad[0], aad[1], out, room, &n);
    int status = hand_out(refusal, out, n);
    free(out);
    return status;
}

/* Which subcommands take an option. */
enum { READS = 1, WRITES = 2, INSPECTS = 4, COMPARES = 8 };

/* A subcommand has a row for each way to use it; they differ in what help says. */
static const struct subcommand {
    const char *name, *arguments, *about;
    unsigned options;
    int operands;
    int (*run)(struct request *request);
} subcommands[] = {
    {"inspect", "[--numbers] [--recipient N] [--known NAME]... FILE",
     "Say what a message is: its form, the size of each component, each parameter.", READS | INSPECTS, 1, inspect},
    {"judge", "[--recipient N] [--known NAME]... FILE", "Say whether a message is accepted, and if not, why.", READS, 1,
     judge},
    {"component", "[--recipient N] [--known NAME]... COMPONENT FILE",
     "Write the octets of a component: protected, key, iv, aad, ciphertext or tag.", READS, 2, component},
    {"aad", "[--recipient N] [--known NAME]... FILE",
     "Write the additional authenticated data (RFC 7516, section 5.1, step 14).", READS, 1, aad},
    {"compare", "[--numbers] [--known NAME]... LEFT RIGHT",
     "Say what differs between two messages, a line for each difference.", COMPARES, 2, compare},
    {"write", "--header FILE [--key FILE] [--iv FILE] [--ciphertext FILE] [--tag FILE] [--known NAME]...",
     "Write a compact message; a component whose file is not named is empty.", WRITES, 0, write_message},
    {"write",
     "--flattened [--header FILE] [--shared FILE] [--own FILE] [--key FILE]\n"
     "        [--aad FILE] [--iv FILE] [--ciphertext FILE] [--tag FILE] [--known NAME]...",
     "Write a flattened message: --header is the protected header, --shared and --own are the shared and the\n"
     "    recipient's own, which are not protected. What is not named is left out.",
     WRITES, 0, write_message},
    {"write",
     "--general [--header FILE] [--shared FILE] [--own FILE] [--key FILE]\n"
     "        [--next [--own FILE] [--key FILE]]...\n"
     "        [--aad FILE] [--iv FILE] [--ciphertext FILE] [--tag FILE] [--known NAME]...",
     "Write a general message for up to 8 recipients: --own and --key are the first recipient's, and after each\n"
     "    --next those of one more.",
     WRITES, 0, write_message},
};

enum { SUBCOMMANDS = sizeof subcommands / sizeof *subcommands };

/* The first name the writer's files. From NUMBERS on an option has no value, else that is the next word. */
enum { KNOWN = PARTS, RECIPIENT, NUMBERS, NEXT, TO_FLATTENED, TO_GENERAL, OPTIONS };

static const struct {
    const char *name;
    unsigned taken_by;
} options[OPTIONS] = {
    [HEADER] = {"--header", WRITES},
    [SHARED] = {"--shared", WRITES},
    [AAD] = {"--aad", WRITES},
    [IV] = {"--iv", WRITES},
    [CIPHERTEXT] = {"--ciphertext", WRITES},
    [TAG] = {"--tag", WRITES},
    [OWN] = {"--own", WRITES},
    [KEY] = {"--key", WRITES},
    [KNOWN] = {"--known", READS | WRITES | COMPARES},
    [RECIPIENT] = {"--recipient", READS},
    [NUMBERS] = {"--numbers", INSPECTS | COMPARES},
    [NEXT] = {"--next", WRITES},
    [TO_FLATTENED] = {"--flattened", WRITES},
    [TO_GENERAL] = {"--general", WRITES},
};

static void print_help(const struct subcommand *first, const struct subcommand *end)
{
    for (const struct subcommand *each = first; each < end; each++)
        printf("jwe %s %s\n    %s\n", each->name, each->arguments, each->about);
    puts("\nFILE, LEFT or RIGHT may be - for standard input. NAME after --known is an extension that is known, for\n"
         "crit; N is a recipient, counted from 0. Exit status: 0 accepted, 1 refused, 2 usage, or a file that cannot\n"
         "be read or written; of compare: 0 the same, 1 different, 2 also a message that is refused. See jwe(1).");
}

static int usage(const char *about, const char *what)
{
    trouble(about, what);
    fputs("jwe: see jwe --help\n", stderr);
    return TROUBLE;
}

/* A number of 32 bits, written in digits only. */
static bool is_number(const char *text, uint32_t *number)
{
    uint64_t value = 0;
    if (*text == '\0')
        return false;
    for (; *text != '\0'; text++) {
        if (*text < '0' || *text > '9')
            return false;
        value = value * 10 + (uint64_t)(*text - '0');
        if (value > UINT32_MAX)
            return false;
    }
    *number = (uint32_t)value;
    return true;
}

static int take_name(struct names *names, const char *name)
{
    size_t length = strlen(name);
    if (length < 1 || length > LONGEST_NAME)
        return usage("--known", "a name has 1 to 64 octets");
    if (names->count == MOST_NAMES)
        return usage("--known", "at most 16 names");
    names->name[names->count++] = name;
    return 0;
}

/* Contents first: how many names, each one's length, then the names. */
static void lay_known(struct request *request)
{
    const struct names *names = &request->names;
    uint8_t *next = request->known;
    *next++ = (uint8_t)names->count;
    for (size_t i = 0; i < names->count; i++)
        *next++ = (uint8_t)strlen(names->name[i]);
    for (size_t i = 0; i < names->count; i++) {
        memcpy(next, names->name[i], strlen(names->name[i]));
        next += strlen(names->name[i]);
    }
    request->known_length = (size_t)(next - request->known);
}

/* A file that is named twice for one recipient is one that was meant for another. */
static int take_path(struct request *request, int part, const char *option, const char *path)
{
    const char **place = &request->paths[part < OWN ? 0 : request->last_recipient][part];
    if (*place != NULL)
        return usage(option, part < OWN ? "given twice" : "given twice for one recipient; --next begins another");
    *place = path;
    return 0;
}

/* An option without a value. */
static int take_flag(struct request *request, int option)
{
    int form = option == TO_FLATTENED ? FLATTENED : GENERAL;
    switch (option) {
    case NUMBERS:
        request->numbers = true;
        return 0;
    case NEXT:
        if (request->last_recipient + 1 == JWE_MOST_RECIPIENTS)
            return usage("--next", "at most 8 recipients");
        request->last_recipient++;
        return 0;
    default:
        if (request->form != COMPACT && request->form != form)
            return usage(options[option].name, "a message has one form");
        request->form = form;
        return 0;
    }
}

/* Takes the option at words[0] and says in *taken how many words it has. */
static int take_option(const struct subcommand *subcommand, struct request *request, char **words, int *taken)
{
    const char *value = words[1];
    int option = 0;
    while (option < OPTIONS &&
           (!(options[option].taken_by & subcommand->options) || strcmp(words[0], options[option].name) != 0))
        option++;
    if (option == OPTIONS)
        return usage(words[0], "no such option of this subcommand");
    if (option >= NUMBERS)
        return take_flag(request, option);
    if (value == NULL)
        return usage(words[0], "a value is needed");
    *taken = 2;
    if (option == KNOWN)
        return take_name(&request->names, value);
    if (option == RECIPIENT)
        return is_number(value, &request->recipient) ? 0 : usage(words[0], "a number of 32 bits is needed, in digits");
    return take_path(request, option, words[0], value);
}

/* Options and operands in any order; after -- there are only operands. */
static int take_words(const struct subcommand *subcommand, struct request *request, char **words)
{
    int operands = 0, standard = 0, status = 0;
    bool options_end = false;
    while (*words != NULL && status == 0) {
        int taken = 1;
        if (!options_end && strcmp(*words, "--") == 0)
            options_end = true;
        else if (!options_end && words[0][0] == '-' && words[0][1] != '\0')
            status = take_option(subcommand, request, words, &taken);
        else if (operands == subcommand->operands)
            status = usage(*words, "one operand too many");
        else
            request->operands[operands++] = *words;
        words += taken;
    }
    for (size_t i = 0; i <= request->last_recipient; i++)
        for (int part = 0; part < PARTS; part++)
            standard += request->paths[i][part] != NULL && strcmp(request->paths[i][part], "-") == 0;
    for (int i = 0; i < operands && subcommand->options == COMPARES; i++)
        standard += strcmp(request->operands[i], "-") == 0;
    if (status == 0 && operands < subcommand->operands)
        status = usage(subcommand->name, "an operand is missing");
    if (status == 0 && standard > 1)
        status = usage("-", "standard input can be read only once");
    return status;
}

static int run(const struct subcommand *subcommand, char **words)
{
    struct request request = {.recipient = 0};
    int status = take_words(subcommand, &request, words);
    if (status != 0)
        return status;
    lay_known(&request);
    status = subcommand->run(&request);
    free(request.message.start);
    free(request.other.start);
    return status;
}

static int dispatch(char **words)
{
    if (*words == NULL)
        return usage("usage", "a subcommand is needed");
    if (strcmp(*words, "--help") == 0) {
        print_help(subcommands, subcommands + SUBCOMMANDS);
        return 0;
    }
    if (strcmp(*words, "--version") == 0) {
        printf("jwe %s\n", jwe_version());
        return 0;
    }
    const struct subcommand *first = subcommands, *const end = subcommands + SUBCOMMANDS;
    while (first < end && strcmp(*words, first->name) != 0)
        first++;
    if (first == end)
        return usage(*words, "no such subcommand");
    if (words[1] != NULL && strcmp(words[1], "--help") == 0) {
        const struct subcommand *next = first;
        while (next < end && strcmp(next->name, first->name) == 0)
            next++;
        print_help(first, next);
        return 0;
    }
    return run(first, words + 1);
}

int main(int argc, char **argv)
{
    /* All text waits here until it is whole, so that either all or nothing of it is written. */
    static char waiting[1 << 16];
    setvbuf(stdout, waiting, _IOFBF, sizeof waiting);
    /* A closed pipe is told like a full disk. */
    signal(SIGPIPE, SIG_IGN);
    int status = dispatch(argc > 0 ? argv + 1 : argv);
    bool failed = ferror(stdout);
    if ((fclose(stdout) != 0 || failed) && status != TROUBLE)
        return system_trouble("standard output");
    return status;
}
