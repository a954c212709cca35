/* What an accepted message is: in words, and in document 01's lines. */
#include "command.h"

#include <string.h>

/* Document 01's words for modes; a person reads them without hyphens. */
static const char *const modes[] = {
    "", "key-encryption", "key-wrapping", "direct-agreement", "agreement-with-wrapping", "direct-encryption",
};

static const char *const kinds[] = {"object", "array", "string", "number", "true", "false", "null"};

int component_called(const char *word)
{
    for (int i = 0; i < COMPONENTS; i++)
        if (strcmp(components[i].word, word) == 0)
            return i;
    return -1;
}

void print_numbers(const struct reading *reading)
{
    const uint32_t *result = reading->result;
    printf("accepted %s %u %s\n", forms[result[JWE_RESULT_FORM]], (unsigned)result[JWE_RESULT_RECIPIENTS],
           modes[result[JWE_RESULT_MODE]]);
    for (int i = 0; i < COMPONENTS; i++) {
        const uint32_t *place = place_of(reading, i);
        printf("%s %u %u\n", components[i].word, (unsigned)place[0], (unsigned)place[1]);
    }
    for (uint32_t i = 0; i < result[JWE_RESULT_PARAMETERS]; i++) {
        const uint32_t *row = reading->list + ROW * i;
        printf("%s %u %u %u %u %s\n", origins[row[ORIGIN]].word, (unsigned)row[NAME_START], (unsigned)row[NAME_LENGTH],
               (unsigned)row[VALUE_START], (unsigned)row[VALUE_LENGTH], kinds[row[KIND]]);
    }
}

/* As the member of a JSON object that it is, behind the header that it stands in. */
static void print_parameter(const struct octets *message, const struct reading *reading, const uint32_t *row)
{
    const uint8_t *text = row[ORIGIN] == 0 ? reading->header : message->start;
    struct shown name = show(text + row[NAME_START], row[NAME_LENGTH], 0, MOST_SHOWN);
    struct shown value = show(text + row[VALUE_START], row[VALUE_LENGTH], 0, MOST_SHOWN);
    printf("  %-9s  \"%s\": %s\n", origins[row[ORIGIN]].words, name.text, value.text);
}

void print_words(const struct request *request, const struct reading *reading)
{
    const uint32_t *result = reading->result;
    unsigned recipient = request->recipient, parameters = result[JWE_RESULT_PARAMETERS];
    printf("accepted\nform: %s\nrecipients: %u\nmode of recipient %u: ", forms[result[JWE_RESULT_FORM]],
           (unsigned)result[JWE_RESULT_RECIPIENTS], recipient);
    for (const char *letter = modes[result[JWE_RESULT_MODE]]; *letter != '\0'; letter++)
        putchar(*letter == '-' ? ' ' : *letter);
    putchar('\n');
    for (int i = 0; i < COMPONENTS; i++)
        printf("%s: %s\n", components[i].words, show_component(reading, i).text);
    printf("parameters of recipient %u: %u\n", recipient, parameters);
    for (unsigned i = 0; i < parameters; i++)
        print_parameter(&request->message, reading, reading->list + ROW * i);
}
