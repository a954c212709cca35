/* Files, standard input and output, and trouble with them. */
#include "command.h"

#include <errno.h>
#include <stdlib.h>
#include <string.h>

/* One octet more than the longest message, so that the library sees of a longer one that it is too long. */
enum { MOST_READ = JWE_MESSAGE_OCTETS + 1 };

char printable(char c)
{
    return c >= ' ' && c <= '~' ? c : '?';
}

int trouble(const char *about, const char *what)
{
    fputs("jwe: ", stderr);
    for (; *about != '\0'; about++)
        fputc(printable(*about), stderr);
    fprintf(stderr, ": %s\n", what);
    return TROUBLE;
}

int system_trouble(const char *about)
{
    return trouble(about, strerror(errno));
}

/* Reads no more than MOST_READ octets, however long the file is. */
int read_file(const char *path, struct octets *octets)
{
    bool standard = strcmp(path, "-") == 0;
    const char *name = standard ? "standard input" : path;
    octets->start = malloc(MOST_READ);
    if (octets->start == NULL)
        return system_trouble("memory");
    FILE *file = standard ? stdin : fopen(path, "rb");
    if (file == NULL)
        return system_trouble(name);
    octets->length = fread(octets->start, 1, MOST_READ, file);
    int status = ferror(file) ? system_trouble(name) : 0;
    if (!standard)
        fclose(file);
    return status;
}

bool is_too_long(const struct octets *octets)
{
    return octets->length == MOST_READ;
}

int write_output(const uint8_t *octets, size_t length)
{
    fwrite(octets, 1, length, stdout);
    return flush_output();
}

int flush_output(void)
{
    if (ferror(stdout) || fflush(stdout) != 0)
        return system_trouble("standard output");
    return 0;
}

/* Standard output is for octets alone. */
int hand_out(uint32_t refusal, const uint8_t *out, size_t length)
{
    return refusal != JWE_OK ? refused(stderr, refusal) : write_output(out, length);
}
