/* The smallest host in C: judges the message in a file for recipient 0, with no known names, and writes its decoded
 * ciphertext to standard output.
 *
 *   gateway FILE >CIPHERTEXT
 *
 * Exits 0 where the message was accepted; 1 where it was refused, with the refusal's number on standard error; 2 where
 * there is trouble with a file. Built with `cc gateway.c $(pkg-config --cflags --libs jwe_gateway)` after
 * `make install`. command/ has a host that does more. */
#include <jwe_gateway.h>
#include <stdio.h>

/* One octet more than the longest message, so that the library sees of a longer one that it is too long. */
static uint8_t message[JWE_MESSAGE_OCTETS + 1];
static uint8_t out[sizeof message / 4 * 3 + 2];
static const uint8_t no_names[] = {0};

static int trouble(const char *about)
{
    perror(about);
    return 2;
}

int main(int argc, char **argv)
{
    if (argc != 2) {
        fputs("usage: gateway FILE\n", stderr);
        return 2;
    }
    FILE *file = fopen(argv[1], "rb");
    if (file == NULL)
        return trouble(argv[1]);
    size_t length = fread(message, 1, sizeof message, file), octets;
    if (ferror(file))
        return trouble(argv[1]);
    fclose(file);

    uint32_t refusal = jwe_component(message, length, no_names, sizeof no_names, 0, JWE_CIPHERTEXT, out, sizeof out,
                                     &octets);
    if (refusal != JWE_OK) {
        fprintf(stderr, "refused %u\n", (unsigned)refusal);
        return 1;
    }
    if (fwrite(out, 1, octets, stdout) < octets || fflush(stdout) != 0)
        return trouble("standard output");
    return 0;
}
