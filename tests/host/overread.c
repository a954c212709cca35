/* Tells the library a length that is one octet too long. valgrind has to see that the library then reads what was not lent: were
 * it blind inside the archive, the other programs would pass under it for nothing. */
#include "jwe_gateway.h"

#include <stdio.h>
#include <stdlib.h>
#include <string.h>

int main(void)
{
    uint8_t out[6];
    size_t octets;
    uint8_t *text = malloc(7);
    if (text == NULL)
        return 2;
    memset(text, 'A', 7);
    printf("overread: answer %u\n", (unsigned)jwe_decode(text, 8, out, sizeof out, &octets));
    free(text);
    return 0;
}
