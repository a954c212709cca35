/* cjose as the bench calls a peer. It hands out memory of its own, which is given back here: that belongs to what a caller pays. */
#include <cjose/cjose.h>
#include <stddef.h>
#include <stdint.h>
#include <stdlib.h>
#include <string.h>

size_t peer_decode(const uint8_t *text, size_t length, uint8_t *out, size_t room)
{
    uint8_t *octets = NULL;
    size_t n = SIZE_MAX;
    cjose_err err;
    (void)room;
    if (!cjose_base64url_decode((const char *)text, length, &octets, &n, &err))
        return SIZE_MAX;
    /* The end alone, so that it is seen to be right. */
    if (n > 0 && n <= room)
        out[n - 1] = octets[n - 1];
    cjose_get_dealloc()(octets);
    return n;
}

size_t peer_encode(const uint8_t *octets, size_t length, uint8_t *out, size_t room)
{
    char *text = NULL;
    size_t n = SIZE_MAX;
    cjose_err err;
    if (!cjose_base64url_encode(octets, length, &text, &n, &err))
        return SIZE_MAX;
    if (n > 0 && n <= room)
        out[n - 1] = (uint8_t)text[n - 1];
    cjose_get_dealloc()(text);
    return n;
}

/* Takes a message apart: base64url of all parts and the headers' JSON. */
int peer_read(const uint8_t *message, size_t length)
{
    cjose_err err;
    cjose_jwe_t *jwe = length > 0 && message[0] == '{' ? cjose_jwe_import_json((const char *)message, length, &err)
                                                      : cjose_jwe_import((const char *)message, length, &err);
    if (jwe == NULL)
        return 0;
    cjose_jwe_release(jwe);
    return 1;
}
