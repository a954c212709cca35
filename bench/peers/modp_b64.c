/* modp_b64 with the URL alphabet, as the bench calls a peer: octets written, or SIZE_MAX. It has a padding character of its own,
 * which texts of whole groups do not need. */
#include <modp_b64w.h>
#include <stddef.h>
#include <stdint.h>

size_t peer_decode(const uint8_t *text, size_t length, uint8_t *out, size_t room)
{
    if (length % 4 != 0 || room < length / 4 * 3)
        return SIZE_MAX;
    return modp_b64w_decode((char *)out, (const char *)text, length);
}

/* The buffer has to have room for padding and a NUL. */
size_t peer_encode(const uint8_t *octets, size_t length, uint8_t *out, size_t room)
{
    if (room < modp_b64w_encode_len(length))
        return SIZE_MAX;
    return modp_b64w_encode((char *)out, (const char *)octets, length);
}
