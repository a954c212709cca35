// simdjson as the bench calls a peer: the whole text parsed to its DOM, which is what validates all of it. The bench lends the 32
// octets behind the text that simdjson wants, so that it need not copy.
#include <cstddef>
#include <cstdint>
#include <simdjson.h>

extern "C" int peer_json(const uint8_t *text, size_t length)
{
    static simdjson::dom::parser parser;
    simdjson::dom::element value;
    return parser.parse(text, length, false).get(value) == simdjson::SUCCESS && value.is_object();
}
