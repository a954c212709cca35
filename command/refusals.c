#include "refusals.h"

#include "command.h"

const struct refusal refusals[] = {
    [JWE_TOO_SHORT] = {
        "A lent output is shorter than asked: reading wants 4,096 octets for the header, 576 numbers for the list and, "
        "in C, 18 for the result; comparing wants 8 numbers for each difference; the others want as many octets as they "
        "would write.",
        "Lend more. 12,408 numbers hold the differences of any two messages. Decoding n characters needs at most n / 4 * 3 + 2 octets; n octets are written as "
        "floor((4n+2)/3) characters, and a compact message has four full stops besides; no message has more than "
        "16,777,216 octets.",
    },
    [JWE_MESSAGE_TOO_LONG] = {
        "The message has, or written would have, over 16,777,216 octets.",
        "Seal the log in more than one message.",
    },
    [JWE_KNOWN_MALFORMED] = {
        "The list of known names is malformed: one octet n (0 to 16), n length octets (1 to 64 each), then the names, "
        "filling the slice exactly.",
        "Mend the caller's list: this is never the sender's fault. No names: one octet 0.",
    },
    [JWE_NOT_FOUR_DOTS] = {
        "A compact message has not exactly four full stops. A message whose first octet other than space is not { is "
        "taken as compact.",
        "Pass on what was sent, whole and without a line end.",
    },
    [JWE_NOT_BASE64URL] = {
        "A component is not base64url (RFC 4648 section 5): a character that is not a letter, a digit, - or _ "
        "(padding, space and line ends are such), a length of 1 modulo 4, or bits set in the last character that "
        "belong to no octet.",
        "Ask whoever sealed the message to spell it right. Text that was wrapped or padded on the way, or has a line "
        "end behind it, is refused too: pass on what was sent. An old tool that leaves bits set at a component's end "
        "has to be mended (minutes, item 3): the gateway does not guess.",
    },
    [JWE_HEADER_TOO_LONG] = {
        "The decoded protected header has over 4,096 octets.",
        "Have the sender move what is long (certificates, say) out of the header.",
    },
    [JWE_NOT_JSON] = {
        "No JSON object (RFC 8259) within 12 levels, the message or the decoded header, or in JSON writing a header's "
        "text by itself: no object reading, octets that are not UTF-8 (RFC 3629), half of a surrogate pair in \\u "
        "without its other half, or nesting that is too deep.",
        "Have the sender's JSON writer mended; nothing of a text that has no reading is used. A byte order mark is no "
        "space.",
    },
    [JWE_MANY_MEMBERS] = {
        "An object whose names are compared (top level, recipient, header) has over 32 members.",
        "Have the sender send fewer members.",
    },
    [JWE_NAME_TWICE] = {
        "A name stands twice in one object whose names are compared (top level, recipient, header), escapes undone.",
        "Have the sender's writer mended: two readers could take different ones.",
    },
    [JWE_SHAPE] = {
        "The JSON message has the wrong shape: no ciphertext; a known member of another kind; a component with a "
        "backslash, or empty where only ciphertext may be; an empty header; recipients empty, with something else than "
        "objects, or beside a top-level header or encrypted_key; a protected header without members.",
        "Compare the message with RFC 7516, section 7.2.",
    },
    [JWE_MANY_RECIPIENTS] = {
        "Over 8 recipients.",
        "Seal for fewer recipients, or in two messages.",
    },
    [JWE_NAME_IN_TWO_HEADERS] = {
        "A name stands in two headers of a recipient.",
        "Have the sender put each parameter into one header.",
    },
    [JWE_NO_ALG_OR_ENC] = {
        "alg or enc is absent for a recipient.",
        "The message cannot be opened by that recipient; have it sealed anew.",
    },
    [JWE_WRONG_KIND] = {
        "A parameter is of the wrong kind (alg, enc, kid, typ, cty, jku, x5u, x5t, x5t#S256, zip strings; jwk an "
        "object; x5c, crit arrays).",
        "Have the sender's header mended.",
    },
    [JWE_UNLISTED] = {
        "The value of alg, enc or zip is not listed.",
        "The sealer uses an algorithm that the gateway does not pass on; have it use one of document 01's table, which "
        "docs/REFUSALS.md and the manual page repeat.",
    },
    [JWE_UNPROTECTED] = {
        "zip or crit stands outside the protected header.",
        "Have the sender move it into the protected header.",
    },
    [JWE_CRIT] = {
        "crit is empty, names something twice, names a registered name, a name that the caller does not know, or one "
        "that is in none of the recipient's headers, or holds something else than strings.",
        "If the extension is known to the plant, add its name to the caller's list; else the message must not be "
        "passed on.",
    },
    [JWE_KEY] = {
        "The encrypted key is not empty in direct agreement or direct encryption, or empty in another mode.",
        "The sealer mixed two ways of sealing; have it mended.",
    },
    [JWE_NO_SUCH_RECIPIENT] = {
        "The recipient number is not below the message's recipient count.",
        "Ask for a recipient that the message has; counting begins with 0.",
    },
    [JWE_RECIPIENTS_MALFORMED] = {
        "The table of recipients is malformed: one octet n (1 to 8), for each recipient the lengths of its header and "
        "its key (4 octets each, the highest first), then header and key of each, filling the slice exactly; or a "
        "flattened message was asked for with another number of recipients than one.",
        "Mend the caller's table. For more than one recipient write the general form.",
    },
    [JWE_CONTENT_ALGORITHMS_DIFFER] = {
        "The recipients do not all have the same content algorithm (enc): two of their values are different strings, "
        "escapes undone.",
        "One ciphertext has one content algorithm. Have the message sealed anew with the same enc for all recipients, "
        "best once, in the protected header.",
    },
};

const size_t refusals_end = sizeof refusals / sizeof *refusals;

int refused(FILE *to, uint32_t refusal)
{
    if (refusal < refusals_end)
        fprintf(to, "refused %u: %s\nWhat to do: %s\n", (unsigned)refusal, refusals[refusal].meaning,
                refusals[refusal].what_to_do);
    else /* an archive that is newer than the command */
        fprintf(to, "refused %u\n", (unsigned)refusal);
    return REFUSED;
}
