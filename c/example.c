/*
 * Every call of the library, as a caller would use it. The program prints what the calls gave, compares it with what
 * the RFCs say, and ends with status 1 where something differs. It needs no server: it makes the answers itself.
 */
#include "paddlesepia.h"

#include <stdbool.h>
#include <stdio.h>
#include <string.h>

#define COUNT(array) (sizeof(array) / sizeof((array)[0]))

static bool all_right = true;

/* Says whether something holds that must hold. */
static void expect(const char *what, bool right) {
    printf("  %s: %s\n", what, right ? "yes" : "NO");
    all_right = all_right && right;
}

/* Prints octets in hexadecimal. */
static void show(const char *what, const uint8_t *octets, size_t length) {
    printf("  %s: ", what);
    for (size_t at = 0; at < length; at++)
        printf("%02x", octets[at]);
    printf("\n");
}

/* ---- octets that are put together piece by piece */

struct octets {
    uint8_t at[1024];
    size_t length;
};

static void add(struct octets *to, const void *piece, size_t length) {
    if (length > sizeof to->at - to->length) {
        all_right = false;
        return;
    }
    memcpy(to->at + to->length, piece, length);
    to->length += length;
}

/* Adds a number of so many octets, the highest first. */
static void add_number(struct octets *to, uint64_t number, size_t size) {
    while (size-- > 0) {
        uint8_t octet = (uint8_t)(number >> 8 * size);
        add(to, &octet, 1);
    }
}

/* Adds the wire form of a name. */
static void add_name(struct octets *to, const char *text) {
    uint8_t name[255];
    size_t length;
    if (psp_name_from_text(text, strlen(text), name, sizeof name, &length) != PSP_DONE) {
        all_right = false;
        return;
    }
    add(to, name, length);
}

/* ---- names and keys */

static void names(void) {
    const char *text = "www.Example.com";
    uint8_t name[255];
    char again[1004];
    size_t name_len = 0, again_len = 0, needed = 0;

    printf("names\n");
    uint32_t status = psp_name_from_text(text, strlen(text), name, sizeof name, &name_len);
    show("in wire form", name, status == PSP_DONE ? name_len : 0);
    expect("as in RFC 1035", status == PSP_DONE && name_len == 17 && memcmp(name, "\3www\7Example\3com", 17) == 0);

    status = psp_name_to_text(name, name_len, again, sizeof again, &again_len);
    printf("  and back: %.*s\n", status == PSP_DONE ? (int)again_len : 0, again);
    expect("the same, with a dot", status == PSP_DONE && again_len == 16 && memcmp(again, "www.Example.com.", 16) == 0);

    /* A room of 0 asks for the length. */
    status = psp_name_to_text(name, name_len, NULL, 0, &needed);
    expect("its length is told", status == PSP_OUT_TOO_SHORT && needed == again_len);
    expect("an empty label is refused", psp_name_from_text("a..b", 4, name, sizeof name, &name_len) == PSP_EMPTY_LABEL);
}

/* The DNSKEY of RFC 4034 5.4: flags 256, protocol 3, algorithm 5, and the key. */
static const uint8_t DNSKEY[] = {
    0x01, 0x00, 0x03, 0x05, 0x01, 0x03, 0x9e, 0x8a, 0x24, 0x74, 0x18, 0xe3, 0x18, 0x90, 0x3b, 0x21, 0x5a,
    0x84, 0x8a, 0xcf, 0xd5, 0xf3, 0x7f, 0x02, 0x6b, 0xd4, 0x06, 0x2d, 0xb2, 0x6c, 0x77, 0x4c, 0x69, 0x09,
    0x68, 0xd5, 0xd5, 0x6d, 0xf8, 0xbf, 0xda, 0x91, 0xe6, 0xf3, 0x6d, 0x9a, 0x27, 0x98, 0x88, 0xf4, 0x13,
    0x33, 0x35, 0x7c, 0x5e, 0x60, 0x29, 0x99, 0x0d, 0x10, 0xfd, 0xf5, 0x66, 0x30, 0x62, 0xa5, 0x12, 0x76,
    0x33, 0x26, 0x98, 0x0a, 0x61, 0x5d, 0xdb, 0xf1, 0x7a, 0x05, 0xdd, 0xfc, 0xce, 0x7e, 0x5f, 0xb3, 0xab,
    0xcc, 0xa0, 0x5a, 0x31, 0xb0, 0x95, 0x74, 0x52, 0xd4, 0x52, 0x1e, 0x83, 0x87, 0x07, 0x89, 0x06, 0x31,
    0x15, 0xbf, 0x97, 0xf6, 0xc3, 0x08, 0xcc, 0xf5, 0x7c, 0xdc, 0x9c, 0xe7, 0xfe, 0x10, 0xf6, 0xed, 0x1b,
    0xd0, 0xcc, 0x06, 0x60, 0x03, 0x8c, 0x50, 0xdc, 0xdb, 0x0f, 0xeb, 0x96, 0x3c, 0x2f, 0x17,
};

/* Its digest by SHA-1 in the DS of RFC 4034 5.4. */
static const uint8_t DS_SHA1[] = {
    0x2b, 0xb1, 0x83, 0xaf, 0x5f, 0x22, 0x58, 0x81, 0x79, 0xa5,
    0x3b, 0x0a, 0x98, 0x63, 0x1f, 0xad, 0x1a, 0x29, 0x21, 0x18,
};

/* The hash of `example` in RFC 5155 appendix A, 0p9mhaveqvm6t7vbl5lop2u3t2rp3tom. */
static const uint8_t NSEC3_EXAMPLE[] = {
    0x06, 0x53, 0x68, 0xab, 0xee, 0xd7, 0xec, 0x6e, 0x9f, 0xeb,
    0xa9, 0x6b, 0x8c, 0x8b, 0xc3, 0xe8, 0xb7, 0x91, 0xf7, 0x16,
};

static void keys(void) {
    static const uint8_t owner[] = "\5dskey\7example\3com";
    static const uint8_t example[] = "\7example";
    static const uint8_t salt[] = {0xaa, 0xbb, 0xcc, 0xdd};
    uint16_t tag = 0;
    uint8_t digest[48], hash[20];
    size_t length;

    printf("keys\n");
    uint32_t status = psp_key_tag(DNSKEY, sizeof DNSKEY, &tag);
    printf("  key tag: %u\n", tag);
    expect("as in RFC 4034", status == PSP_DONE && tag == 60485);

    status = psp_ds_digest(owner, sizeof owner, DNSKEY, sizeof DNSKEY, 1, digest, sizeof digest, &length);
    show("digest by SHA-1", digest, status == PSP_DONE ? length : 0);
    expect("as in RFC 4034", status == PSP_DONE && length == 20 && memcmp(digest, DS_SHA1, 20) == 0);

    status = psp_nsec3_hash(example, sizeof example, salt, sizeof salt, 12, hash, sizeof hash, &length);
    show("NSEC3 hash", hash, status == PSP_DONE ? length : 0);
    expect("as in RFC 5155", status == PSP_DONE && length == 20 && memcmp(hash, NSEC3_EXAMPLE, 20) == 0);
}

/* ---- transaction signatures */

enum { FUDGE = 300, ID = 0x1234, TSIG = 250, CLASS_ANY = 255, NOT_SIGNED = 0 };

static const uint64_t SENT = 1700000000; /* when the request is sent, in seconds from 1970 on */
static const uint8_t KEY[] = "a secret that both sides share..";
static const uint8_t KEY_NAME[] = "\3key\7example";

/* What the server does: it adds the record of a transaction signature with this MAC to a message (RFC 8945 4.2). */
static void add_tsig(struct octets *message, uint64_t time, const uint8_t *mac, size_t mac_len, uint16_t error) {
    message->at[11]++; /* one more additional record */
    add(message, KEY_NAME, sizeof KEY_NAME);
    add_number(message, TSIG, 2);
    add_number(message, CLASS_ANY, 2);
    add_number(message, 0, 4); /* TTL */
    add_number(message, 29 + mac_len, 2);
    add_name(message, "hmac-sha256");
    add_number(message, time, 6);
    add_number(message, FUDGE, 2);
    add_number(message, mac_len, 2);
    add(message, mac, mac_len);
    add_number(message, ID, 2); /* the original ID */
    add_number(message, error, 2);
    add_number(message, 0, 2); /* no other data */
}

/* What the server does: it signs a message behind the last MAC (RFC 8945 4.3.3, 5.3.1), and leaves its own there. */
static void sign_answer(struct octets *message, uint64_t time, bool first, uint8_t mac[32]) {
    struct octets covered = {.length = 0};
    size_t length;
    add_number(&covered, 32, 2);
    add(&covered, mac, 32);
    add(&covered, message->at, message->length);
    if (first) {
        add(&covered, KEY_NAME, sizeof KEY_NAME);
        add_number(&covered, CLASS_ANY, 2);
        add_number(&covered, 0, 4);
        add_name(&covered, "hmac-sha256");
    }
    add_number(&covered, time, 6);
    add_number(&covered, FUDGE, 2);
    if (first)
        add_number(&covered, 0, 4); /* no error, and no other data */
    if (psp_hmac(PSP_SHA256, KEY, sizeof KEY - 1, covered.at, covered.length, mac, 32, &length) != PSP_DONE)
        all_right = false;
    add_tsig(message, time, mac, 32, 0);
}

/* A message with the question for the addresses of example, and with so many of them. */
static struct octets message_with(uint16_t flags, int addresses) {
    struct octets message = {.length = 0};
    add_number(&message, ID, 2);
    add_number(&message, flags, 2);
    add_number(&message, 1, 2);
    add_number(&message, (uint64_t)addresses, 2);
    add_number(&message, 0, 4);
    add(&message, "\7example\0\0\1\0\1", 13);
    for (int at = 1; at <= addresses; at++) {
        add(&message, "\xc0\x0c\0\1\0\1\0\0\x0e\x10\0\4\xc0\0\2", 15);
        add_number(&message, (uint64_t)at, 1);
    }
    return message;
}

static uint32_t check(struct psp_chain *chain, const struct octets *message, struct psp_answer *answer) {
    return psp_tsig_check(PSP_SHA256, KEY, sizeof KEY - 1, KEY_NAME, sizeof KEY_NAME, chain, message->at,
                          message->length, answer);
}

static void transactions(void) {
    struct octets query = message_with(0x0100, 0), first = message_with(0x8180, 1), second = message_with(0x8180, 2);
    struct octets unsigned_answer = message_with(0x8189, 0);
    struct psp_chain chain, before;
    struct psp_answer answer;
    struct psp_tsig tsig;
    uint8_t request[512], mac[32];
    size_t length;

    printf("transaction signatures\n");
    uint32_t status = psp_tsig_sign(PSP_SHA256, KEY, sizeof KEY - 1, KEY_NAME, sizeof KEY_NAME, FUDGE, SENT, query.at,
                                    query.length, request, sizeof request, &length, &chain);
    expect("the request is signed", status == PSP_DONE && length == query.length + 26 + sizeof KEY_NAME + 13 + 32);
    if (status != PSP_DONE)
        return;
    show("its MAC", chain.mac, chain.mac_len);
    memcpy(mac, chain.mac, sizeof mac);

    sign_answer(&first, SENT + 1, true, mac);
    sign_answer(&second, SENT + 2, false, mac);
    before = chain;
    expect("the second answer is refused in front of the first", check(&chain, &second, &answer) == PSP_WRONG_MAC);
    first.at[40] ^= 1;
    expect("an answer with a changed bit is refused", check(&chain, &first, &answer) == PSP_WRONG_MAC);
    first.at[40] ^= 1;
    expect("the chain is as it was", memcmp(&before, &chain, sizeof chain) == 0);
    status = check(&chain, &first, &answer);
    expect("the first answer is accepted", status == PSP_DONE && answer.rcode == 0 && answer.tsig_error == 0);
    expect("the second answer is accepted", check(&chain, &second, &answer) == PSP_DONE && chain.time == SENT + 2);

    /* A server that doesn't know the key can't sign: it answers NOTAUTH, and its TSIG says BADKEY and has no MAC. */
    add_tsig(&unsigned_answer, SENT, mac, NOT_SIGNED, 17);
    expect("an unsigned answer is refused", check(&chain, &unsigned_answer, &answer) == PSP_TRUNCATED_MAC);
    status = psp_tsig_read(unsigned_answer.at, unsigned_answer.length, &tsig);
    expect("it says BADKEY", status == PSP_DONE && tsig.error == 17 && tsig.mac_len == 0 && tsig.hash == PSP_SHA256);
}

/* ---- records, and what their signatures cover */

enum { MX = 15, RRSIG = 46, CLASS_IN = 1 };

/* The fields of the RRSIG of RFC 4035 B.6, up to the signer. It has two labels, so `*.w.example` was signed. */
static void add_rrsig_fields(struct octets *to) {
    add_number(to, MX, 2);
    add_number(to, 5, 1);    /* the algorithm, RSA with SHA-1 */
    add_number(to, 2, 1);    /* labels */
    add_number(to, 3600, 4); /* the TTL in the zone */
    add_number(to, 1084127779, 4);
    add_number(to, 1081535779, 4);
    add_number(to, 38519, 2);
    add_name(to, "example");
}

/* An answer for `a.z.w.example` like that of RFC 4035 B.6, with a compressed name in capitals. Its signature is cut. */
static struct octets signed_answer(void) {
    struct octets message = {.length = 0};
    add_number(&message, ID, 2);
    add_number(&message, 0x8180, 2);
    add_number(&message, 1, 2);
    add_number(&message, 2, 2);
    add_number(&message, 0, 4);
    add_name(&message, "a.z.w.example"); /* at 12; `example` stands at 18 */
    add_number(&message, MX, 2);
    add_number(&message, CLASS_IN, 2);

    add(&message, "\xc0\x0c", 2);
    add_number(&message, MX, 2);
    add_number(&message, CLASS_IN, 2);
    add_number(&message, 3000, 4);
    add_number(&message, 7, 2);
    add(&message, "\0\1\2AI\xc0\x12", 7);

    add(&message, "\xc0\x0c", 2);
    add_number(&message, RRSIG, 2);
    add_number(&message, CLASS_IN, 2);
    add_number(&message, 3000, 4);
    add_number(&message, 31, 2);
    add_rrsig_fields(&message);
    add(&message, "\x3a\xe3\x68\x2f", 4);
    return message;
}

/* What that RRSIG covers (RFC 4034 3.1.8.1). */
static struct octets covered_octets(void) {
    struct octets covered = {.length = 0};
    add_rrsig_fields(&covered);
    add_name(&covered, "*.w.example");
    add_number(&covered, MX, 2);
    add_number(&covered, CLASS_IN, 2);
    add_number(&covered, 3600, 4);
    add_number(&covered, 14, 2);
    add_number(&covered, 1, 2);
    add_name(&covered, "ai.example");
    return covered;
}

static void signatures(void) {
    static const uint8_t owner[] = "\1a\1z\1w\7example";
    struct octets message = signed_answer(), wanted = covered_octets();
    struct psp_record places[8];
    uint8_t data[512], covered[512];
    size_t count, length;

    printf("records\n");
    uint32_t status = psp_records(message.at, message.length, places, COUNT(places), &count);
    expect("there are two records", status == PSP_DONE && count == 2);
    if (status != PSP_DONE || count != 2)
        return;
    for (size_t at = 0; at < count; at++)
        printf("  at %u: %u octets of type %u in section %u\n", (unsigned)places[at].start, (unsigned)places[at].length,
               places[at].type, places[at].section);
    expect("the second is an RRSIG", places[1].type == RRSIG && places[1].section == PSP_ANSWER);

    status = psp_canonical_data(message.at, message.length, places[0].start, data, sizeof data, &length);
    show("data of the first", data, status == PSP_DONE ? length : 0);
    expect("in canonical form", status == PSP_DONE && length == 14 && memcmp(data, "\0\1\2ai\7example", 14) == 0);

    /* A caller with cryptography verifies the RRSIG's signature over these octets, by the zone's DNSKEY. */
    status = psp_rrsig_input(message.at, message.length, PSP_ANSWER, owner, sizeof owner, CLASS_IN, places[1].start,
                             covered, sizeof covered, &length);
    show("what the RRSIG covers", covered, status == PSP_DONE ? length : 0);
    expect("as in RFC 4034", status == PSP_DONE && length == wanted.length && memcmp(covered, wanted.at, length) == 0);
}

int main(void) {
    names();
    keys();
    transactions();
    signatures();
    printf(all_right ? "all as expected\n" : "NOT as expected\n");
    return all_right ? 0 : 1;
}
