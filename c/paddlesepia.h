/*
 * Paddlesepia: DNSSEC and TSIG for C.
 *
 * Every call is proved to answer exactly what the definitions of the library give for the octets that it is handed
 * (docs/USE.md). No call takes memory, keeps anything, or touches what it isn't handed, so calls may run at once on any
 * number of threads.
 *
 * Common to all calls:
 *
 * - Octets come in as a pointer and a length. A null pointer with length 0 is an empty string of octets.
 * - Octets go out to the caller's room `out` of `out_size`, and `*out_len` tells how many they are. Where the room is too
 *   short, the call answers PSP_OUT_TOO_SHORT, leaves the room as it was, and still tells in `*out_len` how many are
 *   needed: a call with a room of 0 asks for the length. Behind `*out_len` the room is left as it was.
 * - Every other status but PSP_DONE leaves all that the call could have written as it was.
 * - What a call reads and what it writes must not overlap, and no two of what it writes may.
 * - A call takes at most 48 KiB of the stack, psp_records and psp_canonical_data 128 KiB, psp_rrsig_input 320 KiB.
 * - Where several refusals apply, the first in the order of the call's comment is answered, and PSP_OUT_TOO_SHORT last.
 * - A name in wire form is its labels behind their lengths and the root's zero octet at the end (RFC 1035 3.1), and
 *   nothing behind it: 1 to 255 octets.
 */
#ifndef PADDLESEPIA_H
#define PADDLESEPIA_H

#include <stddef.h>
#include <stdint.h>

#ifdef __cplusplus
extern "C" {
#define PSP_ASSERT static_assert
#else
#define PSP_ASSERT _Static_assert
#endif

/* What a call answers. */
enum psp_status {
    PSP_DONE = 0,                 /* it is done */
    PSP_OUT_TOO_SHORT = 1,        /* the room is too short; the length that is needed is told */
    PSP_UNKNOWN_HASH = 2,         /* the hash function is none of enum psp_hash */
    PSP_UNKNOWN_DIGEST_TYPE = 3,  /* the digest type is none of 1, 2 and 4 */
    PSP_DATA_TOO_LONG = 4,        /* more than 65,535 octets of data */
    PSP_SALT_TOO_LONG = 5,        /* more than 255 octets of salt */
    PSP_BAD_NAME = 6,             /* the octets are no name in wire form, or go on behind it */
    PSP_NOT_UTF8 = 7,             /* the text is no UTF-8 */
    PSP_EMPTY_LABEL = 8,          /* a label of the text has no octets */
    PSP_LABEL_TOO_LONG = 9,       /* a label of the text has more than 63 octets */
    PSP_NAME_TOO_LONG = 10,       /* the name has more than 255 octets in wire form */
    PSP_BAD_ESCAPE = 11,          /* a \ of the text is followed by nothing, or by digits that are no octet */
    PSP_BAD_CHARACTER = 12,       /* a character of the text is neither printable ASCII nor escaped */
    PSP_TIME_TOO_LARGE = 13,      /* a time of 2^48 seconds or more */
    PSP_NOT_A_REQUEST = 14,       /* no message without a transaction signature, or octets behind it */
    PSP_COUNT_TOO_LARGE = 15,     /* the message has 65,535 additional records */
    PSP_MESSAGE_TOO_LONG = 16,    /* the signed message would have more than 65,535 octets */
    PSP_BAD_CHAIN = 17,           /* the chain has a MAC of more than 64 octets */
    PSP_NOT_A_MESSAGE = 18,       /* no message stands in the octets */
    PSP_MISSING_TSIG = 19,        /* the last additional record of the message is no transaction signature */
    PSP_WRONG_KEY = 20,           /* the signature names another key or another algorithm */
    PSP_TRUNCATED_MAC = 21,       /* the MAC is shorter than the hash function's output */
    PSP_WRONG_MAC = 22,           /* the MAC is wrong */
    PSP_OUTDATED = 23,            /* signed before the last answer, or the request was sent outside its window */
    PSP_NOT_A_RESPONSE = 24,      /* the message is signed and is no response */
    PSP_BAD_SECTION = 25,         /* the section is none of enum psp_section */
    PSP_NO_RECORD = 26,           /* no record stands at the place */
    PSP_NO_RRSIG = 27,            /* no RRSIG with data starts at the place */
    PSP_LABELS_EXCEED_OWNER = 28  /* the RRSIG has more labels than the owner */
};

/* The hash functions of HMAC. */
enum psp_hash {
    PSP_SHA256 = 256,
    PSP_SHA384 = 384,
    PSP_SHA512 = 512
};

/* The sections of a message in which records stand (RFC 1035 4.1). */
enum psp_section {
    PSP_ANSWER = 1,
    PSP_AUTHORITY = 2,
    PSP_ADDITIONAL = 3
};

/* ---- keys and names ---- */

/*
 * The tag of the DNSKEY with these data (RFC 4034 appendix B), by which a DS or an RRSIG names it.
 * Refusals: PSP_DATA_TOO_LONG for more than 65,535 octets.
 */
uint32_t psp_key_tag(const uint8_t *data, size_t data_len, uint16_t *tag);

/*
 * The digest of the DNSKEY with these data at its owner, as it stands in a DS (RFC 4034 5.1.4): `owner` is a name in wire
 * form, `digest_type` is 1 for SHA-1, 2 for SHA-256, 4 for SHA-384. It has 20, 32 or 48 octets.
 * Refusals: PSP_BAD_NAME, PSP_DATA_TOO_LONG for more than 65,535 octets of data, PSP_UNKNOWN_DIGEST_TYPE.
 */
uint32_t psp_ds_digest(const uint8_t *owner, size_t owner_len, const uint8_t *data, size_t data_len,
                       uint8_t digest_type, uint8_t *out, size_t out_size, size_t *out_len);

/*
 * HMAC of a message under a key of whatever length (RFC 2104): 32, 48 or 64 octets. `hash` is one of enum psp_hash.
 * Refusals: PSP_UNKNOWN_HASH.
 */
uint32_t psp_hmac(uint32_t hash, const uint8_t *key, size_t key_len, const uint8_t *message, size_t message_len,
                  uint8_t *out, size_t out_size, size_t *out_len);

/*
 * The wire form of the name that a text spells (RFC 1035 5.1): 1 to 255 octets. A `.` at the end may stand or not.
 * Refusals: PSP_NOT_UTF8; then PSP_EMPTY_LABEL, PSP_LABEL_TOO_LONG, PSP_NAME_TOO_LONG, PSP_BAD_ESCAPE,
 * PSP_BAD_CHARACTER, the first from the left.
 */
uint32_t psp_name_from_text(const char *text, size_t text_len, uint8_t *out, size_t out_size, size_t *out_len);

/*
 * The text of a name in wire form (RFC 1035 5.1), with a `.` at the end and without a zero octet: 1 to 1,004 octets.
 * Refusals: PSP_BAD_NAME.
 */
uint32_t psp_name_to_text(const uint8_t *name, size_t name_len, char *out, size_t out_size, size_t *out_len);

/*
 * The hash of a name as NSEC3 records have it (RFC 5155 5), with SHA-1 and so many rounds behind the first: 20 octets.
 * Refusals: PSP_BAD_NAME, PSP_SALT_TOO_LONG for more than 255 octets of salt.
 */
uint32_t psp_nsec3_hash(const uint8_t *name, size_t name_len, const uint8_t *salt, size_t salt_len,
                        uint16_t iterations, uint8_t *out, size_t out_size, size_t *out_len);

/* ---- transaction signatures (RFC 8945) ---- */

/*
 * What stands of a signed request and the answers accepted so far. psp_tsig_sign makes it, psp_tsig_check moves it; a
 * caller keeps as many as it likes, and may copy and store them. The hash function, the key and its name are no part of
 * it: hand in the same with each call.
 */
struct psp_chain {
    uint64_t request_time; /* when the request was sent, in seconds from 1970 on */
    uint64_t time;         /* when the last answer was signed; 0 before the first */
    uint32_t first;        /* 0 behind the first answer, and else before it */
    uint32_t mac_len;      /* how many octets of `mac` are the last MAC, at most 64 */
    uint8_t mac[64];       /* the last MAC: that of the request or of the last answer */
};

/* What an accepted answer tells. */
struct psp_answer {
    uint64_t server_time; /* the server's time that a first answer with the error BADTIME tells, else 0 */
    uint16_t tsig_error;  /* the error of a first answer's TSIG, 18 for BADTIME; 0 for none and behind the first */
    uint16_t rcode;       /* the RCODE of the header (RFC 1035 4.1.1), 9 for NOTAUTH */
    uint32_t has_time;    /* 1 where a server's time is told, else 0 */
};

/* The transaction signature of a message, as it says itself: nothing of it is checked. */
struct psp_tsig {
    uint64_t time;        /* when it was signed, in seconds from 1970 on */
    uint32_t start;       /* where its record starts; its owner, the key's name, stands there */
    uint32_t mac_len;     /* how many octets its MAC has; none in an answer that isn't signed (RFC 8945 5.3.2) */
    uint32_t hash;        /* one of enum psp_hash, or 0 for another algorithm */
    uint16_t fudge;       /* the fudge in seconds */
    uint16_t error;       /* 16 for BADSIG, 17 for BADKEY, 18 for BADTIME; 0 for none */
};

PSP_ASSERT(sizeof(struct psp_chain) == 88, "psp_chain has 88 octets");
PSP_ASSERT(sizeof(struct psp_answer) == 16, "psp_answer has 16 octets");
PSP_ASSERT(sizeof(struct psp_tsig) == 24, "psp_tsig has 24 octets");

/*
 * Signs a request that is sent at `time` (RFC 8945 5.1): a query, a NOTIFY, an update or the request for a transfer,
 * without a transaction signature. The signed request goes to `out`; it is longer by the record's 26 octets, the wire
 * forms of the key's and the algorithm's name, and the MAC. `chain` is then what psp_tsig_check takes.
 * `name` is the key's name in wire form, `fudge` the window in seconds, usually 300.
 * Refusals: PSP_UNKNOWN_HASH, PSP_BAD_NAME, PSP_TIME_TOO_LARGE, PSP_NOT_A_REQUEST, PSP_COUNT_TOO_LARGE,
 * PSP_MESSAGE_TOO_LONG. The chain stays as it was where the room is too short.
 */
uint32_t psp_tsig_sign(uint32_t hash, const uint8_t *key, size_t key_len, const uint8_t *name, size_t name_len,
                       uint16_t fudge, uint64_t time, const uint8_t *request, size_t request_len, uint8_t *out,
                       size_t out_size, size_t *out_len, struct psp_chain *chain);

/*
 * Checks the next answer to a signed request, the first or a later one of a stream such as a transfer, each of whose
 * messages is signed (RFC 8945 5.2 to 5.4), and moves the chain behind it. The order in which answers come in matters;
 * an answer that is refused leaves the chain, so that another may be tried. Octets behind the message are no fault.
 * An answer with an error may be accepted: look at what it tells.
 * Refusals: PSP_UNKNOWN_HASH, PSP_BAD_NAME, PSP_BAD_CHAIN, PSP_NOT_A_MESSAGE, PSP_MISSING_TSIG, PSP_WRONG_KEY,
 * PSP_TRUNCATED_MAC, PSP_WRONG_MAC, PSP_OUTDATED, PSP_NOT_A_RESPONSE.
 */
uint32_t psp_tsig_check(uint32_t hash, const uint8_t *key, size_t key_len, const uint8_t *name, size_t name_len,
                        struct psp_chain *chain, const uint8_t *message, size_t message_len,
                        struct psp_answer *answer);

/*
 * What the transaction signature of a message says, unchecked: for an answer that psp_tsig_check refuses because the
 * server could not sign it, and for choosing a key.
 * Refusals: PSP_NOT_A_MESSAGE, PSP_MISSING_TSIG.
 */
uint32_t psp_tsig_read(const uint8_t *message, size_t message_len, struct psp_tsig *tsig);

/* ---- the records of a message, and what their signatures cover ---- */

/* Where a record of a message stands. */
struct psp_record {
    uint32_t start;   /* the place of its first octet */
    uint32_t length;  /* how many octets it has, from its owner to the end of its data */
    uint16_t section; /* one of enum psp_section */
    uint16_t type;    /* its type */
};

PSP_ASSERT(sizeof(struct psp_record) == 12, "psp_record has 12 octets");

/*
 * Where the records of a message stand, in their order: at most 5,956, since each has eleven octets or more. `out_size`
 * and `*out_len` count records. All of the message is checked, the data of each known type too.
 * Refusals: PSP_NOT_A_MESSAGE.
 */
uint32_t psp_records(const uint8_t *message, size_t message_len, struct psp_record *out, size_t out_size,
                     size_t *out_len);

/*
 * The data of the record that starts at `start` in canonical form (RFC 4034 6.2): its names are no longer compressed,
 * and lowered where the form says so. At most 65,535 octets.
 * Refusals: PSP_NO_RECORD, PSP_DATA_TOO_LONG.
 */
uint32_t psp_canonical_data(const uint8_t *message, size_t message_len, size_t start, uint8_t *out, size_t out_size,
                            size_t *out_len);

/*
 * The octets that an RRSIG of a message covers (RFC 4034 3.1.8.1): its own fields before the signature, and in canonical
 * form and order (RFC 4034 6) the records of `section` that have this owner and this class and the type that the RRSIG
 * covers; what a `*` stands for is written as such (RFC 4035 5.3.2). `start` is where the RRSIG starts, in whatever
 * section; `owner` is a name in wire form. Whether the key, the times and the signer fit is for the caller to ask
 * (RFC 4035 5.3.1), and so is the signature itself, by whatever cryptography it has.
 * Refusals: PSP_BAD_SECTION, PSP_BAD_NAME, PSP_NOT_A_MESSAGE, PSP_NO_RRSIG, PSP_LABELS_EXCEED_OWNER, PSP_DATA_TOO_LONG.
 */
uint32_t psp_rrsig_input(const uint8_t *message, size_t message_len, uint32_t section, const uint8_t *owner,
                         size_t owner_len, uint16_t dns_class, size_t start, uint8_t *out, size_t out_size,
                         size_t *out_len);

#ifdef __cplusplus
}
#endif

#endif
