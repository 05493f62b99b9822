/*
 * Sealwax: the bookkeeping of an Oblivious HTTP gateway (RFC 9458), and the client's side of it.
 *
 * The library reads key lists and requests, admits exchanges, counts key uses, keeps pending exchanges, says what goes out and in which
 * form, and reads the request inside (RFC 9292). HPKE, ciphers, sockets and random bytes are the host's. Every function of the library is
 * proved to meet its contract (crates/host/src): nothing traps, every call ends, and a refused call changes neither the gateway nor a byte of
 * a lent buffer. Setup is apart: it makes the gateway anew, and where it is refused one without keys.
 *
 * Link with libsealwax.a, which ./library makes. The library allocates nothing, keeps nothing between calls and calls nothing but
 * memcpy, memmove and memset.
 *
 * What a host may pass: any bytes and any numbers. Slices are a pointer and a number of elements; the pointer may be null where that
 * number is 0.
 *
 * What a host must not do:
 *   - call two functions on one gateway at the same time: one gateway, one lock;
 *   - write into a gateway, or pass one that sealwax_setup did not make. A gateway may be copied with memcpy;
 *   - compare, hash or store a gateway by its bytes: those between its fields may hold anything. sealwax_report says what is in it;
 *   - let a buffer that is written overlap the gateway or any other argument.
 */
#ifndef SEALWAX_H
#define SEALWAX_H

#include <stdbool.h>
#include <stddef.h>
#include <stdint.h>

#ifdef __cplusplus
extern "C" {
#define SEALWAX_ASSERT(condition, text) static_assert(condition, text)
#else
#define SEALWAX_ASSERT(condition, text) _Static_assert(condition, text)
#endif

/* Sizes in bytes of what the library writes: info; the longest salt, enc and nonce; the longest head, 7 bytes and enc; the exporter
   context; the longest key list that is written, 16 configurations of 204 bytes. The longest enc, key and nonce are those of the library's
   table of algorithms, and hosts/c/test.c holds these numbers against it. */
#define SEALWAX_INFO_LENGTH 29
#define SEALWAX_LONGEST_SALT (133 + 32)
#define SEALWAX_LONGEST_HEAD (7 + 133)
#define SEALWAX_EXPORTER_CONTEXT_LENGTH 22
#define SEALWAX_LONGEST_LIST (16 * 204)

/* The most bytes that are accepted: of a request, of a plain response, of a response with its nonce and tag, and of a key list, in which a
   configuration that is skipped may have as many as its two length bytes can say. */
#define SEALWAX_LONGEST_REQUEST 65536
#define SEALWAX_LONGEST_PLAIN 65536
#define SEALWAX_LONGEST_RESPONSE (32 + 65536 + 16)
#define SEALWAX_LONGEST_LIST_READ (16 * (2 + 65535))

/* The most keys of a gateway. */
#define SEALWAX_MOST_KEYS 16

/* Refusal numbers. Number 10 is kept free, and 15 is no longer given: 18 to 22 say what is wrong with a key list, and where; 23 is of the
   message inside. */
enum sealwax_refusal {
    SEALWAX_ACCEPTED = 0,
    SEALWAX_TOO_SHORT = 1,               /* request or response too short */
    SEALWAX_TOO_LONG = 2,                /* request or response too long */
    SEALWAX_UNKNOWN_KEM = 3,             /* KEM unknown */
    SEALWAX_NO_SUCH_KEY = 4,             /* no such key id */
    SEALWAX_OTHER_KEM = 5,               /* KEM is not that key's */
    SEALWAX_PAIR_NOT_OFFERED = 6,        /* pair unknown, or not listed for that key */
    SEALWAX_KEY_RETIRED = 7,             /* key retired */
    SEALWAX_KEY_USED_UP = 8,             /* use count equals the cap */
    SEALWAX_TABLE_FULL = 9,              /* 128 exchanges pending */
    SEALWAX_NOT_PENDING = 11,            /* ticket not pending */
    SEALWAX_STEP_NOT_ALLOWED = 12,       /* step not allowed in this state */
    SEALWAX_WRONG_LENGTH = 13,           /* opened, enc, nonce, plain or pair-list length wrong */
    SEALWAX_NO_ROOM = 14,                /* lent buffer too small */
    SEALWAX_NO_USABLE_CONFIGURATION = 16, /* no usable configuration */
    SEALWAX_CAP_OUT_OF_RANGE = 17,       /* cap outside 1 to 1,000,000,000 */
    SEALWAX_LIST_TRUNCATED = 18,         /* a configuration's length, or the bytes it announces, run past the list's end; or no configuration at all */
    SEALWAX_LENGTH_MISMATCH = 19,        /* a configuration's length and contents disagree; at the list writer, a public key of the wrong length */
    SEALWAX_BAD_PAIR_LENGTH = 20,        /* pair bytes not a multiple of 4, or 0, or above 64 */
    SEALWAX_DUPLICATE_KEY_ID = 21,       /* key id twice */
    SEALWAX_TOO_MANY_CONFIGURATIONS = 22, /* more than sixteen configurations */
    SEALWAX_BAD_MESSAGE = 23             /* a message inside is bad, with the offset of its first wrong byte, or its length where bytes are missing */
};

/* Problem types of an unprotected answer (RFC 9458, 5.3). */
enum sealwax_problem {
    SEALWAX_NO_PROBLEM = 0,
    SEALWAX_OHTTP_KEY = 1 /* https://iana.org/assignments/http-problem-types#ohttp-key */
};

/*
 * A gateway: cap, last ticket, keys and 128 places for pending exchanges. It lies in the host's memory; what is in it is the
 * library's alone.
 */
#define SEALWAX_GATEWAY_SIZE 4304
typedef struct sealwax_gateway {
    uint64_t opaque[SEALWAX_GATEWAY_SIZE / 8];
} sealwax_gateway;

/*
 * What every answer begins with.
 *   number     the refusal number, 0 where the call is accepted
 *   has_place  whether the refusal has a place. Ask this and not the number: the list writer's 3 has one, and admit's and head's have none
 *   place      the offset of the first byte of the field at fault, in the list that was read or would be written: the configuration's length
 *              for 18, 19 and 22, its pair length for 20, its key id for 21, its KEM for the list writer's 3; for 23 the offset of the
 *              first wrong byte of the message, or its length where bytes are missing; 0 where there is none
 *   status     the HTTP status to send: the unprotected one of a refused admit (400, 413, 500, 503) or of a failed opening (422), the
 *              outer one of a sealed response (200); 0 where nothing is sent
 *   problem    the problem type of an unprotected answer
 */
typedef struct sealwax_outcome {
    uint8_t number;
    bool has_place;
    size_t place;
    uint16_t status;
    uint8_t problem;
} sealwax_outcome;

/* The values behind an outcome are 0 where the call is refused. Starts and ends are offsets; an end is the offset past the part. */

typedef struct sealwax_setup_result {
    sealwax_outcome outcome;
    size_t keys;
} sealwax_setup_result;

typedef struct sealwax_admit_result {
    sealwax_outcome outcome;
    uint64_t ticket;
    size_t enc_start;
    size_t enc_end;
    size_t ciphertext_start;
    size_t ciphertext_end;
    uint16_t kdf;
    uint16_t aead;
    uint8_t key_id;
} sealwax_admit_result;

typedef struct sealwax_open_result {
    sealwax_outcome outcome;
    uint64_t opened; /* 1 where the exchange is opened now */
} sealwax_open_result;

typedef struct sealwax_respond_result {
    sealwax_outcome outcome;
    uint64_t length; /* of the encapsulated response: nonce, plain response and tag */
} sealwax_respond_result;

typedef struct sealwax_key_report {
    uint8_t id;
    uint32_t count;
    bool retired;
} sealwax_key_report;

typedef struct sealwax_report_result {
    sealwax_outcome outcome;
    uint64_t last_ticket;
    size_t pending;
    size_t key_count;
    sealwax_key_report keys[SEALWAX_MOST_KEYS]; /* in list order; the first key_count count */
} sealwax_report_result;

typedef struct sealwax_check_result {
    sealwax_outcome outcome;
    size_t configurations; /* that were read */
    size_t skipped;        /* of an unknown KEM */
} sealwax_check_result;

typedef struct sealwax_key_result {
    sealwax_outcome outcome;
    size_t start;
    size_t end;
} sealwax_key_result;

typedef struct sealwax_write_result {
    sealwax_outcome outcome;
    size_t length;
} sealwax_write_result;

typedef struct sealwax_choose_result {
    sealwax_outcome outcome;
    size_t key_start; /* of the public key in the list */
    size_t key_end;
    uint16_t kem;
    uint16_t kdf;
    uint16_t aead;
    uint8_t key_id;
} sealwax_choose_result;

typedef struct sealwax_head_result {
    sealwax_outcome outcome;
    size_t length; /* of the head: 7 and enc */
} sealwax_head_result;

typedef struct sealwax_split_result {
    sealwax_outcome outcome;
    size_t nonce_length; /* the response begins with the nonce */
    size_t ciphertext_length;
} sealwax_split_result;

typedef struct sealwax_exporter_result {
    sealwax_outcome outcome;
    size_t context_length;
    size_t secret_length; /* how many bytes to export: as many as the response nonce has */
} sealwax_exporter_result;

/* Where a part of a message lies: the offset of its first byte, and the offset past it. */
typedef struct sealwax_span {
    size_t start;
    size_t end;
} sealwax_span;

/* Where a field section lies, without its length, and how many fields it has. */
typedef struct sealwax_section {
    sealwax_span span;
    size_t fields;
} sealwax_section;

typedef struct sealwax_request_result {
    sealwax_outcome outcome;
    sealwax_span method;
    sealwax_span scheme;
    sealwax_span authority;
    sealwax_span path;
    sealwax_section headers;
    sealwax_span content;
    sealwax_section trailers;
    sealwax_span padding;
} sealwax_request_result;

/* The parts of a request, for sealwax_request_part. */
enum sealwax_part {
    SEALWAX_METHOD = 0,
    SEALWAX_SCHEME = 1,
    SEALWAX_AUTHORITY = 2,
    SEALWAX_PATH = 3,
    SEALWAX_HEADERS = 4,
    SEALWAX_CONTENT = 5,
    SEALWAX_TRAILERS = 6,
    SEALWAX_PADDING = 7
};

typedef struct sealwax_request_part_result {
    sealwax_outcome outcome;
    sealwax_span span;
} sealwax_request_part_result;

typedef struct sealwax_next_field_result {
    sealwax_outcome outcome;
    sealwax_span name;
    sealwax_span value;
    size_t next; /* the place behind the field, where the next one stands or the section ends */
} sealwax_next_field_result;

/* Sizes of the structs above as the library has them. */
typedef struct sealwax_sizes_result {
    size_t gateway;
    size_t outcome;
    size_t setup;
    size_t admit;
    size_t open;
    size_t respond;
    size_t report;
    size_t check;
    size_t key;
    size_t write;
    size_t choose;
    size_t head;
    size_t split;
    size_t exporter;
} sealwax_sizes_result;

/* The same of the calls on messages, which have come later: the struct above is as it was. */
typedef struct sealwax_message_sizes_result {
    size_t request;
    size_t request_part;
    size_t next_field;
} sealwax_message_sizes_result;

/* ---- the gateway: setup and the six calls */

/*
 * Makes a fresh gateway of a key list and a cap, the uses allowed per key, 1 to 1,000,000,000. A configuration that is skipped (see
 * sealwax_check) makes no key; where all are skipped the gateway has none and refuses every request. Refusals: 18 to 22, 17; the gateway is then
 * one without keys, too. What the memory held before is gone either way: to keep a gateway that is in use, set
 * up another one and change over where that was accepted.
 */
sealwax_setup_result sealwax_setup(sealwax_gateway *gateway, const uint8_t *list, size_t list_length, uint64_t cap);

/*
 * Admits a request: counts the use, gives the next ticket and writes info, 29 bytes, at the front of its buffer. Refusals: 2, 1, 3, 1,
 * 4, 5, 6, 7, 8, 9, 14, in this order; each has a status, and 4 to 8 the problem type ohttp-key. The use is never given back.
 */
sealwax_admit_result sealwax_admit(sealwax_gateway *gateway, const uint8_t *request, size_t request_length, uint8_t *info,
                                   size_t info_length);

/*
 * Says whether the request could be opened: success is 0 where it could not, and any other number where it was opened to n bytes. A
 * failure closes the exchange and answers the unprotected status 422. Refusals: 11, 12, 13.
 */
sealwax_open_result sealwax_open(sealwax_gateway *gateway, uint64_t ticket, uint8_t success, uint64_t n);

/*
 * Closes an opened exchange with a response of plain_length bytes, to be sealed: writes the salt, enc and then nonce, at the front of
 * its buffer. That enc is the request's is the host's duty; only its length is checked. Refusals: 11, 12, 13, 14.
 */
sealwax_respond_result sealwax_respond(sealwax_gateway *gateway, uint64_t ticket, const uint8_t *enc, size_t enc_length,
                                       const uint8_t *nonce, size_t nonce_length, uint64_t plain_length, uint8_t *salt,
                                       size_t salt_length);

/* Closes an exchange, asked or opened, with no reply. Refusal: 11. */
sealwax_outcome sealwax_abandon(sealwax_gateway *gateway, uint64_t ticket);

/* Retires a key: later admissions refuse it, pending exchanges go on. Refusals: 4, 7. */
sealwax_outcome sealwax_retire(sealwax_gateway *gateway, uint8_t key_id);

/* Last ticket, number pending, and each key's count and retirement. Changes nothing, and is never refused. */
sealwax_report_result sealwax_report(const sealwax_gateway *gateway);

/* ---- the search alone: for measuring what it costs; a host needs neither */

/* The first place of the table whose ticket is this one, by a walk; a free place has the ticket 0; 128 where there is none. Changes nothing. */
size_t sealwax_plain_find(sealwax_gateway *gateway, uint64_t ticket);

/* The same by home: place near % 128 is looked at first, and the walk is made where the ticket is not there. The calls on a ticket search
   with near = ticket; admit searches the ticket 0 with near = the next ticket. */
size_t sealwax_find(sealwax_gateway *gateway, uint64_t ticket, uint64_t near);

/* ---- key lists */

/*
 * Whether a key list is good, and how many of its configurations were read and how many skipped. A configuration of at least 3 bytes that
 * lies whole in the list and has an unknown KEM is skipped: its inside is not read and its key id not taken, but it counts towards the
 * sixteen. A host may log how many, so that somebody sees that a list has a KEM which this release does not know. Refusals: 22, 18, 20, 19,
 * 21, the first fault in this order of the first bad configuration; where it ends before its pair length can be read, it is 19. What stands
 * at the place:
 *   22  the length of the seventeenth configuration
 *   18  a length that announces more bytes than follow, or that does not stand there whole; nothing, at 0, for an empty list
 *   20  a pair length that is not a multiple of 4, or 0, or above 64
 *   19  a length that is not 5 + public key bytes + pair bytes
 *   21  a key id that an earlier configuration, which was read, has too
 */
sealwax_check_result sealwax_check(const uint8_t *list, size_t list_length);

/* Where the public key of a key id lies in a list. Refusals: 18 to 22; 4, also where only a configuration that is skipped has the id. */
sealwax_key_result sealwax_key(const uint8_t *list, size_t list_length, uint8_t key_id);

/*
 * Writes configurations given as fields at the front of a buffer: key ids, KEMs and public key lengths, one for each; the key bytes of
 * all; how many pair numbers each has; the pair numbers of all, KDF and AEAD by turns. A KEM, a length or a count that is not there counts as
 * 0. Refusals: 18 where no key id is given; then of each configuration in turn 22, 3 (unknown KEM), 19 (public key of the wrong length, or key
 * bytes that are not there), 20 (pair bytes against their rule, or pair numbers that are not there), 21; 19 for fields that are left over,
 * where one more configuration would start; 14. A place is that of the field in the list that would be written.
 */
sealwax_write_result sealwax_write(const uint8_t *key_ids, size_t key_ids_length, const uint16_t *kems, size_t kems_length,
                                   const size_t *key_lengths, size_t key_lengths_length, const uint8_t *keys, size_t keys_length,
                                   const size_t *pair_counts, size_t pair_counts_length, const uint16_t *pairs, size_t pairs_length,
                                   uint8_t *buffer, size_t buffer_length);

/* ---- the client's side */

/*
 * The first configuration of a list, and of its pairs the first, that the client can use: it knows these KEMs and these pairs, KDF and
 * AEAD by turns. Refusals: 18 to 22, 13, 16.
 */
sealwax_choose_result sealwax_choose(const uint8_t *list, size_t list_length, const uint16_t *kems, size_t kems_length,
                                     const uint16_t *pairs, size_t pairs_length);

/* Writes the head of a request, 7 bytes and enc, and info, 29 bytes, at the fronts of their buffers. Refusals: 3, 6, 13, 14. */
sealwax_head_result sealwax_head(uint8_t key_id, uint16_t kem, uint16_t kdf, uint16_t aead, const uint8_t *enc, size_t enc_length,
                                 uint8_t *head, size_t head_length, uint8_t *info, size_t info_length);

/* The lengths of a response's two parts, nonce and ciphertext. Refusals: 6, 1, 2. */
sealwax_split_result sealwax_split(uint16_t aead, const uint8_t *response, size_t response_length);

/* Writes the exporter context, 22 bytes, at the front of a buffer, and answers the length of the secret to export. Refusals: 6, 14. */
sealwax_exporter_result sealwax_exporter(uint16_t aead, uint8_t *context, size_t context_length);

/* ---- the message inside: a request in binary HTTP of known length (RFC 9292) */

/*
 * Where method, scheme, authority, path, header section, content, trailer section and padding of a request lie, and how many fields each
 * section has. Framing 0; lengths are RFC 9000 integers of any size; a part that is missing at the message's end is empty there. A field name
 * is one or more lower-case token characters of RFC 9110; a value has no NUL, CR or LF and no space or tab at either end; method, scheme,
 * authority, path and content may be any bytes. Refusal: 23, with the first fault. What stands at the place:
 *   the message's length            bytes are missing: of an integer, of a part, or of a section, before its fields are read
 *   0                               the framing is another one
 *   the first byte of an integer    inside a section: a name that is empty, or an integer or its bytes that run past the section's end; where
 *                                   the section ends behind a name, that is the section's end
 *   a byte of a name or a value     it may not stand there; of blanks at a value's end, the last
 *   a byte of the padding           it is not 0
 */
sealwax_request_result sealwax_request(const uint8_t *message, size_t message_length);

/*
 * Where one part of a request lies, by its number of enum sealwax_part; any other number has an empty part at 0. The whole message is checked.
 * Refusal: 23.
 */
sealwax_request_part_result sealwax_request_part(const uint8_t *message, size_t message_length, uint8_t part);

/*
 * The field at a place of a section: pass the message up to the section's end, so section_end, which sealwax_request said of this message, as
 * its length, and as place the section's start or the place behind the field before. Walk while the place is below section_end: at it and
 * above it there is no field, and the answer is 23 at the place. Only lengths are read, since sealwax_request has judged the section; of one
 * that it accepted no field is refused. In any other bytes the answer is the name and value that the lengths say, each place behind the last,
 * or 23 at the integer that runs past the section's end or whose bytes do. Where it is refused, next is 0: stop there.
 */
sealwax_next_field_result sealwax_next_field(const uint8_t *message, size_t section_end, size_t place);

/* ---- sizes */

/* The sizes of the structs above as the library has them. */
sealwax_sizes_result sealwax_sizes(void);

/* Those of the results of sealwax_request, sealwax_request_part and sealwax_next_field. */
sealwax_message_sizes_result sealwax_message_sizes(void);

/*
 * The sizes as this header has them. ./library compiles this header with SEALWAX_SAID_.. set to what these two answer, so a header that
 * does not fit the library does not compile.
 */
SEALWAX_ASSERT(sizeof(sealwax_gateway) == SEALWAX_GATEWAY_SIZE, "sealwax_gateway");
#ifdef SEALWAX_SAID_GATEWAY
SEALWAX_ASSERT(sizeof(sealwax_gateway) == SEALWAX_SAID_GATEWAY, "sealwax_gateway");
SEALWAX_ASSERT(sizeof(sealwax_outcome) == SEALWAX_SAID_OUTCOME, "sealwax_outcome");
SEALWAX_ASSERT(sizeof(sealwax_setup_result) == SEALWAX_SAID_SETUP, "sealwax_setup_result");
SEALWAX_ASSERT(sizeof(sealwax_admit_result) == SEALWAX_SAID_ADMIT, "sealwax_admit_result");
SEALWAX_ASSERT(sizeof(sealwax_open_result) == SEALWAX_SAID_OPEN, "sealwax_open_result");
SEALWAX_ASSERT(sizeof(sealwax_respond_result) == SEALWAX_SAID_RESPOND, "sealwax_respond_result");
SEALWAX_ASSERT(sizeof(sealwax_report_result) == SEALWAX_SAID_REPORT, "sealwax_report_result");
SEALWAX_ASSERT(sizeof(sealwax_check_result) == SEALWAX_SAID_CHECK, "sealwax_check_result");
SEALWAX_ASSERT(sizeof(sealwax_key_result) == SEALWAX_SAID_KEY, "sealwax_key_result");
SEALWAX_ASSERT(sizeof(sealwax_write_result) == SEALWAX_SAID_WRITE, "sealwax_write_result");
SEALWAX_ASSERT(sizeof(sealwax_choose_result) == SEALWAX_SAID_CHOOSE, "sealwax_choose_result");
SEALWAX_ASSERT(sizeof(sealwax_head_result) == SEALWAX_SAID_HEAD, "sealwax_head_result");
SEALWAX_ASSERT(sizeof(sealwax_split_result) == SEALWAX_SAID_SPLIT, "sealwax_split_result");
SEALWAX_ASSERT(sizeof(sealwax_exporter_result) == SEALWAX_SAID_EXPORTER, "sealwax_exporter_result");
SEALWAX_ASSERT(sizeof(sealwax_request_result) == SEALWAX_SAID_REQUEST, "sealwax_request_result");
SEALWAX_ASSERT(sizeof(sealwax_request_part_result) == SEALWAX_SAID_REQUEST_PART, "sealwax_request_part_result");
SEALWAX_ASSERT(sizeof(sealwax_next_field_result) == SEALWAX_SAID_NEXT_FIELD, "sealwax_next_field_result");
#endif

#undef SEALWAX_ASSERT

#ifdef __cplusplus
}
#endif

#endif
