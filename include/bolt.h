/* bolt.h: the proved driver of Bolt 4.4, 5.0 and 5.1, for C and for languages that call C.
 *
 * The library does no input or output. It gives the caller bytes to send, and takes the bytes that the caller receives, in pieces of any size.
 * It keeps an account of each request: its outcome, its summary and its rows. If the connection breaks, the account says of each pending request
 * whether the server may have committed it (BOLT_UNKNOWN) or can't have (BOLT_LOST).
 *
 *     bolt_client c = {0};
 *     if (bolt_open(&c, BOLT_NEWEST, 1000) != BOLT_OK) ..;
 *     if (bolt_ask(&c, message, length, &asked) != BOLT_OK) ..;        (once bolt_state gives a version)
 *     while (bolt_unsent(&c, buffer, sizeof buffer, &n) == BOLT_OK && n) {
 *         ssize_t went = send(fd, buffer, n < sizeof buffer ? n : sizeof buffer, MSG_NOSIGNAL);
 *         if (went < 0) ..; else bolt_sent(&c, (size_t)went);          (a send that failed has sent nothing)
 *     }
 *     size_t got = (size_t)recv(fd, buffer, sizeof buffer, 0) ..;      (at its end, or if it fails: bolt_lose)
 *     if (bolt_feed(&c, buffer, got, &used) != BOLT_OK) bolt_lose(&c);
 *     bolt_outcome(&c, asked.ordinal, &outcome);                       (BOLT_WAITS, BOLT_COMMITTED, ..)
 *     for (uint64_t i = 0; (code = bolt_row(&c, ordinal, i, row, sizeof row, &n)) == BOLT_OK; i++)
 *         for (size_t at = 0; bolt_value_at(row, n, &at, &value) == BOLT_OK;) ..;     (row has BOLT_MESSAGE bytes)
 *     if (code == BOLT_MEMORY) ..; else bolt_drop_rows(&c, ordinal);   (if used < got, feed the rest now)
 *     bolt_close(&c);
 *
 * The caller must keep these rules. Nothing checks them:
 * - A handle is {0} before its first call. It is used by one call at a time. Any thread may call, if a lock or a join orders
 *   the calls of two threads.
 * - Only these calls read, write or copy a handle.
 * - Each pointer is to as many items as the call says, is aligned for them, and isn't null, also if there are no items.
 * - No two pointers of one call overlap.
 * - malloc, realloc and free belong to one allocator, and their blocks are aligned as C requires.
 *
 * Under these rules it is proved, for all input:
 * - No call reads or writes outside the memory that it was given, overflows or ends the process.
 * - If an allocation is refused, the call returns BOLT_MEMORY. Nothing has changed except what bolt_feed has used.
 * - Each call changes the handle's client as its contract says.
 * - With a null handle bolt_open makes a client and bolt_close does nothing. Each other call returns BOLT_NO_CLIENT and leaves the handle null.
 * - If a call returns another code than BOLT_OK, its outputs are unchanged, except the rule and the place of bolt_ask and `used` of bolt_feed.
 */
#ifndef BOLT_H
#define BOLT_H

#include <stddef.h>
#include <stdint.h>

#ifdef __cplusplus
extern "C" {
#endif

/* A client and its account; none if `at` is null. */
typedef struct { void *at; } bolt_client;

/* The codes that calls return. */
enum {
    BOLT_OK = 0,
    BOLT_NOT_ALLOWED = 1,  /* when the request arrives, the session may be in a phase that doesn't allow it (other than DEFUNCT), or only in
                            * DEFUNCT; or no version is known; from bolt_settle: a request is pending */
    BOLT_FULL = 2,         /* 32 requests are pending, or no ordinal is left */
    BOLT_SIZE = 3,         /* the request's message takes more than 65,536 bytes */
    BOLT_CLOSED = 4,       /* the client has ended */
    BOLT_MEMORY = 5,       /* an allocation was refused */
    BOLT_BAD_PEER = 6,     /* the server broke the protocol; the client has ended */
    BOLT_UNWRITABLE = 7,   /* the request can't be encoded at the version; the same for a row or a summary */
    BOLT_NO_REQUEST = 8,   /* the bytes are no request of the version */
    BOLT_NOT_HEARD = 9,    /* the account has no such row or summary */
    BOLT_NO_VERSION = 10,  /* no version has this number */
    BOLT_NO_VALUE = 11,    /* no value begins at the offset, or it is cut off */
    BOLT_TOO_LARGE = 12,   /* the server sent a message of more than 65,536 bytes, which other servers may do; the client has ended */
    BOLT_NO_CLIENT = 100   /* the handle is null */
};

/* The versions that a client offers: all, the newest first, or one. */
enum { BOLT_NEWEST = 0, BOLT_4_4 = 44, BOLT_5_0 = 50, BOLT_5_1 = 51 };

/* The phases of a session. */
enum { BOLT_FRESH, BOLT_UNAUTH, BOLT_READY, BOLT_STREAMING, BOLT_TX_READY, BOLT_TX_STREAMING, BOLT_HALTED, BOLT_DEFUNCT };

/* What became of a request. */
enum {
    BOLT_DONE,       /* SUCCESS, and the request commits nothing by itself */
    BOLT_COMMITTED,  /* SUCCESS, and the server has committed */
    BOLT_REFUSED,    /* FAILURE: the request committed nothing. Another vendor's server may not mean this of a COMMIT */
    BOLT_IGNORED,    /* IGNORED: after a failure, or before a RESET */
    BOLT_LOST,       /* no summary came, and the request committed nothing */
    BOLT_UNKNOWN,    /* no summary came, and the request may have committed */
    BOLT_WAITS       /* not known: the request is pending, or the account has no request with this ordinal */
};

/* The result of bolt_ask. docs/PROFILE.md has the rules. */
typedef struct {
    uint64_t ordinal;  /* BOLT_OK: the request's number, from 0 */
    uint64_t rule;     /* NO_REQUEST, UNWRITABLE: the rule that the message breaks, two characters, such as 'M' << 8 | '5'. BOLT_OK: 0 */
    uint64_t place;    /* where it breaks the rule, from 0:
                        * M2 to M8: 0.
                        * S1 to S6: the number of a structure in the parameters or the metadata, in the order in which structures begin.
                        * NO_REQUEST, P1 to P6: the offset in the message of the marker of the value that can't be decoded.
                        * NO_REQUEST, P7: the offset of the first byte after the message.
                        * UNWRITABLE, P5, P6 and P9: the number of a value, in the order in which values begin; keys aren't counted. */
} bolt_asked;

/* The state of a client. */
typedef struct {
    uint64_t first;      /* the ordinal of the first pending request; if none is pending, of the next request;
                          * after bolt_lose, of the first that was pending */
    uint32_t pending;    /* the number of pending requests, at most 32 */
    uint32_t phase;      /* the phase after the last summary, BOLT_FRESH before the first */
    uint32_t version;    /* 44, 50, 51, or 0 if it isn't known */
    uint32_t has_ended;  /* 1 if the client has ended: by itself, by a bad answer, or by bolt_lose */
    uint32_t awaits;     /* 1 if an answer is due */
    uint32_t padding;
} bolt_standing;

/* Kinds of values. */
enum { BOLT_NULL, BOLT_BOOL, BOLT_INT, BOLT_FLOAT, BOLT_BYTES, BOLT_TEXT, BOLT_LIST, BOLT_DICT, BOLT_STRUCTURE };

/* A value, or the head of one that has members. A field that doesn't belong to the kind is 0. */
typedef struct {
    uint32_t kind;    /* BOLT_NULL, .. */
    uint32_t tag;     /* of a structure */
    int64_t integer;  /* of BOLT_BOOL 0 or 1, of BOLT_INT the integer */
    double real;      /* of BOLT_FLOAT, by its 64 bits */
    size_t at;        /* of bytes and of a text, the offset of the first byte in the input */
    size_t count;     /* the number of bytes; of a list, of members; of a dictionary, of entries; of a structure, of fields */
} bolt_value;

/* Creates a client in the handle, and frees the one before. Its offer is ready in bolt_unsent. At most `rows` rows of each request are kept
 * until they are dropped. Errors: NO_VERSION, MEMORY. */
uint32_t bolt_open(bolt_client *c, uint32_t versions, size_t rows);

/* Frees the client. The handle is null after it; a null handle stays null. */
void bolt_close(bolt_client *c);

/* Accepts a request: the bytes of its message in PackStream without chunks, such as B1 11 A0 for BEGIN. It is decoded and encoded again, so
 * entries that the profile doesn't name (db, bookmarks, tx_timeout ..) aren't sent. The result is added to the unsent bytes. Up to 32 requests
 * may be pending. Errors: CLOSED, NOT_ALLOWED, NO_REQUEST, FULL, UNWRITABLE, SIZE, MEMORY. NO_REQUEST and UNWRITABLE leave `ordinal` unchanged. */
uint32_t bolt_ask(bolt_client *c, const uint8_t *message, size_t length, bolt_asked *asked);

/* Copies up to `room` unsent bytes, and sets `length` to the number of all. They stay until bolt_sent. Takes no memory. */
uint32_t bolt_unsent(bolt_client *c, uint8_t *into, size_t room, size_t *length);

/* Removes the first `count` unsent bytes, or all if there are fewer. Takes no memory. */
uint32_t bolt_sent(bolt_client *c, size_t count);

/* Takes bytes of the server, item by item, into the account, and sets `used` to the number of bytes taken, whatever the code. BOLT_OK with fewer
 * than all bytes comes only if one request is pending and `rows` of its rows are held: drop them, and feed the rest. If more requests are pending,
 * rows past `rows` are counted and not kept. Errors: CLOSED, and BAD_PEER and TOO_LARGE for the bytes after the used ones; after MEMORY feed
 * those again. No bytes: BOLT_OK. */
uint32_t bolt_feed(bolt_client *c, const uint8_t *piece, size_t length, size_t *used);

/* Sets `outcome` to what became of a request, BOLT_WAITS while that isn't known. Takes no memory. */
uint32_t bolt_outcome(bolt_client *c, uint64_t ordinal, uint32_t *outcome);

/* Copies up to `room` bytes of a request's summary, in PackStream (B1 70 SUCCESS, B0 7E IGNORED, B1 7F FAILURE), and sets `length` to its size, at
 * most BOLT_MESSAGE. Errors: NOT_HEARD, UNWRITABLE; after MEMORY call it again. */
uint32_t bolt_response(bolt_client *c, uint64_t ordinal, uint8_t *into, size_t room, size_t *length);
enum { BOLT_MESSAGE = 65536 };

/* Counts the rows of a request that are held, and those after them that weren't kept: 0 and 0 if the account has no such request.
 * Takes no memory. */
uint32_t bolt_rows(bolt_client *c, uint64_t ordinal, uint64_t *held, uint64_t *left);

/* Copies a held row, the first at index 0, as bolt_response does (B1 71 and a list). Also NOT_HEARD if there is none at the index. */
uint32_t bolt_row(bolt_client *c, uint64_t ordinal, uint64_t index, uint8_t *into, size_t room, size_t *length);

/* Frees the rows of a request. More of them may come while it is pending. Takes no memory. */
uint32_t bolt_drop_rows(bolt_client *c, uint64_t ordinal);

/* Decodes the PackStream value at the offset *at of a message's bytes, and moves *at to the end of it. For a list, a dictionary and a structure it
 * decodes only the head, so the members come next (of a dictionary a key, its value, a key ..). It doesn't check that a text is UTF-8; those of
 * rows and summaries are. Error: NO_VALUE if no value begins there (also at the end), or it is cut off. Takes no handle and no memory. */
uint32_t bolt_value_at(const uint8_t *bytes, size_t length, size_t *at, bolt_value *value);

/* Ends the client, because no more bytes come. The account then has the outcome of each request that was pending. A second call changes nothing.
 * Takes no memory. */
uint32_t bolt_lose(bolt_client *c);

/* Removes all outcomes, summaries and rows, so that the account doesn't grow. Error: NOT_ALLOWED if a request is pending. Takes no memory. */
uint32_t bolt_settle(bolt_client *c);

/* Fills in the client's state. Takes no memory. */
uint32_t bolt_state(bolt_client *c, bolt_standing *state);

#ifdef __cplusplus
}
#endif
#endif
