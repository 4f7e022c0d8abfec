/* The access node's card of ANCP multicast control (RFC 6320, RFC 7256), for a host in C11 or C++11 on.

   The host keeps the card and the start's tables in its own memory, and a call updates the card there. Its one duty: it
   hands each call the card as the last call left it, lends the same tables that it gave to ancp_card_start, and lets
   nobody else write either. Everything else that is wrong gets a number: the card's below 100, this header's own from
   100 on.

   Threads: a card is nobody else's during a call, and nobody writes its tables then. Nothing is shared between cards:
   separate cards may be called at the same time, also on the same tables. Readers of one card may run side by side, but
   not beside a call on it.

   Across a restart no transaction number may come out twice as long as a server may still answer: see "a restart"
   below.

   Link with libancp_card.a (`make` makes it by `tools/library exports`), whose functions of the card are proved; the
   inline functions here look at pointers and hand the arguments on. Names as text are in ancp_text.h. */
#ifndef ANCP_CARD_H
#define ANCP_CARD_H

#if !defined(__x86_64__) || !defined(__LP64__) || !defined(__linux__) || __BYTE_ORDER__ != __ORDER_LITTLE_ENDIAN__
#error "ancp_card.h: the library is for x86-64 Linux (64-bit pointers, little-endian)"
#endif
#if defined(__cplusplus) ? __cplusplus < 201103L : __STDC_VERSION__ < 201112L
#error "ancp_card.h: C11 or C++11 is needed"
#endif

#include <stdbool.h>
#include <stddef.h>
#include <stdint.h>
#include <string.h>

#ifdef __cplusplus
extern "C" {
#define ANCP_ASSERT(what, text) static_assert(what, text);
#define ANCP_ALIGNOF(type) alignof(type)
#define ANCP_ENUM(name) enum name : uint32_t
#else
#define ANCP_ASSERT(what, text) _Static_assert(what, text);
#define ANCP_ALIGNOF(type) _Alignof(type)
#define ANCP_ENUM(name) enum name
#endif

/* ---- the version: what the library says is ancp_card_version(), and a start refuses another one */
#define ANCP_VERSION "0.1.2"
#define ANCP_VERSION_NUMBER 102u

/* ---- what comes back from a call */
typedef ANCP_ENUM(ancp_number) {
    ANCP_DONE = 0,                 /* done; reply length 0 if none is due */
    ANCP_ACTIVE = 1,               /* flow active already */
    ANCP_GREY = 2,                 /* grey: Admission Control message (145) written, ports and flows kept */
    ANCP_IGNORED = 3,              /* black or matched by no entry */
    ANCP_RATE = 4,                 /* rate does not fit */
    ANCP_NO_ROOM = 5,              /* no record room */
    ANCP_PORT_DOWN = 6,
    ANCP_NO_PORT = 7,
    ANCP_BAD_FLOW = 8,             /* bad flow address */
    ANCP_NOT_LISTED = 9,           /* channel not listed */
    ANCP_NOT_ACTIVE = 10,          /* flow not active */
    ANCP_UNDER_COMMITTED = 11,     /* delegation under committed */
    ANCP_FIGURES = 12,             /* figures wrong, or a request is open */
    ANCP_SMALL_BUFFER = 13,        /* reply buffer under ANCP_REPLY octets */
    ANCP_BAD_START = 14,           /* start tables, sizes or first transaction number bad */
    ANCP_UNUSABLE = 15,            /* message unusable */
    ANCP_NOT_ASKED = 16,           /* no open request answered by this */
    /* the header's own: nothing is done, and nothing is written but a reply length of 0 */
    ANCP_NULL = 100,               /* a pointer is NULL */
    ANCP_MISALIGNED = 101,         /* a pointer is to no place where its type may lie */
    ANCP_OVERLAP = 102,            /* what is written (card, reply, length) overlaps another argument */
    ANCP_NOT_STARTED = 103,        /* the card was not started */
    ANCP_OTHER_VERSION = 104,      /* header and library are of different versions */
    ANCP_NO_ROW = 105,             /* row beyond the table */
    ANCP_BAD_LENGTH = 106,         /* circuit id not of 1 to 63 octets, or prefix longer than an address */
    ANCP_BAD_TEXT = 107            /* text is no address, or group and source are of two families */
} ancp_number;

/* ---- sizes */
enum {
    ANCP_PORTS = 64, ANCP_CHANNELS = 256, ANCP_ENTRIES = 128, ANCP_REPLY = 4608, ANCP_MESSAGE = 4096,
    ANCP_ID_ROW = 64, ANCP_CHANNEL_ROW = 11, ANCP_ENTRY_ROW = 12 /* octets, words, words of a table's row */
};
typedef ANCP_ENUM(ancp_family) { ANCP_IPV4 = 1, ANCP_IPV6 = 2 } ancp_family;
typedef ANCP_ENUM(ancp_list) { ANCP_LIST_WHITE = 1, ANCP_LIST_BLACK = 2, ANCP_LIST_GREY = 3 } ancp_list;

/* An address is four words, the highest first; IPv4 has the first, and the others zero. `sourced` is 1 where there is a
   source; else it is 0 and the source's words are zero. ancp_text.h makes a flow of text. */
typedef struct { ancp_family family; uint32_t sourced, group[4], source[4]; } ancp_flow;

/* ---- the start's tables: fill them once, lend them with every call */
typedef struct {
    /* a row: the circuit id's length (1 to 63), then the id */
    uint8_t ids[ANCP_PORTS * ANCP_ID_ROW];
    /* a row: family, sourced, rate (1 to 10,000,000 kbit/s), group (4), source (4) */
    uint32_t channels[ANCP_CHANNELS * ANCP_CHANNEL_ROW];
    /* a row: family, list, group prefix length, source prefix length, group (4), source (4) */
    uint32_t entries[ANCP_ENTRIES * ANCP_ENTRY_ROW];
} ancp_tables;

/* ---- the card: the host keeps it, and reads and writes nothing of it but through the functions below. It holds no
   pointer: a copy of it is a card. What is `unused` is zero: cards that are equal are equal octet by octet. */
typedef struct { bool up, asking; uint16_t unused; uint32_t delegation, required, preferred, transaction; } ancp_port;
typedef struct { uint8_t owner[512], channel[512]; bool charged[512]; uint8_t accounting[512]; } ancp_pool;
typedef struct { uint32_t number; } ancp_counter;
typedef struct {
    size_t port_count, channel_count, entry_count;
    ancp_counter counter;
    bool white_cac, add_cac;
    uint16_t unused;
} ancp_head;
typedef struct { ancp_port ports[ANCP_PORTS]; ancp_pool pool; ancp_head head; } ancp_core;

/* `started` tells a card from other memory: a start that is taken writes ANCP_STARTED. Arrays that are lent beside the
   core stand after it. */
typedef struct { ancp_core core; uint64_t started; } ancp_card;
#define ANCP_STARTED (UINT64_C(0x414E435043415244) + ANCP_VERSION_NUMBER)

/* the channels of a port's active flows in order: the first `count` of `rows` */
typedef struct { size_t count; uint8_t rows[16]; } ancp_rows;

/* a call with its arguments; `amount` is the delegation that is set, or what is required when the host asks */
typedef struct { uint8_t which, unused[7]; size_t port; uint32_t amount, preferred; ancp_flow flow; } ancp_call;
typedef struct { uint8_t number, unused[7]; size_t length; } ancp_answer;

/* the open request; zeros where none is open */
typedef struct { bool asking; uint8_t unused[3]; uint32_t required, preferred, transaction; } ancp_request;

/* a flow on a port: active or not, charged or not, its accounting (0 where it is not active) */
typedef struct { bool active, charged; uint8_t accounting; } ancp_flow_state;

/* Why a start gives ANCP_BAD_START: the first test that fails, by table, row and field. The order: ports (count; each
   row: length, same), channels (count; each row: rate, family, group, source, same), entries (count; each row: family,
   list, group length, source length), first number. */
typedef struct { size_t row; uint8_t table, field, unused[6]; } ancp_fault;
enum {
    ANCP_TABLE_NONE = 0, ANCP_TABLE_PORTS = 1, ANCP_TABLE_CHANNELS = 2, ANCP_TABLE_ENTRIES = 3, ANCP_TABLE_FIRST = 4
};
enum {
    ANCP_FIELD_NONE = 0,
    ANCP_FIELD_COUNT = 1,          /* more rows than the table has (64, 256, 128); row is 0 */
    ANCP_FIELD_LENGTH = 2,         /* ports: the circuit id has not 1 to 63 octets */
    ANCP_FIELD_SAME = 3,           /* ports, channels: an earlier row has the same id, is the same flow */
    ANCP_FIELD_RATE = 4,           /* channels: not 1 to 10,000,000 */
    ANCP_FIELD_FAMILY = 5,         /* channels, entries: neither 1 nor 2 */
    ANCP_FIELD_GROUP = 6,          /* channels: no group of the family, or words beyond its width */
    ANCP_FIELD_SOURCE = 7,         /* channels: `sourced` or source not good */
    ANCP_FIELD_LIST = 8,           /* entries: not 1 to 3 */
    ANCP_FIELD_GROUP_LENGTH = 9,   /* entries: group prefix longer than an address of the family */
    ANCP_FIELD_SOURCE_LENGTH = 10, /* entries: the same of the source prefix */
    ANCP_FIELD_NUMBER = 11         /* first: the first transaction number is not 1 to 16,777,215; row is 0 */
};

/* ---- the layout: each struct with size and alignment, each field with its place and size. The assertions hold this
   compiler to it (`#pragma pack` before this line is an error), host/layout.c the proved code. */
#define ANCP_LAYOUT(STRUCT, FIELD) \
    STRUCT(ancp_flow, 40, 4) FIELD(ancp_flow, family, 0, 4) FIELD(ancp_flow, sourced, 4, 4) \
    FIELD(ancp_flow, group, 8, 16) FIELD(ancp_flow, source, 24, 16) \
    STRUCT(ancp_tables, 21504, 4) FIELD(ancp_tables, ids, 0, 4096) FIELD(ancp_tables, channels, 4096, 11264) \
    FIELD(ancp_tables, entries, 15360, 6144) \
    STRUCT(ancp_port, 20, 4) FIELD(ancp_port, up, 0, 1) FIELD(ancp_port, asking, 1, 1) FIELD(ancp_port, unused, 2, 2) \
    FIELD(ancp_port, delegation, 4, 4) FIELD(ancp_port, required, 8, 4) FIELD(ancp_port, preferred, 12, 4) \
    FIELD(ancp_port, transaction, 16, 4) \
    STRUCT(ancp_pool, 2048, 1) FIELD(ancp_pool, owner, 0, 512) FIELD(ancp_pool, channel, 512, 512) \
    FIELD(ancp_pool, charged, 1024, 512) FIELD(ancp_pool, accounting, 1536, 512) \
    STRUCT(ancp_counter, 4, 4) FIELD(ancp_counter, number, 0, 4) \
    STRUCT(ancp_head, 32, 8) FIELD(ancp_head, port_count, 0, 8) FIELD(ancp_head, channel_count, 8, 8) \
    FIELD(ancp_head, entry_count, 16, 8) FIELD(ancp_head, counter, 24, 4) FIELD(ancp_head, white_cac, 28, 1) \
    FIELD(ancp_head, add_cac, 29, 1) FIELD(ancp_head, unused, 30, 2) \
    STRUCT(ancp_core, 3360, 8) FIELD(ancp_core, ports, 0, 1280) FIELD(ancp_core, pool, 1280, 2048) \
    FIELD(ancp_core, head, 3328, 32) \
    STRUCT(ancp_card, 3368, 8) FIELD(ancp_card, core, 0, 3360) FIELD(ancp_card, started, 3360, 8) \
    STRUCT(ancp_rows, 24, 8) FIELD(ancp_rows, count, 0, 8) FIELD(ancp_rows, rows, 8, 16) \
    STRUCT(ancp_call, 64, 8) FIELD(ancp_call, which, 0, 1) FIELD(ancp_call, unused, 1, 7) FIELD(ancp_call, port, 8, 8) \
    FIELD(ancp_call, amount, 16, 4) FIELD(ancp_call, preferred, 20, 4) FIELD(ancp_call, flow, 24, 40) \
    STRUCT(ancp_answer, 16, 8) FIELD(ancp_answer, number, 0, 1) FIELD(ancp_answer, unused, 1, 7) \
    FIELD(ancp_answer, length, 8, 8) \
    STRUCT(ancp_request, 16, 4) FIELD(ancp_request, asking, 0, 1) FIELD(ancp_request, unused, 1, 3) \
    FIELD(ancp_request, required, 4, 4) FIELD(ancp_request, preferred, 8, 4) FIELD(ancp_request, transaction, 12, 4) \
    STRUCT(ancp_flow_state, 3, 1) FIELD(ancp_flow_state, active, 0, 1) FIELD(ancp_flow_state, charged, 1, 1) \
    FIELD(ancp_flow_state, accounting, 2, 1) \
    STRUCT(ancp_fault, 16, 8) FIELD(ancp_fault, row, 0, 8) FIELD(ancp_fault, table, 8, 1) \
    FIELD(ancp_fault, field, 9, 1) FIELD(ancp_fault, unused, 10, 6)

#define ANCP_STRUCT_IS(type, size, align) \
    ANCP_ASSERT(sizeof(type) == (size) && ANCP_ALIGNOF(type) == (align), \
                #type " does not lie as in the library (#pragma pack?)")
#define ANCP_FIELD_IS(type, field, at, size) \
    ANCP_ASSERT(offsetof(type, field) == (at) && sizeof(((type *)0)->field) == (size), \
                #type "." #field " does not lie as in the library")
ANCP_LAYOUT(ANCP_STRUCT_IS, ANCP_FIELD_IS)

/* ---- the tables' rows. Number 0, or the row is kept; what else may be wrong in a row ancp_card_start_fault tells. */
static inline ancp_number ancp_set_port(ancp_tables *t, size_t p, const void *id, size_t length) {
    uint8_t row[ANCP_ID_ROW] = {0};
    if (!t || !id) return ANCP_NULL;
    if (p >= ANCP_PORTS) return ANCP_NO_ROW;
    if (length < 1 || length >= ANCP_ID_ROW) return ANCP_BAD_LENGTH;
    row[0] = (uint8_t)length;
    memcpy(row + 1, id, length);
    memcpy(t->ids + p * ANCP_ID_ROW, row, sizeof row);
    return ANCP_DONE;
}

static inline ancp_number ancp_set_channel(ancp_tables *t, size_t k, const ancp_flow *f, uint32_t rate) {
    uint32_t row[ANCP_CHANNEL_ROW];
    if (!t || !f) return ANCP_NULL;
    if (k >= ANCP_CHANNELS) return ANCP_NO_ROW;
    row[0] = f->family;
    row[1] = f->sourced;
    row[2] = rate;
    memcpy(row + 3, f->group, sizeof f->group);
    memcpy(row + 7, f->source, sizeof f->source);
    memcpy(t->channels + k * ANCP_CHANNEL_ROW, row, sizeof row);
    return ANCP_DONE;
}

/* prefix gives family, group and source; the lengths are in bits. Of the entries that match a flow those with the longest
   group prefix decide, of these those with the longest source prefix, of these black before grey before white; the
   order of the rows does not matter. */
static inline ancp_number ancp_set_entry(ancp_tables *t, size_t i, ancp_list list, const ancp_flow *prefix,
                                         uint32_t group_bits, uint32_t source_bits) {
    uint32_t row[ANCP_ENTRY_ROW], bits;
    if (!t || !prefix) return ANCP_NULL;
    if (i >= ANCP_ENTRIES) return ANCP_NO_ROW;
    bits = prefix->family == ANCP_IPV4 ? 32 : 128;
    if (group_bits > bits || source_bits > bits) return ANCP_BAD_LENGTH;
    row[0] = prefix->family;
    row[1] = list;
    row[2] = group_bits;
    row[3] = source_bits;
    memcpy(row + 4, prefix->group, sizeof prefix->group);
    memcpy(row + 8, prefix->source, sizeof prefix->source);
    memcpy(t->entries + i * ANCP_ENTRY_ROW, row, sizeof row);
    return ANCP_DONE;
}

/* ---- the proved functions: they trust their pointers; a host calls the functions further down */
enum {
    ANCP_CALL_UP = 0, ANCP_CALL_DOWN = 1, ANCP_CALL_DELEGATION = 2, ANCP_CALL_JOIN = 3, ANCP_CALL_LEAVE = 4,
    ANCP_CALL_ASK = 5, ANCP_CALL_MESSAGE = 255
};

uint32_t ancp_card_version(void);

/* 0 where a start takes the tables and the first number, and else 14 */
uint8_t ancp_card_start_number(const uint8_t *ids, size_t ports, const uint32_t *channels, size_t channel_count,
                               const uint32_t *entries, size_t entry_count, uint32_t first);

/* The parts of a fresh card, written where they lie: a port's record, the pool's maps, the head. They are written over
   parts that are valid, as zeros are. */
void ancp_port_fresh_in(ancp_port *x);
void ancp_pool_fresh_in(uint8_t *owner, uint8_t *channel, bool *charged, uint8_t *accounting);
void ancp_head_fresh_in(ancp_head *head, size_t ports, size_t channel_count, size_t entry_count, bool white_cac,
                        bool add_cac, uint32_t first);

/* table 0 exactly where a start gives 0 */
ancp_fault ancp_start_fault(const uint8_t *ids, size_t ports, const uint32_t *channels, size_t channel_count,
                            const uint32_t *entries, size_t entry_count, uint32_t first);

/* Any call: *core and the start of `reply` are written, nothing else; *call lies outside both. Nothing of the core is
   copied but one port's record and its head (counts, counter, switches). */
ancp_answer ancp_card_call(ancp_core *core, const ancp_call *call, const uint8_t *ids, const uint32_t *channels,
                           const uint32_t *entries, const uint8_t *octets, size_t n, uint8_t *reply, size_t space);

/* The readers are lent maps of the pool (owner, channel, charged, accounting) where they lie. x is the record of port
   p, and any record where p is no port's. */
bool ancp_card_up_in(ancp_port x, size_t port_count, size_t p);
uint32_t ancp_card_delegation_in(ancp_port x, size_t port_count, size_t p);
ancp_request ancp_card_request_in(ancp_port x, size_t port_count, size_t p);
uint64_t ancp_card_committed_in(const uint8_t *owner, const uint8_t *channel, const bool *charged,
                                const uint32_t *channels, size_t port_count, size_t p);
ancp_rows ancp_card_flows_in(const uint8_t *owner, const uint8_t *channel, const uint32_t *channels, size_t port_count,
                             size_t p);
bool ancp_card_active_in(const uint8_t *owner, const uint8_t *channel, const uint32_t *channels, size_t port_count,
                         size_t channel_count, size_t p, ancp_flow f);
ancp_flow_state ancp_card_flow_in(const uint8_t *owner, const uint8_t *channel, const bool *charged,
                                  const uint8_t *accounting, const uint32_t *channels, size_t port_count,
                                  size_t channel_count, size_t p, ancp_flow f);
ancp_flow_state ancp_card_row_in(const uint8_t *owner, const uint8_t *channel, const bool *charged,
                                 const uint8_t *accounting, size_t port_count, size_t p, uint8_t k);
size_t ancp_card_extras_in(const uint8_t *owner);
uint32_t ancp_card_next_in(ancp_counter counter);

/* ---- a restart
   An old grant must not answer a new question: a number that may have been sent must not be sent again, also not by the
   card of the next start, as long as a server may still answer. So what is stored is stored BEFORE a message is sent. A
   host that cannot write its flash at each grey join keeps a limit there: no number from the limit on has been sent.
   - At start: take the stored limit as `first`, and store ancp_number_after(limit, BLOCK), the new limit, before
     ancp_card_start. On a new card the first number is 1.
   - Before each join and each ask (they alone take a number, one each), when few are left, and always when
     ancp_numbers_left(ancp_card_next_transaction(&card), limit) is 0: store the limit moved on by a block, then call.
   The circle has 16,777,215 numbers; a restart skips those that are left. host/example.c does this with a file. */

/* The number `by` places after `number`; after 16,777,215 comes 1. 0 where `number` is no transaction number (0, or
   above 16,777,215). */
uint32_t ancp_number_after(uint32_t number, uint32_t by);

/* How many numbers from `number` on, around the circle, come before `limit`: 0 where they are equal, or where one of
   them is no transaction number. */
uint32_t ancp_numbers_left(uint32_t number, uint32_t limit);

/* ---- pointers */

/* n octets from a and m octets from b have one in common; neither is empty */
static inline bool ancp_overlap(const void *a, size_t n, const void *b, size_t m) {
    uintptr_t x = (uintptr_t)a, y = (uintptr_t)b;
    return x < y ? y - x < n : x - y < m;
}

/* number 0, or what is wrong with the pointers to a card and to its tables */
static inline ancp_number ancp_placed(const ancp_card *card, const ancp_tables *t) {
    if (!card || !t) return ANCP_NULL;
    if ((uintptr_t)card % ANCP_ALIGNOF(ancp_card) || (uintptr_t)t % ANCP_ALIGNOF(ancp_tables)) return ANCP_MISALIGNED;
    if (ancp_overlap(card, sizeof *card, t, sizeof *t)) return ANCP_OVERLAP;
    return ANCP_DONE;
}

/* `length` may be written, and is nothing else's */
static inline ancp_number ancp_length_placed(const ancp_card *card, const ancp_tables *t, const uint8_t *octets,
                                             size_t n, const uint8_t *reply, size_t space, const size_t *length) {
    if ((uintptr_t)length % ANCP_ALIGNOF(size_t)) return ANCP_MISALIGNED;
    if (ancp_overlap(length, sizeof *length, card, sizeof *card) ||
        ancp_overlap(length, sizeof *length, t, sizeof *t) || (n && ancp_overlap(length, sizeof *length, octets, n)) ||
        (space && ancp_overlap(length, sizeof *length, reply, space)))
        return ANCP_OVERLAP;
    return ANCP_DONE;
}

/* number 0, or what is wrong with a call's pointers; a message or a buffer of no octets may be NULL */
static inline ancp_number ancp_buffers_placed(const ancp_card *card, const ancp_tables *t, const uint8_t *octets,
                                              size_t n, const uint8_t *reply, size_t space) {
    ancp_number placed = ancp_placed(card, t);
    if (placed != ANCP_DONE) return placed;
    if ((n && !octets) || (space && !reply)) return ANCP_NULL;
    if (n && ancp_overlap(card, sizeof *card, octets, n)) return ANCP_OVERLAP;
    if (space && (ancp_overlap(card, sizeof *card, reply, space) || ancp_overlap(t, sizeof *t, reply, space)))
        return ANCP_OVERLAP;
    if (n && space && ancp_overlap(octets, n, reply, space)) return ANCP_OVERLAP;
    return card->started == ANCP_STARTED ? ANCP_DONE : ANCP_NOT_STARTED;
}

/* ---- for the host. Each call updates *card and returns its number; `length`, if it is not NULL, gets how many octets
   of reply are written, and beyond them the buffer is kept. Numbers 1, 3 to 16 and those from 100 on keep card and
   buffer. */
static inline ancp_number ancp_calls(ancp_card *card, const ancp_tables *t, const ancp_call *call,
                                     const uint8_t *octets, size_t n, uint8_t *reply, size_t space, size_t *length) {
    uint8_t none = 0;
    ancp_answer answer;
    ancp_number placed;
    if (length) {
        placed = ancp_length_placed(card, t, octets, n, reply, space, length);
        if (placed != ANCP_DONE) return placed;
        *length = 0;
    }
    placed = ancp_buffers_placed(card, t, octets, n, reply, space);
    if (placed != ANCP_DONE) return placed;
    if (!call) return ANCP_NULL;
    answer = ancp_card_call(&card->core, call, t->ids, t->channels, t->entries, n ? octets : &none, n,
                            space ? reply : &none, space);
    card->core.head.unused = 0; /* the head is written whole */
    if (length) *length = answer.length;
    return (ancp_number)answer.number;
}

static inline void ancp_call_of(ancp_call *call, uint8_t which, size_t p, uint32_t amount, uint32_t preferred) {
    memset(call, 0, sizeof *call);
    call->which = which;
    call->port = p;
    call->amount = amount;
    call->preferred = preferred;
}

/* a call about a port alone, and one about a flow of it */
static inline ancp_number ancp_call_on_port(ancp_card *card, const ancp_tables *t, uint8_t which, size_t p,
                                            uint32_t amount) {
    ancp_call call;
    ancp_call_of(&call, which, p, amount, 0);
    return ancp_calls(card, t, &call, NULL, 0, NULL, 0, NULL);
}
static inline ancp_number ancp_call_on_flow(ancp_card *card, const ancp_tables *t, uint8_t which, size_t p,
                                            const ancp_flow *f, uint8_t *reply, size_t space, size_t *length) {
    ancp_call call;
    ancp_call_of(&call, which, p, 0, 0);
    if (f) memcpy(&call.flow, f, sizeof call.flow);
    return ancp_calls(card, t, f ? &call : NULL, NULL, 0, reply, space, length);
}

/* A fresh card, written where it lies. */
static inline void ancp_card_fresh(ancp_card *card, size_t ports, size_t channels, size_t entries, bool white_cac,
                                   bool add_cac, uint32_t first) {
    ancp_pool *pool = &card->core.pool;
    memset(card, 0, sizeof *card);
    for (size_t p = 0; p < ANCP_PORTS; p++) ancp_port_fresh_in(&card->core.ports[p]);
    ancp_pool_fresh_in(pool->owner, pool->channel, pool->charged, pool->accounting);
    ancp_head_fresh_in(&card->core.head, ports, channels, entries, white_cac, add_cac, first);
    card->started = ANCP_STARTED;
}

/* Takes the tables, or answers ANCP_BAD_START (ancp_card_start_fault tells why) and leaves *card as it was; what *card
   held before is not read. */
static inline ancp_number ancp_card_start(ancp_card *card, const ancp_tables *t, size_t ports, size_t channels,
                                          size_t entries, bool white_cac, bool add_cac, uint32_t first) {
    uint8_t number;
    ancp_number placed = ancp_placed(card, t);
    if (placed != ANCP_DONE) return placed;
    if (ancp_card_version() != ANCP_VERSION_NUMBER) return ANCP_OTHER_VERSION;
    number = ancp_card_start_number(t->ids, ports, t->channels, channels, t->entries, entries, first);
    if (number == ANCP_DONE) ancp_card_fresh(card, ports, channels, entries, white_cac, add_cac, first);
    return (ancp_number)number;
}

/* The number that a start with these tables gives, and in *fault why: its table is ANCP_TABLE_NONE with ANCP_DONE. */
static inline ancp_number ancp_card_start_fault(ancp_fault *fault, const ancp_tables *t, size_t ports, size_t channels,
                                                size_t entries, uint32_t first) {
    if (!fault || !t) return ANCP_NULL;
    *fault = ancp_start_fault(t->ids, ports, t->channels, channels, t->entries, entries, first);
    return fault->table == ANCP_TABLE_NONE ? ANCP_DONE : ANCP_BAD_START;
}

/* The port is up; its flows and an open request stay if it was up already. */
static inline ancp_number ancp_card_port_up(ancp_card *card, const ancp_tables *t, size_t p) {
    return ancp_call_on_port(card, t, ANCP_CALL_UP, p, 0);
}

/* The port is down: its flows end and its request is closed; its delegation stays. */
static inline ancp_number ancp_card_port_down(ancp_card *card, const ancp_tables *t, size_t p) {
    return ancp_call_on_port(card, t, ANCP_CALL_DOWN, p, 0);
}

/* The port's delegation, not below what is committed; an open request is closed. */
static inline ancp_number ancp_card_set_delegation(ancp_card *card, const ancp_tables *t, size_t p, uint32_t amount) {
    return ancp_call_on_port(card, t, ANCP_CALL_DELEGATION, p, amount);
}

/* A white flow begins if there is room and, under White-List-CAC, its rate fits; for a grey one (ANCP_GREY) a message
   to the server is written. */
static inline ancp_number ancp_card_join(ancp_card *card, const ancp_tables *t, size_t p, const ancp_flow *f,
                                         uint8_t *reply, size_t space, size_t *length) {
    return ancp_call_on_flow(card, t, ANCP_CALL_JOIN, p, f, reply, space, length);
}

/* The flow ends, whoever began it. */
static inline ancp_number ancp_card_leave(ancp_card *card, const ancp_tables *t, size_t p, const ancp_flow *f) {
    return ancp_call_on_flow(card, t, ANCP_CALL_LEAVE, p, f, NULL, 0, NULL);
}

/* Writes a request for bandwidth (146) to the server, which is then open. */
static inline ancp_number ancp_card_ask(ancp_card *card, const ancp_tables *t, size_t p, uint32_t required,
                                        uint32_t preferred, uint8_t *reply, size_t space, size_t *length) {
    ancp_call call;
    ancp_call_of(&call, ANCP_CALL_ASK, p, required, preferred);
    return ancp_calls(card, t, &call, NULL, 0, reply, space, length);
}

/* A message from the server is carried out, and its answer, if one is due, is written. A request with transaction 0 is
   answered with 0x2 and changes nothing: a server must number its requests from 1 on. */
static inline ancp_number ancp_card_message(ancp_card *card, const ancp_tables *t, const uint8_t *octets, size_t n,
                                            uint8_t *reply, size_t space, size_t *length) {
    ancp_call call;
    ancp_call_of(&call, ANCP_CALL_MESSAGE, 0, 0, 0);
    return ancp_calls(card, t, &call, octets, n, reply, space, length);
}

/* ---- what a host may read, where the card lies. Of a number that is no port's, and of what is no started card: down,
   0, no request, no flows. */
static inline bool ancp_card_is_started(const ancp_card *card) {
    return card && (uintptr_t)card % ANCP_ALIGNOF(ancp_card) == 0 && card->started == ANCP_STARTED;
}
static inline ancp_port ancp_port_of(const ancp_card *card, size_t p) {
    return card->core.ports[p < ANCP_PORTS ? p : 0];
}

static inline bool ancp_card_is_up(const ancp_card *card, size_t p) {
    return ancp_card_is_started(card) && ancp_card_up_in(ancp_port_of(card, p), card->core.head.port_count, p);
}
static inline uint32_t ancp_card_delegation(const ancp_card *card, size_t p) {
    return ancp_card_is_started(card) ? ancp_card_delegation_in(ancp_port_of(card, p), card->core.head.port_count, p)
                                      : 0;
}

/* The request for bandwidth that is open. */
static inline ancp_request ancp_card_request(const ancp_card *card, size_t p) {
    ancp_request none = {false, {0}, 0, 0, 0};
    return ancp_card_is_started(card) ? ancp_card_request_in(ancp_port_of(card, p), card->core.head.port_count, p)
                                      : none;
}

/* The rates of the port's charged flows, in all. */
static inline uint64_t ancp_card_committed(const ancp_card *card, const ancp_tables *t, size_t p) {
    if (!ancp_card_is_started(card) || !t) return 0;
    const ancp_pool *pool = &card->core.pool;
    return ancp_card_committed_in(pool->owner, pool->channel, pool->charged, t->channels, card->core.head.port_count,
                                  p);
}

/* The channels of the port's active flows, in order of family, group, source. */
static inline ancp_rows ancp_card_flows(const ancp_card *card, const ancp_tables *t, size_t p) {
    ancp_rows none = {0, {0}};
    if (!ancp_card_is_started(card) || !t) return none;
    return ancp_card_flows_in(card->core.pool.owner, card->core.pool.channel, t->channels, card->core.head.port_count,
                              p);
}
static inline bool ancp_card_is_active(const ancp_card *card, const ancp_tables *t, size_t p, const ancp_flow *f) {
    if (!ancp_card_is_started(card) || !t || !f) return false;
    const ancp_core *core = &card->core;
    return ancp_card_active_in(core->pool.owner, core->pool.channel, t->channels, core->head.port_count,
                               core->head.channel_count, p, *f);
}

/* Charge and accounting of a flow on the port: of a flow by value, and of one by its channel, as ancp_card_flows lists
   them. */
static inline ancp_flow_state ancp_card_flow(const ancp_card *card, const ancp_tables *t, size_t p,
                                             const ancp_flow *f) {
    ancp_flow_state none = {false, false, 0};
    if (!ancp_card_is_started(card) || !t || !f) return none;
    const ancp_pool *pool = &card->core.pool;
    const ancp_head *head = &card->core.head;
    return ancp_card_flow_in(pool->owner, pool->channel, pool->charged, pool->accounting, t->channels, head->port_count,
                             head->channel_count, p, *f);
}
static inline ancp_flow_state ancp_card_flow_of_row(const ancp_card *card, size_t p, uint8_t k) {
    ancp_flow_state none = {false, false, 0};
    if (!ancp_card_is_started(card)) return none;
    const ancp_pool *pool = &card->core.pool;
    return ancp_card_row_in(pool->owner, pool->channel, pool->charged, pool->accounting, card->core.head.port_count, p,
                            k);
}

/* How many flows beyond their port's fourth there are. */
static inline size_t ancp_card_extras(const ancp_card *card) {
    return ancp_card_is_started(card) ? ancp_card_extras_in(card->core.pool.owner) : 0;
}

/* The transaction number of the next message that the card begins. */
static inline uint32_t ancp_card_next_transaction(const ancp_card *card) {
    return ancp_card_is_started(card) ? ancp_card_next_in(card->core.head.counter) : 0;
}

#ifdef __cplusplus
}
#endif
#endif
