/* Every function of ancp_card.h and ancp_text.h, with right and with wrong arguments. `make test` runs it under the
   sanitizers of addresses and of undefined behaviour; it ends with status 1 at the first thing that is not so. */
#include "test.h"
#include <stdio.h>
#include <stdlib.h>

unsigned long tried;

void same(const char *file, int line, const char *what, unsigned long long is, unsigned long long due) {
    tried++;
    if (is == due) return;
    printf("%s:%d: %s is %llu, not %llu\n", file, line, what, is, due);
    exit(1);
}

void same_text(const char *file, int line, const char *what, const char *is, const char *due) {
    tried++;
    if (strcmp(is, due) == 0) return;
    printf("%s:%d: %s is \"%s\", not \"%s\"\n", file, line, what, is, due);
    exit(1);
}

ancp_tables tables;
ancp_card card;
uint8_t reply[ANCP_REPLY + 64];
ancp_flow white, grey, black, six, unlisted;
size_t length;
static ancp_flow all, everything;

static void flows(void) {
    IS(ancp_flow_from_text(&white, "233.252.0.1", NULL), ANCP_DONE);
    IS(ancp_flow_from_text(&grey, "233.252.0.2", NULL), ANCP_DONE);
    IS(ancp_flow_from_text(&black, "233.252.0.3", NULL), ANCP_DONE);
    IS(ancp_flow_from_text(&six, "ff3e::8000:1", "2001:db8::1"), ANCP_DONE);
    IS(ancp_flow_from_text(&unlisted, "233.252.0.9", NULL), ANCP_DONE);
    IS(ancp_flow_from_text(&all, "224.0.0.0", NULL), ANCP_DONE);
    IS(ancp_flow_from_text(&everything, "ff00::", "::"), ANCP_DONE);
}

void fill(void) {
    char long_id[63];
    memset(long_id, 'x', sizeof long_id);
    memset(&tables, 0, sizeof tables);
    flows();
    IS(ancp_set_port(&tables, 0, "p1", 2), ANCP_DONE);
    IS(ancp_set_port(&tables, 1, "p2", 2), ANCP_DONE);
    IS(ancp_set_port(&tables, 2, long_id, 63), ANCP_DONE);
    IS(ancp_set_channel(&tables, 0, &white, 1000), ANCP_DONE);
    IS(ancp_set_channel(&tables, 1, &grey, 500), ANCP_DONE);
    IS(ancp_set_channel(&tables, 2, &black, 10), ANCP_DONE);
    IS(ancp_set_channel(&tables, 3, &six, 2000), ANCP_DONE);
    IS(ancp_set_entry(&tables, 0, ANCP_LIST_WHITE, &all, 4, 0), ANCP_DONE);
    IS(ancp_set_entry(&tables, 1, ANCP_LIST_GREY, &grey, 32, 0), ANCP_DONE);
    IS(ancp_set_entry(&tables, 2, ANCP_LIST_BLACK, &black, 32, 0), ANCP_DONE);
    IS(ancp_set_entry(&tables, 3, ANCP_LIST_WHITE, &everything, 8, 0), ANCP_DONE);
}

static ancp_number start(ancp_card *c, bool white_cac, bool add_cac) {
    return ancp_card_start(c, &tables, 3, 4, 4, white_cac, add_cac, FIRST);
}

/* port 0 up with delegation 4000 */
void begin(bool white_cac, bool add_cac) {
    fill();
    IS(start(&card, white_cac, add_cac), ANCP_DONE);
    IS(ancp_card_port_up(&card, &tables, 0), ANCP_DONE);
    IS(ancp_card_set_delegation(&card, &tables, 0, 4000), ANCP_DONE);
}

/* ---- messages */
static uint8_t message[ANCP_MESSAGE + 1];

static size_t put16(size_t n, unsigned x) {
    message[n] = (uint8_t)(x >> 8);
    message[n + 1] = (uint8_t)x;
    return n + 2;
}
static size_t put32(size_t n, uint32_t x) { return put16(put16(n, x >> 16), x & 0xFFFF); }

/* the header, and a Target that names p1 */
size_t head(unsigned kind, unsigned result, uint32_t transaction) {
    size_t n = put16(0, 0x880C);
    n = put16(put16(n, 0), 0x3200 | kind);
    n = put16(n, result << 12);
    n = put32(n, transaction);
    n = put16(put16(n, 0x8001), 0);
    n = put16(put16(n, 0x1000), 8);
    n = put16(put16(n, 1), 2);
    return put32(n, 0x70310000);
}

/* a message of n octets has its lengths */
static size_t closed(size_t n) {
    put16(2, (unsigned)(n - 4));
    put16(14, (unsigned)(n - 4));
    return n;
}

ancp_number send_in(size_t n) {
    closed(n);
    memset(reply, 0xA5, sizeof reply);
    return ancp_card_message(&card, &tables, message, n, reply, ROOM, &length);
}

size_t command(size_t n, unsigned code, unsigned accounting, const ancp_flow *f) {
    n = put16(put16(n, 0x0011), 16);
    n = put32(n, code << 24 | accounting << 16);
    n = put16(put16(n, 0x0019), 8);
    n = put16(put16(n, 0x0101), 0);
    return put32(n, f->group[0]);
}

static unsigned at16(const uint8_t *m, size_t n) { return (unsigned)m[n] << 8 | m[n + 1]; }
static uint32_t at32(const uint8_t *m, size_t n) { return (uint32_t)at16(m, n) << 16 | at16(m, n + 2); }
static unsigned code_of(const uint8_t *m) { return at16(m, 6) & 0xFFF; }

/* ---- the setters */
static void set_ports(void) {
    ancp_tables before;
    static const uint8_t binary[] = {0, 255, 7};
    fill();
    before = tables;
    IS(ancp_set_port(NULL, 0, "p1", 2), ANCP_NULL);
    IS(ancp_set_port(&tables, 0, NULL, 2), ANCP_NULL);
    IS(ancp_set_port(&tables, 64, "p1", 2), ANCP_NO_ROW);
    IS(ancp_set_port(&tables, SIZE_MAX, "p1", 2), ANCP_NO_ROW);
    IS(ancp_set_port(&tables, 0, "p1", 0), ANCP_BAD_LENGTH);
    IS(ancp_set_port(&tables, 0, "p1", 64), ANCP_BAD_LENGTH);
    IS(ancp_set_port(&tables, 0, "p1", 258), ANCP_BAD_LENGTH);
    IS(memcmp(&before, &tables, sizeof tables), 0);
    IS(ancp_set_port(&tables, 63, binary, 3), ANCP_DONE);
    IS(memcmp(tables.ids + 63 * 64, "\3\0\377\7\0", 5), 0);
    IS(ancp_set_port(&tables, 2, "p3", 2), ANCP_DONE);
    IS(tables.ids[2 * 64 + 3], 0);
    IS(tables.ids[2 * 64 + 63], 0);
}

static void set_rows(void) {
    ancp_tables before;
    fill();
    before = tables;
    IS(ancp_set_channel(NULL, 0, &white, 1), ANCP_NULL);
    IS(ancp_set_channel(&tables, 0, NULL, 1), ANCP_NULL);
    IS(ancp_set_channel(&tables, 256, &white, 1), ANCP_NO_ROW);
    IS(ancp_set_entry(NULL, 0, ANCP_LIST_WHITE, &all, 4, 0), ANCP_NULL);
    IS(ancp_set_entry(&tables, 0, ANCP_LIST_WHITE, NULL, 4, 0), ANCP_NULL);
    IS(ancp_set_entry(&tables, 128, ANCP_LIST_WHITE, &all, 4, 0), ANCP_NO_ROW);
    IS(ancp_set_entry(&tables, 0, ANCP_LIST_WHITE, &all, 33, 0), ANCP_BAD_LENGTH);
    IS(ancp_set_entry(&tables, 0, ANCP_LIST_WHITE, &all, 4, 33), ANCP_BAD_LENGTH);
    IS(ancp_set_entry(&tables, 0, ANCP_LIST_WHITE, &six, 129, 0), ANCP_BAD_LENGTH);
    IS(ancp_set_entry(&tables, 0, ANCP_LIST_WHITE, &six, 8, 129), ANCP_BAD_LENGTH);
    IS(memcmp(&before, &tables, sizeof tables), 0);
    IS(ancp_set_channel(&tables, 255, &six, 7), ANCP_DONE);
    IS(tables.channels[255 * 11], 2);
    IS(tables.channels[255 * 11 + 1], 1);
    IS(tables.channels[255 * 11 + 2], 7);
    IS(tables.channels[255 * 11 + 6], 0x80000001);
    IS(tables.channels[255 * 11 + 10], 1);
    IS(ancp_set_entry(&tables, 127, ANCP_LIST_GREY, &six, 128, 64), ANCP_DONE);
    IS(tables.entries[127 * 12], 2);
    IS(tables.entries[127 * 12 + 1], 3);
    IS(tables.entries[127 * 12 + 2], 128);
    IS(tables.entries[127 * 12 + 3], 64);
    IS(tables.entries[127 * 12 + 7], 0x80000001);
    IS(tables.entries[127 * 12 + 11], 1);
}

/* ---- start */
static void starts(void) {
    ancp_card before;
    fill();
    IS(ancp_card_version(), ANCP_VERSION_NUMBER);
    memset(&card, 0xA5, sizeof card);
    before = card;
    IS(ancp_card_start(NULL, &tables, 3, 4, 4, true, true, 1), ANCP_NULL);
    IS(ancp_card_start(&card, NULL, 3, 4, 4, true, true, 1), ANCP_NULL);
    IS(ancp_card_start((ancp_card *)((char *)&card + 4), &tables, 3, 4, 4, true, true, 1), ANCP_MISALIGNED);
    IS(ancp_card_start(&card, (ancp_tables *)((char *)&tables + 1), 3, 4, 4, true, true, 1), ANCP_MISALIGNED);
    IS(ancp_card_start((ancp_card *)(void *)(tables.ids + 8), &tables, 3, 4, 4, true, true, 1), ANCP_OVERLAP);
    IS(ancp_card_start(&card, &tables, 65, 4, 4, true, true, 1), ANCP_BAD_START);
    IS(ancp_card_start(&card, &tables, 4, 4, 4, true, true, 1), ANCP_BAD_START);
    IS(ancp_card_start(&card, &tables, 3, 257, 4, true, true, 1), ANCP_BAD_START);
    IS(ancp_card_start(&card, &tables, 3, 5, 4, true, true, 1), ANCP_BAD_START);
    IS(ancp_card_start(&card, &tables, 3, 4, 129, true, true, 1), ANCP_BAD_START);
    IS(ancp_card_start(&card, &tables, 3, 4, 5, true, true, 1), ANCP_BAD_START);
    IS(ancp_card_start(&card, &tables, 3, 4, 4, true, true, 0), ANCP_BAD_START);
    IS(ancp_card_start(&card, &tables, 3, 4, 4, true, true, 16777216), ANCP_BAD_START);
    IS(memcmp(&card, &before, sizeof card), 0);
    HOLDS(!ancp_card_is_started(&card));
    IS(ancp_card_start(&card, &tables, 3, 4, 4, true, true, 16777215), ANCP_DONE);
    HOLDS(ancp_card_is_started(&card));
    IS(ancp_card_next_transaction(&card), 16777215);
    before = card;
    IS(ancp_card_start(&card, &tables, 3, 4, 4, true, true, 0), ANCP_BAD_START);
    IS(memcmp(&card, &before, sizeof card), 0);
}

/* why 14: the first test that fails */
static void fault(size_t ports, size_t channels, size_t entries, uint32_t first, unsigned table, size_t row,
                  unsigned field, const char *due) {
    ancp_fault f;
    ancp_card c;
    char out[128];
    memset(&f, 0xA5, sizeof f);
    IS(ancp_card_start_fault(&f, &tables, ports, channels, entries, first), table ? ANCP_BAD_START : ANCP_DONE);
    IS(ancp_card_start(&c, &tables, ports, channels, entries, false, true, first), table ? ANCP_BAD_START : ANCP_DONE);
    IS(f.table, table);
    IS(f.row, row);
    IS(f.field, field);
    size_t n = ancp_fault_text(out, sizeof out, &f);
    IS(n, strlen(out));
    TEXT(out, due);
}

static void faults(void) {
    ancp_fault f;
    ancp_flow g;
    fill();
    fault(3, 4, 4, 1, ANCP_TABLE_NONE, 0, ANCP_FIELD_NONE, "none: nothing is wrong");
    fault(65, 257, 129, 0, ANCP_TABLE_PORTS, 0, ANCP_FIELD_COUNT, "ports: more rows than the table has");
    fault(4, 257, 129, 0, ANCP_TABLE_PORTS, 3, ANCP_FIELD_LENGTH, "ports, row 3: circuit id not of 1 to 63 octets");
    fault(3, 257, 129, 0, ANCP_TABLE_CHANNELS, 0, ANCP_FIELD_COUNT, "channels: more rows than the table has");
    fault(3, 5, 129, 0, ANCP_TABLE_CHANNELS, 4, ANCP_FIELD_RATE, "channels, row 4: rate not 1 to 10,000,000");
    fault(3, 4, 129, 0, ANCP_TABLE_ENTRIES, 0, ANCP_FIELD_COUNT, "entries: more rows than the table has");
    fault(3, 4, 5, 0, ANCP_TABLE_ENTRIES, 4, ANCP_FIELD_FAMILY, "entries, row 4: family neither 1 nor 2");
    fault(3, 4, 4, 0, ANCP_TABLE_FIRST, 0, ANCP_FIELD_NUMBER, "first transaction number: not 1 to 16,777,215");
    IS(ancp_set_port(&tables, 1, "p1", 2), ANCP_DONE);
    fault(3, 4, 4, 1, ANCP_TABLE_PORTS, 1, ANCP_FIELD_SAME, "ports, row 1: the same as an earlier row");
    fill();
    IS(ancp_set_channel(&tables, 2, &white, 1), ANCP_DONE);
    fault(3, 4, 4, 1, ANCP_TABLE_CHANNELS, 2, ANCP_FIELD_SAME, "channels, row 2: the same as an earlier row");
    g = white;
    g.group[0] = 1;
    IS(ancp_set_channel(&tables, 2, &g, 1), ANCP_DONE);
    fault(3, 4, 4, 1, ANCP_TABLE_CHANNELS, 2, ANCP_FIELD_GROUP, "channels, row 2: no group of the family");
    g = black;
    g.sourced = 2;
    IS(ancp_set_channel(&tables, 2, &g, 1), ANCP_DONE);
    fault(3, 4, 4, 1, ANCP_TABLE_CHANNELS, 2, ANCP_FIELD_SOURCE, "channels, row 2: no source of the family");
    g.family = (ancp_family)3;
    IS(ancp_set_channel(&tables, 2, &g, 1), ANCP_DONE);
    fault(3, 4, 4, 1, ANCP_TABLE_CHANNELS, 2, ANCP_FIELD_FAMILY, "channels, row 2: family neither 1 nor 2");
    fill();
    IS(ancp_set_entry(&tables, 1, (ancp_list)4, &all, 4, 0), ANCP_DONE);
    fault(3, 4, 4, 1, ANCP_TABLE_ENTRIES, 1, ANCP_FIELD_LIST, "entries, row 1: list not 1 to 3");
    fill();
    tables.entries[2 * ANCP_ENTRY_ROW + 2] = 33;
    fault(3, 4, 4, 1, ANCP_TABLE_ENTRIES, 2, ANCP_FIELD_GROUP_LENGTH,
          "entries, row 2: group prefix longer than an address");
    fill();
    tables.entries[2 * ANCP_ENTRY_ROW + 3] = 33;
    fault(3, 4, 4, 1, ANCP_TABLE_ENTRIES, 2, ANCP_FIELD_SOURCE_LENGTH,
          "entries, row 2: source prefix longer than an address");
    IS(ancp_card_start_fault(NULL, &tables, 3, 4, 4, 1), ANCP_NULL);
    IS(ancp_card_start_fault(&f, NULL, 3, 4, 4, 1), ANCP_NULL);
    IS(ancp_fault_text(NULL, 0, NULL), 0);
}

/* The last of 3 ports of a card with one channel: readers look at the count that is meant. */
static void read_last_port(void) {
    IS(ancp_card_port_up(&card, &tables, 2), ANCP_DONE);
    IS(ancp_card_set_delegation(&card, &tables, 2, 1000), ANCP_DONE);
    IS(ancp_card_join(&card, &tables, 2, &white, reply, ROOM, &length), ANCP_DONE);
    HOLDS(ancp_card_is_up(&card, 2));
    IS(ancp_card_delegation(&card, 2), 1000);
    IS(ancp_card_committed(&card, &tables, 2), 1000);
    IS(ancp_card_flows(&card, &tables, 2).count, 1);
    HOLDS(ancp_card_is_active(&card, &tables, 2, &white));
    HOLDS(ancp_card_flow(&card, &tables, 2, &white).active);
    HOLDS(ancp_card_flow_of_row(&card, 2, 0).active);
    IS(ancp_card_ask(&card, &tables, 2, 2000, 3000, reply, ROOM, &length), ANCP_DONE);
    HOLDS(ancp_card_request(&card, 2).asking);
}

/* what a start counts: ports, channels, entries, each on its own */
static void counts(void) {
    fill();
    IS(ancp_card_start(&card, &tables, 1, 4, 4, true, true, 1), ANCP_DONE);
    IS(ancp_card_port_up(&card, &tables, 1), ANCP_NO_PORT);
    IS(ancp_card_start(&card, &tables, 3, 1, 4, true, true, 1), ANCP_DONE);
    IS(ancp_card_port_up(&card, &tables, 1), ANCP_DONE);
    IS(ancp_card_join(&card, &tables, 1, &grey, reply, ROOM, &length), ANCP_NOT_LISTED);
    read_last_port();
    IS(ancp_card_start(&card, &tables, 3, 4, 0, true, true, 1), ANCP_DONE);
    IS(ancp_card_port_up(&card, &tables, 1), ANCP_DONE);
    IS(ancp_card_join(&card, &tables, 1, &white, reply, ROOM, &length), ANCP_IGNORED);
}

/* Cards that are equal are equal octet by octet, whatever their memory held before. */
static void play(ancp_card *c) {
    IS(ancp_card_port_up(c, &tables, 0), ANCP_DONE);
    IS(ancp_card_port_up(c, &tables, 1), ANCP_DONE);
    IS(ancp_card_set_delegation(c, &tables, 0, 5000), ANCP_DONE);
    IS(ancp_card_join(c, &tables, 0, &white, reply, ROOM, NULL), ANCP_DONE);
    IS(ancp_card_join(c, &tables, 0, &six, reply, ROOM, NULL), ANCP_DONE);
    IS(ancp_card_join(c, &tables, 0, &grey, reply, ROOM, NULL), ANCP_GREY);
    IS(ancp_card_ask(c, &tables, 0, 6000, 7000, reply, ROOM, NULL), ANCP_DONE);
    IS(ancp_card_leave(c, &tables, 0, &white), ANCP_DONE);
    IS(ancp_card_port_down(c, &tables, 1), ANCP_DONE);
    IS(ancp_card_message(c, &tables, message, 28, reply, ROOM, NULL), ANCP_DONE);
}

static void rubbish(uint8_t octet) {
    volatile uint8_t stack[16384];
    for (size_t i = 0; i < sizeof stack; i++) stack[i] = octet;
}

static void equal_in_memory(void) {
    static ancp_card a, b;
    fill();
    IS(closed(head(148, 2, 9)), 28);
    memset(&a, 0xA5, sizeof a);
    memset(&b, 0x5A, sizeof b);
    rubbish(0x11);
    IS(start(&a, true, true), ANCP_DONE);
    rubbish(0xEE);
    IS(start(&b, true, true), ANCP_DONE);
    IS(memcmp(&a, &b, sizeof a), 0);
    rubbish(0x22);
    play(&a);
    rubbish(0xDD);
    play(&b);
    IS(memcmp(&a, &b, sizeof a), 0);
    IS(start(&a, true, false), ANCP_DONE);
    HOLDS(memcmp(&a, &b, sizeof a) != 0);
}

/* ---- calls */
static void port_calls(void) {
    begin(true, true);
    HOLDS(ancp_card_is_up(&card, 0));
    HOLDS(!ancp_card_is_up(&card, 1));
    IS(ancp_card_delegation(&card, 0), 4000);
    IS(ancp_card_delegation(&card, 1), 0);
    IS(ancp_card_port_down(&card, &tables, 0), ANCP_DONE);
    HOLDS(!ancp_card_is_up(&card, 0));
    IS(ancp_card_delegation(&card, 0), 4000);
    IS(ancp_card_port_up(&card, &tables, 2), ANCP_DONE);
    HOLDS(ancp_card_is_up(&card, 2));
    IS(ancp_card_port_up(&card, &tables, 3), ANCP_NO_PORT);
    IS(ancp_card_port_down(&card, &tables, 64), ANCP_NO_PORT);
    IS(ancp_card_set_delegation(&card, &tables, SIZE_MAX, 1), ANCP_NO_PORT);
    HOLDS(!ancp_card_is_up(&card, 3));
    HOLDS(!ancp_card_is_up(&card, SIZE_MAX));
    IS(ancp_card_delegation(&card, 64), 0);
}

static void joins(void) {
    ancp_rows rows;
    begin(true, true);
    length = 77;
    IS(ancp_card_join(&card, &tables, 0, &white, reply, ROOM, &length), ANCP_DONE);
    IS(length, 0);
    IS(ancp_card_committed(&card, &tables, 0), 1000);
    IS(ancp_card_committed(&card, &tables, 1), 0);
    HOLDS(ancp_card_is_active(&card, &tables, 0, &white));
    HOLDS(!ancp_card_is_active(&card, &tables, 1, &white));
    HOLDS(!ancp_card_is_active(&card, &tables, 0, &six));
    IS(ancp_card_join(&card, &tables, 0, &white, reply, ROOM, &length), ANCP_ACTIVE);
    IS(ancp_card_join(&card, &tables, 0, &six, reply, ROOM, NULL), ANCP_DONE);
    HOLDS(ancp_card_is_active(&card, &tables, 0, &six)); /* the last row: more channels than ports */
    HOLDS(ancp_card_flow(&card, &tables, 0, &six).active);
    rows = ancp_card_flows(&card, &tables, 0);
    IS(rows.count, 2);
    IS(rows.rows[0], 0);
    IS(rows.rows[1], 3);
    IS(ancp_card_flows(&card, &tables, 64).count, 0);
    IS(ancp_card_extras(&card), 0);
    IS(ancp_card_join(&card, &tables, 0, &black, reply, ROOM, &length), ANCP_IGNORED);
    IS(ancp_card_join(&card, &tables, 0, &unlisted, reply, ROOM, &length), ANCP_NOT_LISTED);
    IS(ancp_card_join(&card, &tables, 1, &white, reply, ROOM, &length), ANCP_PORT_DOWN);
    IS(ancp_card_join(&card, &tables, 3, &white, reply, ROOM, &length), ANCP_NO_PORT);
    IS(ancp_card_set_delegation(&card, &tables, 0, 2999), ANCP_UNDER_COMMITTED);
    IS(ancp_card_set_delegation(&card, &tables, 0, 3000), ANCP_DONE);
    IS(ancp_card_leave(&card, &tables, 0, &white), ANCP_DONE);
    IS(ancp_card_leave(&card, &tables, 0, &white), ANCP_NOT_ACTIVE);
    HOLDS(!ancp_card_is_active(&card, &tables, 0, &white));
    IS(ancp_card_committed(&card, &tables, 0), 2000);
    IS(ancp_card_port_down(&card, &tables, 0), ANCP_DONE);
    IS(ancp_card_flows(&card, &tables, 0).count, 0);
    IS(ancp_card_leave(&card, &tables, 0, &six), ANCP_PORT_DOWN);
}

/* a grey join writes 145, an ask 146; the reply buffer at its limit, and kept beyond the reply */
static void written(void) {
    ancp_flow bad = white;
    begin(true, true);
    memset(reply, 0xA5, sizeof reply);
    IS(ancp_card_join(&card, &tables, 0, &grey, reply, ROOM, &length), ANCP_GREY);
    IS(length, 48);
    IS(reply[5], 145);
    IS(at32(reply, 8), FIRST);
    IS(at32(reply, 44), grey.group[0]);
    for (size_t i = length; i < sizeof reply; i++) IS(reply[i], 0xA5);
    IS(ancp_card_next_transaction(&card), FIRST + 1);
    IS(ancp_card_ask(&card, &tables, 0, 5000, 6000, reply, ROOM, &length), ANCP_DONE);
    IS(length, 40);
    IS(reply[5], 146);
    IS(at32(reply, 32), 5000);
    IS(at32(reply, 36), 6000);
    IS(ancp_card_ask(&card, &tables, 0, 5000, 6000, reply, ROOM, &length), ANCP_FIGURES);
    IS(length, 0);
    IS(ancp_card_join(&card, &tables, 0, &grey, reply, ANCP_REPLY - 1, &length), ANCP_SMALL_BUFFER);
    IS(ancp_card_join(&card, &tables, 0, &grey, NULL, 0, &length), ANCP_SMALL_BUFFER);
    IS(ancp_card_ask(&card, &tables, 0, 5000, 6000, reply, 0, &length), ANCP_SMALL_BUFFER);
    bad.group[0] = 1;
    IS(ancp_card_join(&card, &tables, 0, &bad, reply, ROOM, &length), ANCP_BAD_FLOW);
    IS(ancp_card_leave(&card, &tables, 0, &bad), ANCP_BAD_FLOW);
    IS(ancp_card_next_transaction(&card), FIRST + 2);
}

/* each switch alone */
static void switches(void) {
    ancp_flow *dear = &white;
    for (int i = 0; i < 4; i++) {
        bool white_cac = i & 1, add_cac = i & 2;
        begin(white_cac, add_cac);
        IS(ancp_card_set_delegation(&card, &tables, 0, 999), ANCP_DONE);
        IS(ancp_card_join(&card, &tables, 0, dear, reply, ROOM, &length), white_cac ? ANCP_RATE : ANCP_DONE);
        begin(white_cac, add_cac);
        IS(ancp_card_set_delegation(&card, &tables, 0, 999), ANCP_DONE);
        IS(send_in(command(head(144, 2, 5), 1, 1, dear)), ANCP_DONE);
        IS(reply[5], 91);
        IS(reply[6] >> 4, add_cac ? 4 : 3);
        IS(code_of(reply), add_cac ? 0x13 : 0);
    }
}

/* ---- messages */
static void messages(void) {
    begin(true, true);
    IS(send_in(head(148, 2, 7)), ANCP_DONE);
    IS(length, 36);
    IS(at32(reply, 32), 4000);
    for (size_t i = length; i < sizeof reply; i++) IS(reply[i], 0xA5);
    IS(send_in(command(head(144, 1, 7), 1, 1, &white)), ANCP_DONE);
    IS(length, 0);
    HOLDS(ancp_card_is_active(&card, &tables, 0, &white));
    IS(send_in(head(149, 2, 7)), ANCP_DONE);
    IS(length, 40);
    IS(at32(reply, 36), white.group[0]);
    IS(ancp_card_ask(&card, &tables, 0, 5000, 6000, reply, ROOM, &length), ANCP_DONE);
    IS(send_in(put32(put16(put16(head(147, 3, FIRST + 1), 0x15), 4), 5500)), ANCP_NOT_ASKED);
    IS(send_in(put32(put16(put16(head(147, 3, FIRST), 0x15), 4), 5500)), ANCP_DONE);
    IS(ancp_card_delegation(&card, 0), 5500);
    IS(ancp_card_message(&card, &tables, message, 15, reply, ROOM, &length), ANCP_UNUSABLE);
    IS(ancp_card_message(&card, &tables, message, 4097, reply, ROOM, &length), ANCP_UNUSABLE);
    IS(ancp_card_message(&card, &tables, NULL, 0, reply, ROOM, &length), ANCP_UNUSABLE);
    IS(ancp_card_message(&card, &tables, message, 36, reply, ROOM - 1, &length), ANCP_SMALL_BUFFER);
    IS(ancp_card_message(&card, &tables, message, 36, NULL, 0, &length), ANCP_SMALL_BUFFER);
}

/* ---- NULL, misaligned, not started, overlapping: each call, and nothing is written */
typedef struct {
    ancp_card *card;
    const ancp_tables *t;
    const ancp_flow *f;
    const uint8_t *octets;
    size_t n;
    uint8_t *reply;
    size_t room, *length;
} given;

static void no_call(given g, ancp_number number) {
    ancp_card before = card;
    ancp_tables lent = tables;
    IS(ancp_card_port_up(g.card, g.t, 0), number);
    IS(ancp_card_port_down(g.card, g.t, 0), number);
    IS(ancp_card_set_delegation(g.card, g.t, 0, 1), number);
    IS(ancp_card_leave(g.card, g.t, 0, g.f), number);
    IS(ancp_card_join(g.card, g.t, 0, g.f, g.reply, g.room, g.length), number);
    IS(ancp_card_ask(g.card, g.t, 0, 5000, 6000, g.reply, g.room, g.length), number);
    IS(ancp_card_message(g.card, g.t, g.octets, g.n, g.reply, g.room, g.length), number);
    IS(memcmp(&card, &before, sizeof card), 0);
    IS(memcmp(&tables, &lent, sizeof lent), 0);
}

static given good(void) {
    given g = {&card, &tables, &white, message, 28, reply, ROOM, &length};
    begin(true, true);
    IS(send_in(head(148, 2, 7)), ANCP_DONE);
    length = 77;
    return g;
}

static void pointers(void) {
    static ancp_card other;
    given g = good();
    g.card = NULL;
    no_call(g, ANCP_NULL);
    IS(length, 0);
    g = good();
    g.t = NULL;
    no_call(g, ANCP_NULL);
    g = good();
    g.card = (ancp_card *)((char *)&other + 1);
    no_call(g, ANCP_MISALIGNED);
    g = good();
    g.t = (const ancp_tables *)((char *)&tables + 2);
    no_call(g, ANCP_MISALIGNED);
    g = good();
    g.card = &other;
    no_call(g, ANCP_NOT_STARTED);
    IS(length, 0);
    memset(&other, 0xA5, sizeof other);
    no_call(g, ANCP_NOT_STARTED);
    g = good();
    g.t = (const ancp_tables *)(void *)&card;
    no_call(g, ANCP_OVERLAP);
}

/* one call with its buffers so; the number is due, and card, tables and message are kept */
static void placed(given g, ancp_number join, ancp_number octets) {
    ancp_card before = card;
    ancp_tables lent = tables;
    uint8_t m[64];
    memcpy(m, message, sizeof m);
    IS(ancp_card_join(g.card, g.t, 0, g.f, g.reply, g.room, g.length), join);
    IS(ancp_card_ask(g.card, g.t, 0, 5000, 6000, g.reply, g.room, g.length), join);
    IS(ancp_card_message(g.card, g.t, g.octets, g.n, g.reply, g.room, g.length), octets);
    IS(memcmp(&card, &before, sizeof card), 0);
    IS(memcmp(&tables, &lent, sizeof lent), 0);
    IS(memcmp(message, m, sizeof m), 0);
}

static void buffers(void) {
    static size_t words[ANCP_REPLY];
    given g = good();
    g.reply = NULL;
    placed(g, ANCP_NULL, ANCP_NULL);
    IS(length, 0);
    g = good();
    g.octets = NULL;
    IS(ancp_card_message(&card, &tables, NULL, 28, reply, ROOM, &length), ANCP_NULL);
    IS(length, 0);
    IS(ancp_card_join(&card, &tables, 0, NULL, reply, ROOM, &length), ANCP_NULL);
    IS(ancp_card_leave(&card, &tables, 0, NULL), ANCP_NULL);
    g = good();
    g.reply = (uint8_t *)&card;
    placed(g, ANCP_OVERLAP, ANCP_OVERLAP);
    g.reply = (uint8_t *)((uintptr_t)&card - ROOM + 1);
    placed(g, ANCP_OVERLAP, ANCP_OVERLAP);
    g.reply = (uint8_t *)(&card + 1) - 1;
    placed(g, ANCP_OVERLAP, ANCP_OVERLAP);
    g.reply = tables.ids + 4000;
    placed(g, ANCP_OVERLAP, ANCP_OVERLAP);
    g = good();
    g.length = &card.core.head.port_count;
    placed(g, ANCP_OVERLAP, ANCP_OVERLAP);
    g.length = (size_t *)(void *)tables.entries;
    placed(g, ANCP_OVERLAP, ANCP_OVERLAP);
    g.length = (size_t *)(void *)((char *)words + 4);
    placed(g, ANCP_MISALIGNED, ANCP_MISALIGNED);
    g.reply = (uint8_t *)words;
    g.length = words + 3;
    placed(g, ANCP_OVERLAP, ANCP_OVERLAP);
}

/* the message in the reply, in the card, under the length; directly after the reply it is no overlap */
static void messages_in(void) {
    static uint8_t both[ANCP_REPLY + ANCP_MESSAGE];
    given g = good();
    memcpy(both, message, 28);
    IS(ancp_card_message(&card, &tables, both, 28, both, ROOM, &length), ANCP_OVERLAP);
    IS(memcmp(both, message, 28), 0);
    memcpy(both + ROOM - 1, message, 28);
    IS(ancp_card_message(&card, &tables, both + ROOM - 1, 28, both, ROOM, &length), ANCP_OVERLAP);
    IS(length, 0);
    memcpy(both + ROOM, message, 28);
    IS(ancp_card_message(&card, &tables, both + ROOM, 28, both, ROOM, &length), ANCP_DONE);
    IS(length, 36);
    memcpy(both, message, 28);
    IS(ancp_card_message(&card, &tables, both, 28, both + 28, ROOM, &length), ANCP_DONE);
    IS(length, 36);
    IS(ancp_card_message(&card, &tables, (const uint8_t *)&card, sizeof card, reply, ROOM, &length), ANCP_OVERLAP);
    IS(ancp_card_message(&card, &tables, (const uint8_t *)&length, sizeof length, reply, ROOM, &length), ANCP_OVERLAP);
    IS(ancp_card_message(&card, &tables, tables.ids, 28, reply, ROOM, &length), ANCP_UNUSABLE);
    IS(ancp_card_message(g.card, g.t, g.octets, g.n, g.reply, g.room, NULL), ANCP_DONE);
}

/* ---- readers of what is no card */
static void read_nothing(const ancp_card *c, const ancp_tables *t, const ancp_flow *f) {
    HOLDS(!ancp_card_is_started(c));
    HOLDS(!ancp_card_is_up(c, 0));
    IS(ancp_card_delegation(c, 0), 0);
    IS(ancp_card_committed(c, t, 0), 0);
    IS(ancp_card_flows(c, t, 0).count, 0);
    HOLDS(!ancp_card_is_active(c, t, 0, f));
    HOLDS(!ancp_card_request(c, 0).asking);
    HOLDS(!ancp_card_flow(c, t, 0, f).active);
    HOLDS(!ancp_card_flow_of_row(c, 0, 0).active);
    IS(ancp_card_extras(c), 0);
    IS(ancp_card_next_transaction(c), 0);
}

static void readers(void) {
    static ancp_card none;
    begin(true, true);
    IS(ancp_card_join(&card, &tables, 0, &white, reply, ROOM, &length), ANCP_DONE);
    read_nothing(NULL, &tables, &white);
    read_nothing(&none, &tables, &white);
    read_nothing((const ancp_card *)((char *)&card + 2), &tables, &white);
    IS(ancp_card_committed(&card, NULL, 0), 0);
    IS(ancp_card_flows(&card, NULL, 0).count, 0);
    HOLDS(!ancp_card_is_active(&card, NULL, 0, &white));
    HOLDS(!ancp_card_is_active(&card, &tables, 0, NULL));
    HOLDS(!ancp_card_flow(&card, NULL, 0, &white).active);
    HOLDS(!ancp_card_flow(&card, &tables, 0, NULL).active);
}

/* the open request, and what each flow has: white_cac charges the join, the Add is not charged and has accounting 1 */
static void states(void) {
    ancp_request r;
    ancp_flow_state a, b;
    begin(true, false);
    r = ancp_card_request(&card, 0);
    HOLDS(!r.asking && !r.required && !r.preferred && !r.transaction);
    IS(ancp_card_ask(&card, &tables, 0, 5000, 6000, reply, ROOM, &length), ANCP_DONE);
    r = ancp_card_request(&card, 0);
    HOLDS(r.asking);
    IS(r.required, 5000);
    IS(r.preferred, 6000);
    IS(r.transaction, FIRST);
    HOLDS(!ancp_card_request(&card, 1).asking);
    HOLDS(!ancp_card_request(&card, 64).asking);
    IS(ancp_card_join(&card, &tables, 0, &white, reply, ROOM, &length), ANCP_DONE);
    IS(send_in(command(head(144, 1, 7), 1, 1, &grey)), ANCP_DONE);
    a = ancp_card_flow(&card, &tables, 0, &white);
    b = ancp_card_flow_of_row(&card, 0, 0);
    HOLDS(a.active && a.charged && a.accounting == 0);
    HOLDS(b.active && b.charged && b.accounting == 0);
    a = ancp_card_flow(&card, &tables, 0, &grey);
    b = ancp_card_flow_of_row(&card, 0, 1);
    HOLDS(a.active && !a.charged && a.accounting == 1);
    HOLDS(b.active && !b.charged && b.accounting == 1);
    a = ancp_card_flow(&card, &tables, 0, &six);
    b = ancp_card_flow_of_row(&card, 1, 0);
    HOLDS(!a.active && !a.charged && a.accounting == 0);
    HOLDS(!b.active && !b.charged && b.accounting == 0);
    HOLDS(!ancp_card_flow(&card, &tables, 0, &unlisted).active);
    HOLDS(!ancp_card_flow(&card, &tables, 3, &white).active);
    HOLDS(!ancp_card_flow_of_row(&card, SIZE_MAX, 0).active);
}

/* five flows of a port: one extra */
static void extras(void) {
    fill();
    for (uint32_t k = 0; k < 6; k++) {
        ancp_flow f = white;
        f.group[0] += 16 + k;
        IS(ancp_set_channel(&tables, k, &f, 1), ANCP_DONE);
    }
    IS(ancp_card_start(&card, &tables, 3, 6, 4, false, false, 1), ANCP_DONE);
    IS(ancp_card_port_up(&card, &tables, 1), ANCP_DONE);
    for (uint32_t k = 0; k < 6; k++) {
        ancp_flow f = white;
        f.group[0] += 16 + (5 - k);
        IS(ancp_card_join(&card, &tables, 1, &f, reply, ROOM, &length), ANCP_DONE);
        IS(ancp_card_extras(&card), k < 4 ? 0 : k - 3);
    }
    IS(ancp_card_flows(&card, &tables, 1).count, 6);
    for (uint8_t k = 0; k < 6; k++) IS(ancp_card_flows(&card, &tables, 1).rows[k], k);
    IS(ancp_card_committed(&card, &tables, 1), 0);
}

static void restart(void) {
    IS(ancp_number_after(16777215, 1), 1);
    IS(ancp_number_after(7, 1024), 1031);
    IS(ancp_number_after(0, 1), 0);
    IS(ancp_number_after(16777216, 1), 0);
    IS(ancp_numbers_left(16777215, 2), 2);
    IS(ancp_numbers_left(7, 7), 0);
    IS(ancp_numbers_left(0, 7), 0);
    IS(ancp_numbers_left(7, 16777216), 0);
}

int main(void) {
    set_ports();
    set_rows();
    starts();
    counts();
    faults();
    equal_in_memory();
    port_calls();
    joins();
    written();
    switches();
    messages();
    pointers();
    buffers();
    messages_in();
    readers();
    states();
    extras();
    restart();
    texts();
    printf("header: %lu values as they must be\n", tried);
    return 0;
}
