/* The worked examples of the change requests, request by request, in tables of steps. `make test` runs them under the
   sanitizers; the program ends with status 1 at the first step that is not so.

   A step is a call and its answer, written as in a script of run-drafts: a verb with octets in hexadecimal digits; the
   number and the reply's octets.
     m, s  a message; s with a reply buffer of 4,607 octets
     f     a message, with zeros behind it up to the length that its header gives
     u, x  port up, port down: port (1 octet)
     j, l  join, leave: port, row of the flow (1 octet each)
     t     a join with a reply buffer of 4,607 octets
     d     set delegation: port, amount (4 octets)
     a     ask: port, required, preferred (4 octets each)
     p     port (1 octet): the answer is the port as ancp_card_port_text writes it
   After each step the buffer beyond the reply is as it was, and the card is as it was (KEPT) or not (MOVED).

   Each table begins with S0: ports 0, 1, 2 are p1, p2, p3, all up, with delegation 4000. Channels: row 0 is A,
   239.1.1.1, rate 1000; rows 1 to 4 are B1 to B4, 239.1.1.2 from 192.0.2.1 to 192.0.2.4, rates 1000, 500, 1500, 1; row
   5 is V, ff3e::1 from 2001:db8::1, rate 2000. All are white; both switches are on; the first transaction number is 1.
   Flows that are no channels: row 6 is 239.1.1.2 from 192.0.2.5, row 7 is 239.1.1.2 from itself, which is bad. A table
   with a list of its own has S0 with this list, and is played with the list's rows in both orders. */
#include "test.h"
#include <stdio.h>
#include <stdlib.h>

typedef enum { KEPT, MOVED } held;
typedef struct {
    const char *what, *call, *answer;
    held card;
} step;

unsigned long tried;
static const char *request, *order, *now;

static void differs(const char *file, int line) {
    printf("%s:%d: %s%s, %s: ", file, line, request, order, now);
}

void same(const char *file, int line, const char *what, unsigned long long is, unsigned long long due) {
    tried++;
    if (is == due) return;
    differs(file, line);
    printf("%s is %llu, not %llu\n", what, is, due);
    exit(1);
}

void same_text(const char *file, int line, const char *what, const char *is, const char *due) {
    tried++;
    if (strcmp(is, due) == 0) return;
    differs(file, line);
    printf("%s is\n  %s, not\n  %s\n", what, is, due);
    exit(1);
}

/* ---- S0 */
ancp_tables tables;
ancp_card card;
uint8_t reply[ANCP_REPLY + 64];
size_t length;
enum { ROWS = 6, FLOWS = 8, ENTRIES = 4 };
static ancp_flow flows[FLOWS];

/* a list entry; without a group it is none */
typedef struct {
    ancp_list list;
    const char *group;
    uint32_t group_bits;
    const char *source;
    uint32_t source_bits;
} entry;
#define WHITE ANCP_LIST_WHITE
#define BLACK ANCP_LIST_BLACK
#define GREY ANCP_LIST_GREY
#define ANY NULL, 0 /* source */

static const entry all_white[ENTRIES] = {{WHITE, "239.1.1.1", 0, ANY}, {WHITE, "ff3e::1", 0, ANY}};

static void fill_channels(void) {
    static const char *const address[FLOWS][2] = {
        {"239.1.1.1", NULL},        {"239.1.1.2", "192.0.2.1"}, {"239.1.1.2", "192.0.2.2"},
        {"239.1.1.2", "192.0.2.3"}, {"239.1.1.2", "192.0.2.4"}, {"ff3e::1", "2001:db8::1"},
        {"239.1.1.2", "192.0.2.5"}, {"239.1.1.2", "239.1.1.2"},
    };
    static const uint32_t rates[ROWS] = {1000, 1000, 500, 1500, 1, 2000};
    for (size_t k = 0; k < FLOWS; k++) IS(ancp_flow_from_text(&flows[k], address[k][0], address[k][1]), ANCP_DONE);
    for (size_t k = 0; k < ROWS; k++) IS(ancp_set_channel(&tables, k, &flows[k], rates[k]), ANCP_DONE);
}

/* how many entries there are; backwards, the last one has row 0 */
static size_t fill_entries(const entry *list, bool backwards) {
    size_t count = 0;
    while (count < ENTRIES && list[count].group) count++;
    for (size_t i = 0; i < count; i++) {
        const entry *e = &list[backwards ? count - 1 - i : i];
        ancp_flow prefix;
        IS(ancp_flow_from_text(&prefix, e->group, e->source), ANCP_DONE);
        IS(ancp_set_entry(&tables, i, e->list, &prefix, e->group_bits, e->source_bits), ANCP_DONE);
    }
    return count;
}

static void start_s0(const entry *list, bool backwards) {
    static const char *const ids[] = {"p1", "p2", "p3"};
    size_t entries;
    memset(&tables, 0, sizeof tables);
    fill_channels();
    for (size_t p = 0; p < 3; p++) IS(ancp_set_port(&tables, p, ids[p], 2), ANCP_DONE);
    entries = fill_entries(list, backwards);
    IS(ancp_card_start(&card, &tables, 3, ROWS, entries, true, true, 1), ANCP_DONE);
    for (size_t p = 0; p < 3; p++) {
        IS(ancp_card_port_up(&card, &tables, p), ANCP_DONE);
        IS(ancp_card_set_delegation(&card, &tables, p, 4000), ANCP_DONE);
    }
}

/* ---- one step */
static uint8_t given[ANCP_MESSAGE + 1];

/* a step that is not written as above ends the program */
static void written_right(bool so) {
    if (!so) HOLDS(so);
}

static unsigned digit(char c) {
    const char *digits = "0123456789ABCDEF", *at = strchr(digits, c);
    written_right(c && at);
    return at ? (unsigned)(at - digits) : 0;
}

/* the octets behind a call's verb are given; how many there are */
static size_t read_octets(const char *call) {
    size_t n = 0;
    memset(given, 0, sizeof given);
    if (!call[1]) return 0;
    for (const char *at = call + 2; *at; at += 2) {
        written_right(call[1] == ' ' && n < sizeof given);
        given[n++] = (uint8_t)(digit(at[0]) << 4 | digit(at[1]));
    }
    return n;
}

static uint32_t word(size_t at) {
    return (uint32_t)given[at] << 24 | (uint32_t)given[at + 1] << 16 | (uint32_t)given[at + 2] << 8 | given[at + 3];
}

static ancp_number message(size_t n, size_t room) {
    written_right(n <= sizeof given);
    return ancp_card_message(&card, &tables, given, n, reply, room, &length);
}

static const ancp_flow *flow(void) {
    written_right(given[1] < FLOWS);
    return &flows[given[1] < FLOWS ? given[1] : 0];
}

static ancp_number join(size_t room) {
    return ancp_card_join(&card, &tables, given[0], flow(), reply, room, &length);
}

static ancp_number call_of(char verb, size_t n) {
    written_right(verb && strchr("msfuxjtlda", verb));
    switch (verb) {
        case 'm': return message(n, ROOM);
        case 's': return message(n, ROOM - 1);
        case 'f': return message(4 + (word(0) & 0xFFFF), ROOM);
        case 'u': return ancp_card_port_up(&card, &tables, given[0]);
        case 'x': return ancp_card_port_down(&card, &tables, given[0]);
        case 'j': return join(ROOM);
        case 't': return join(ROOM - 1);
        case 'l': return ancp_card_leave(&card, &tables, given[0], flow());
        case 'd': return ancp_card_set_delegation(&card, &tables, given[0], word(1));
        default: return ancp_card_ask(&card, &tables, given[0], word(1), word(5), reply, ROOM, &length);
    }
}

static const char *answer_of(const char *call) {
    static char out[16 + 2 * ANCP_REPLY];
    size_t n = read_octets(call), at;
    if (call[0] == 'p') {
        ancp_card_port_text(out, sizeof out, &card, &tables, given[0]);
        return out;
    }
    if (strchr("msfjta", call[0])) length = SIZE_MAX; /* the call sets it */
    ancp_number number = call_of(call[0], n);
    HOLDS(length <= ROOM);
    at = (size_t)sprintf(out, length ? "%u " : "%u", (unsigned)number);
    for (size_t i = 0; i < length; i++) at += (size_t)sprintf(out + at, "%02X", (unsigned)reply[i]);
    return out;
}

static void try_step(const step *s) {
    static ancp_card before;
    size_t beyond;
    now = s->what;
    before = card;
    length = 0;
    memset(reply, 0xA5, sizeof reply);
    TEXT(answer_of(s->call), s->answer);
    for (beyond = length; beyond < sizeof reply && reply[beyond] == 0xA5;) beyond++;
    IS(beyond, sizeof reply);
    IS(memcmp(&card, &before, sizeof card) ? MOVED : KEPT, s->card);
}

static void play(const char *name, const entry *list, bool backwards, const step *steps, size_t count) {
    request = name;
    order = backwards ? " (rows backwards)" : "";
    now = "start";
    start_s0(list, backwards);
    for (size_t i = 0; i < count; i++) try_step(&steps[i]);
}

/* ---- what messages are made of */
#define P1 "100000080001000270310000" /* Target */
#define P2 "100000080001000270320000"
#define P3 "100000080001000270330000"
#define P9 "100000080001000270390000" /* no port's */
#define A "0019000801010000EF010101" /* Multicast-Flow */
#define B1 "0019000C02010001EF010102C0000201"
#define B2 "0019000C02010001EF010102C0000202"
#define B3 "0019000C02010001EF010102C0000203"
#define B4 "0019000C02010001EF010102C0000204"
#define V "0019002402020001FF3E000000000000000000000000000120010DB8000000000000000000000001"
#define ADD_B1 "0011001401010000" B1 /* with accounting */
#define ADD_B2 "0011001401000000" B2
#define ADD_A "0011001001010000" A /* with accounting */
#define DELETE_A "0011001002000000" A
#define DELETE_B2 "0011001402000000" B2
#define DELETE_ALL "0011000403000000"

/* ---- Req 06. Zero is no transaction: 144, 146, 148 and 149 with transaction 0 are refused with 0x2, straight after
   the check of Result and before 0x53. The reply has the message's partition and transaction, and a Status-Info that
   gives the message type alone. */
#define NO_TRANSACTION(type) "0 880C0014325B400200000000800100140106000400" type "0000"
#define NOT_HANDLED(type) "0 880C0014325B405100000000800100140106000400" type "0000"

static const step req06_examples[] = {
    {"port 0 joins A", "j 0000", "0", MOVED},
    {"148", "m 880C0018329420000000000080010018" P1, NO_TRANSACTION("94"), KEPT},
    {"148, one octet more", "m 880C0019329420000000000080010019" P1 "00", NO_TRANSACTION("94"), KEPT},
    {"144, Delete All, partition 9", "m 880C0020329010000900000080010020" P1 DELETE_ALL,
     "0 880C0014325B400209000000800100140106000400900000", KEPT},
    {"the notice", "m 880C000C32900000000000008001000C", "0", KEPT},
    {"147", "m 880C0020329330000000000080010020" P1 "0015000400000001", "16", KEPT},
    /* as long as no Provisioning is handled; once it is, its transaction is not looked at */
    {"93", "m 880C0010325D0000000000008001001000240000", NOT_HANDLED("5D"), KEPT},
    {"A goes on", "m 880C0018329520000000000780010018" P1, "0 880C0024329530000000000780010024" P1 A, KEPT},
};

/* each of the four types at 0, 1 and 16,777,215, and where only some octets of the transaction are 0 */
static const step req06_limits[] = {
    {"148, 0, partition 255", "m 880C00183294200FFF00000080010018" P1,
     "0 880C0014325B4002FF000000800100140106000400940000", KEPT},
    {"148, 1", "m 880C0018329420000000000180010018" P1,
     "0 880C0020329430000000000180010020" P1 "0015000400000FA0", KEPT},
    {"148, 256", "m 880C0018329420000000010080010018" P1,
     "0 880C0020329430000000010080010020" P1 "0015000400000FA0", KEPT},
    {"148, 65,536", "m 880C0018329420000001000080010018" P1,
     "0 880C0020329430000001000080010020" P1 "0015000400000FA0", KEPT},
    {"148, 16,777,215", "m 880C00183294200000FFFFFF80010018" P1,
     "0 880C00203294300000FFFFFF80010020" P1 "0015000400000FA0", KEPT},
    {"144, 0, Result 1", "m 880C0030329010000000000080010030" P1 ADD_B2, NO_TRANSACTION("90"), KEPT},
    {"144, 0, Result 2", "m 880C0030329020000000000080010030" P1 ADD_B2, NO_TRANSACTION("90"), KEPT},
    {"144, 1", "m 880C0030329020000000000180010030" P1 ADD_B2, "0 880C000C325B3000000000018001000C", MOVED},
    {"144, 16,777,215", "m 880C00303290200000FFFFFF80010030" P1 DELETE_B2, "0 880C000C325B300000FFFFFF8001000C", MOVED},
    {"144, 1, Result 1", "m 880C0030329010000000000180010030" P1 ADD_B2, "0", MOVED},
    {"149, 0", "m 880C0018329520000000000080010018" P1, NO_TRANSACTION("95"), KEPT},
    {"149, 1", "m 880C0018329520000000000180010018" P1, "0 880C0028329530000000000180010028" P1 B2, KEPT},
    {"149, 16,777,215", "m 880C00183295200000FFFFFF80010018" P1, "0 880C00283295300000FFFFFF80010028" P1 B2, KEPT},
    {"146, 0", "m 880C0024329200000000000080010024" P1 "0016000800000FA000000BB8", NO_TRANSACTION("92"), KEPT},
    {"146, 1", "m 880C0024329200000000000180010024" P1 "0016000800000FA000000BB8",
     "0 880C0020329330000000000180010020" P1 "0015000400000BB8", MOVED},
    {"146, 16,777,215", "m 880C00243292000000FFFFFF80010024" P1 "0016000800000FA0000007D0",
     "0 880C00203293300000FFFFFF80010020" P1 "00150004000007D0", MOVED},
};

/* before every other refusal but those of type and Result: next to each the same message with transaction 7 */
static const step req06_order[] = {
    {"144, Result 5", "m 880C0020329050000000000080010020" P1 DELETE_ALL, NO_TRANSACTION("90"), KEPT},
    {"146, Result 2", "m 880C0024329220000000000080010024" P1 "0016000800000FA000000BB8", NO_TRANSACTION("92"), KEPT},
    {"148, Result 0", "m 880C0018329400000000000080010018" P1, NO_TRANSACTION("94"), KEPT},
    {"149, Result 1", "m 880C0018329510000000000080010018" P1, NO_TRANSACTION("95"), KEPT},
    {"Result, 7", "m 880C0018329510000000000780010018" P1, "0 880C0014325B400200000007800100140106000400950000", KEPT},
    {"144, broken", "m 880C0020329010000000000080010020" P1 "0011000503000000", NO_TRANSACTION("90"), KEPT},
    {"144, broken, 7", "m 880C0020329010000000000780010020" P1 "0011000503000000",
     "0 880C0014325B405300000007800100140106000400900000", KEPT},
    {"146, broken", "m 880C0024329200000000000080010024" P1 "0016000900000FA000000BB8", NO_TRANSACTION("92"), KEPT},
    {"146, broken, 7", "m 880C0024329200000000000780010024" P1 "0016000900000FA000000BB8",
     "0 880C0014325B405300000007800100140106000400920000", KEPT},
    {"149, broken", "m 880C0018329520000000000080010018100000090001000270310000", NO_TRANSACTION("95"), KEPT},
    {"149, broken, 7", "m 880C0018329520000000000780010018100000090001000270310000",
     "0 880C0014325B405300000007800100140106000400950000", KEPT},
    {"148, too deep", "m 880C0030329420000000000080010030" P1 "00110014000000001000000C" P1,
     NO_TRANSACTION("94"), KEPT},
    {"148, too deep, 7", "m 880C0030329420000000000780010030" P1 "00110014000000001000000C" P1,
     "0 880C0014325B405300000007800100140106000400940000", KEPT},
    {"144, nothing in it", "m 880C000C32901000000000008001000C", NO_TRANSACTION("90"), KEPT},
    {"144, nothing in it, 7", "m 880C000C32901000000000078001000C",
     "0 880C001C325B4054000000078001001C0106000C009000001000000000110000", KEPT},
    {"146, Target alone", "m 880C0018329200000000000080010018" P1, NO_TRANSACTION("92"), KEPT},
    {"146, Target alone, 7", "m 880C0018329200000000000780010018" P1,
     "0 880C0018325B40540000000780010018010600080092000000160000", KEPT},
    {"149, nothing in it", "m 880C000C32952000000000008001000C", NO_TRANSACTION("95"), KEPT},
    {"148, a second Target", "m 880C0024329420000000000080010024" P1 P2, NO_TRANSACTION("94"), KEPT},
    {"148, a second Target, 7", "m 880C0024329420000000000780010024" P1 P2,
     "0 880C0020325B405500000007800100200106001000940000" P2, KEPT},
    {"146, a wrong length", "m 880C0020329200000000000080010020" P1 "0016000400000FA0", NO_TRANSACTION("92"), KEPT},
    {"146, a wrong length, 7", "m 880C0020329200000000000780010020" P1 "0016000400000FA0",
     "0 880C001C325B4055000000078001001C0106000C009200000016000400000FA0", KEPT},
    {"149, no circuit id", "m 880C001032952000000000008001001010000000", NO_TRANSACTION("95"), KEPT},
    {"149, no circuit id, 7", "m 880C001032952000000000078001001010000000",
     "0 880C0018325B40550000000780010018010600080095000010000000", KEPT},
    {"148, unknown port", "m 880C0018329420000000000080010018" P9, NO_TRANSACTION("94"), KEPT},
    {"148, unknown port, 7", "m 880C0018329420000000000780010018" P9,
     "0 880C0020325B450000000007800100200106001000940000" P9, KEPT},
    {"port 1 down", "x 01", "0", MOVED},
    {"144, port down", "m 880C0020329010000000000080010020" P2 DELETE_ALL, NO_TRANSACTION("90"), KEPT},
    {"146, port down", "m 880C0024329200000000000080010024" P2 "0016000800000FA000000BB8", NO_TRANSACTION("92"), KEPT},
    {"149, port down", "m 880C0018329520000000000080010018" P2, NO_TRANSACTION("95"), KEPT},
    {"149, port down, 7", "m 880C0018329520000000000780010018" P2,
     "0 880C0020325B400600000007800100200106001000950000" P2, KEPT},
    {"144, a wrong command", "m 880C0020329010000000000080010020" P1 "0011000404000000", NO_TRANSACTION("90"), KEPT},
    {"144, a wrong command, 7", "m 880C0020329010000000000780010020" P1 "0011000404000000",
     "0 880C0030325B406400000007800100300106002000900000" P1 "00220004000000010011000404000000", KEPT},
    {"146, preferred > required", "m 880C0024329200000000000080010024" P1 "0016000800000BB800000FA0",
     NO_TRANSACTION("92"), KEPT},
    {"146, preferred > required, 7", "m 880C0024329200000000000780010024" P1 "0016000800000BB800000FA0",
     "0 880C0020329340670000000780010020" P1 "0015000400000FA0", KEPT},
    {"148, the largest", "f 880C0FFC329420000000000080010FFC" P1, NO_TRANSACTION("94"), KEPT},
    {"148, the largest, 7", "f 880C0FFC329420000000000780010FFC" P1,
     "0 880C0020329430000000000780010020" P1 "0015000400000FA0", KEPT},
};

/* what comes before the table stays: 13, 15, the notice; and what is not handled stays 0x51 */
static const step req06_before[] = {
    {"144, Result 3", "m 880C0020329030000000000080010020" P1 DELETE_ALL, "15", KEPT},
    {"144, Result 4", "m 880C0020329040000000000080010020" P1 DELETE_ALL, "15", KEPT},
    {"146, Result 3", "m 880C0024329230000000000080010024" P1 "0016000800000FA000000BB8", "15", KEPT},
    {"146, Result 4", "m 880C0024329240000000000080010024" P1 "0016000800000FA000000BB8", "15", KEPT},
    {"148, Result 3", "m 880C0018329430000000000080010018" P1, "15", KEPT},
    {"148, Result 4", "m 880C0018329440000000000080010018" P1, "15", KEPT},
    {"149, Result 3", "m 880C0018329530000000000080010018" P1, "15", KEPT},
    {"149, Result 4", "m 880C0018329540000000000080010018" P1, "15", KEPT},
    {"15 octets", "m 880C000B3294200000000000800100", "15", KEPT},
    {"4,097 octets", "f 880C0FFD329420000000000080010FFD" P1, "15", KEPT},
    {"no 0x880C", "m 880D0018329420000000000080010018" P1, "15", KEPT},
    {"another first length", "m 880C0019329420000000000080010018" P1, "15", KEPT},
    {"another second length", "m 880C0018329420000000000080010017" P1, "15", KEPT},
    {"another version", "m 880C0018319420000000000080010018" P1, "15", KEPT},
    {"I flag 0", "m 880C0018329420000000000000010018" P1, "15", KEPT},
    {"submessage 2", "m 880C0018329420000000000080020018" P1, "15", KEPT},
    {"148, buffer of 4,607", "s 880C0018329420000000000080010018" P1, "13", KEPT},
    {"notice, buffer of 4,607", "s 880C000C32900000000000008001000C", "13", KEPT},
    {"notice with commands", "m 880C0030329000000000000080010030" P1 ADD_B2, "0", KEPT},
    {"notice, broken, partition 1", "m 880C000D32900FFF010000008001000D00", "0", KEPT},
    {"91", "m 880C0018325B00000000000080010018" P1, NOT_HANDLED("5B"), KEPT},
    {"145", "m 880C0030329100000000000080010030" P1 ADD_B2, NOT_HANDLED("91"), KEPT},
    {"150", "m 880C0018329600000000000080010018" P1, NOT_HANDLED("96"), KEPT},
    {"143, one octet more", "m 880C0019328F10000000000080010019" P1 "00", NOT_HANDLED("8F"), KEPT},
    {"151", "m 880C000C32972000000000008001000C", NOT_HANDLED("97"), KEPT},
};

/* nothing is done: no flow begins or ends, no accounting, no delegation; a 147 is an answer to no request */
#define HELD \
    "port 0 \"p1\": up, delegation 4000, committed 2000\n" \
    "  asks for 4500, preferred 6000, by transaction 1\n" \
    "  channel 0 (*, 239.1.1.1), rate 1000, charged, accounting 0\n" \
    "  channel 1 (192.0.2.1, 239.1.1.2), rate 1000, charged, accounting 1\n"

static const step req06_state[] = {
    {"147, none open", "m 880C0020329340000000000080010020" P1 "0015000400001388", "16", KEPT},
    {"port 0 joins A", "j 0000", "0", MOVED},
    {"Add of B1", "m 880C0030329010000000000580010030" P1 ADD_B1, "0", MOVED},
    {"port 0 asks", "a 000000119400001770", "0 880C0024329200000000000180010024" P1 "001600080000119400001770", MOVED},
    {"held", "p 00", HELD, KEPT},
    {"144, Delete All", "m 880C0020329020000000000080010020" P1 DELETE_ALL, NO_TRANSACTION("90"), KEPT},
    {"144, Delete", "m 880C002C32901000000000008001002C" P1 DELETE_A, NO_TRANSACTION("90"), KEPT},
    {"144, Add", "m 880C0030329020000000000080010030" P1 ADD_B2, NO_TRANSACTION("90"), KEPT},
    {"144, accounting", "m 880C002C32901000000000008001002C" P1 ADD_A, NO_TRANSACTION("90"), KEPT},
    {"144, two commands", "m 880C0038329020000000000080010038" P1 DELETE_ALL ADD_B2, NO_TRANSACTION("90"), KEPT},
    {"144, another port", "m 880C0030329020000000000080010030" P2 ADD_B2, NO_TRANSACTION("90"), KEPT},
    {"146", "m 880C0024329200000000000080010024" P1 "0016000800000FA000000BB8", NO_TRANSACTION("92"), KEPT},
    {"147, Result 3", "m 880C0020329330000000000080010020" P1 "0015000400001388", "16", KEPT},
    {"147, Result 4", "m 880C0020329340000000000080010020" P1 "0015000400001388", "16", KEPT},
    {"147, unknown port", "m 880C0020329330000000000080010020" P9 "0015000400001388", "16", KEPT},
    {"147, Target alone", "m 880C0018329330000000000080010018" P1, "15", KEPT},
    {"147, Result 2", "m 880C0020329320000000000080010020" P1 "0015000400001388", "15", KEPT},
    {"held still", "p 00", HELD, KEPT},
    {"147, the request's number", "m 880C0020329330000000000180010020" P1 "0015000400001388", "0", MOVED},
    {"granted", "p 00",
     "port 0 \"p1\": up, delegation 5000, committed 2000\n"
     "  channel 0 (*, 239.1.1.1), rate 1000, charged, accounting 0\n"
     "  channel 1 (192.0.2.1, 239.1.1.2), rate 1000, charged, accounting 1\n",
     KEPT},
};

/* ---- Req 02. Two sources, one group: of the entries that match a flow those with the longest group prefix, of these
   those with the longest source prefix; of these black goes before grey, grey before white. */
#define GREY_JOIN(length, add) "2 880C00" length "3291000000000001800100" length P1 add /* by port 0, transaction 1 */
#define GROUP_A "239.1.1.1"
#define GROUP "239.1.1.2" /* of B1 to B4, from ONE to FOUR */
#define ONE "192.0.2.1"
#define TWO "192.0.2.2"
#define THREE "192.0.2.3"
#define FOUR "192.0.2.4"
#define GROUP6 "ff3e::1" /* of V, from ONE6 */
#define ONE6 "2001:db8::1"

static const entry req02_e1[ENTRIES] = {{WHITE, GROUP, 32, ONE, 32}, {GREY, GROUP, 32, ANY}};
static const step req02_examples[] = {
    {"port 0 joins B1", "j 0001", "0", MOVED},
    {"port 0 joins B2", "j 0002", "2 880C0030329100000000000180010030" P1 "0011001401000000" B2, MOVED},
    {"B1 alone is active", "p 00",
     "port 0 \"p1\": up, delegation 4000, committed 1000\n"
     "  channel 1 (192.0.2.1, 239.1.1.2), rate 1000, charged, accounting 0\n",
     KEPT},
    {"port 1 joins B2", "j 0102", "2 880C0030329100000000000280010030" P2 "0011001401000000" B2, MOVED},
    {"port 1 joins B1", "j 0101", "0", MOVED},
    {"port 0 joins A", "j 0000", "3", KEPT},
    {"port 0 joins V", "j 0005", "3", KEPT},
};

/* no refusal moves: a join's numbers in their order with each list, and an Add, which does not look at the lists */
static const entry req02_three[ENTRIES] = {
    {GREY, GROUP, 32, ANY}, {WHITE, GROUP, 32, ONE, 32}, {BLACK, GROUP, 32, TWO, 32}};
static const step req02_refusals[] = {
    {"unknown port, buffer of 4,607", "t 0301", "13", KEPT},
    {"white, unknown port", "j 0301", "7", KEPT},
    {"black, unknown port", "j 0302", "7", KEPT},
    {"grey, unknown port", "j 0303", "7", KEPT},
    {"port 1 down", "x 01", "0", MOVED},
    {"port down, buffer of 4,607", "t 0101", "13", KEPT},
    {"white, port down", "j 0101", "6", KEPT},
    {"black, port down", "j 0102", "6", KEPT},
    {"grey, port down", "j 0103", "6", KEPT},
    {"bad flow, port down", "j 0107", "6", KEPT},
    {"bad flow", "j 0007", "8", KEPT},
    {"grey, but no channel", "j 0006", "9", KEPT},
    {"white, buffer of 4,607", "t 0001", "13", KEPT},
    {"black, buffer of 4,607", "t 0002", "13", KEPT},
    {"grey, buffer of 4,607", "t 0003", "13", KEPT},
    {"white", "j 0001", "0", MOVED},
    {"white, active", "j 0001", "1", KEPT},
    {"black", "j 0002", "3", KEPT},
    {"no entry", "j 0000", "3", KEPT},
    {"grey", "j 0003", GREY_JOIN("30", "0011001401000000" B3), MOVED},
    {"Add, black", "m 880C0030329020000000000780010030" P1 ADD_B2, "0 880C000C325B3000000000078001000C", MOVED},
    {"black, active", "j 0002", "1", KEPT},
    {"Add, grey", "m 880C0030329020000000000880010030" P1 "0011001401000000" B3,
     "0 880C000C325B3000000000088001000C", MOVED},
    {"grey, active", "j 0003", "1", KEPT},
    {"Add, no entry", "m 880C002C32901000000000098001002C" P1 ADD_A, "0", MOVED},
    {"white, grey, black, none", "p 00",
     "port 0 \"p1\": up, delegation 4000, committed 4000\n"
     "  channel 0 (*, 239.1.1.1), rate 1000, charged, accounting 1\n"
     "  channel 1 (192.0.2.1, 239.1.1.2), rate 1000, charged, accounting 0\n"
     "  channel 2 (192.0.2.2, 239.1.1.2), rate 500, charged, accounting 0\n"
     "  channel 3 (192.0.2.3, 239.1.1.2), rate 1500, charged, accounting 0\n",
     KEPT},
    {"port 0 leaves B2", "l 0002", "0", MOVED},
    {"black again", "j 0002", "3", KEPT},
    {"delegation 999", "d 02000003E7", "0", MOVED},
    {"white, rate does not fit", "j 0201", "4", KEPT},
    {"black, rate fits", "j 0202", "3", KEPT},
    {"grey, rate does not fit", "j 0203", "2 880C0030329100000000000280010030" P3 "0011001401000000" B3,
     MOVED},
    {"delegation 1000", "d 02000003E8", "0", MOVED},
    {"white, rate fits", "j 0201", "0", MOVED},
};

/* A list, and the numbers of joins of A, B1, B2, B3, B4 and V by port 0, each with S0. A white join begins (0), a grey
   one writes the card's first 145 (2), a black one or one without an entry is ignored (3). */
typedef struct {
    const char *what;
    entry list[ENTRIES];
    const char *numbers;
} decision;

static void decide(const char *name, const decision *d, bool backwards) {
    static const char *const admission[ROWS] = {
        GREY_JOIN("2C", "0011001001000000" A),  GREY_JOIN("30", "0011001401000000" B1),
        GREY_JOIN("30", "0011001401000000" B2), GREY_JOIN("30", "0011001401000000" B3),
        GREY_JOIN("30", "0011001401000000" B4), GREY_JOIN("48", "0011002C01000000" V),
    };
    static const char *const calls[ROWS] = {"j 0000", "j 0001", "j 0002", "j 0003", "j 0004", "j 0005"};
    for (size_t k = 0; k < ROWS; k++) {
        const char number = d->numbers[k];
        const char *answer = number == '0' ? "0" : number == '2' ? admission[k] : "3";
        char what[64];
        step s = {what, calls[k], answer, number == '3' ? KEPT : MOVED};
        written_right(number && strchr("023", number));
        snprintf(what, sizeof what, "%s: %s", d->what, calls[k]);
        play(name, d->list, backwards, &s, 1);
    }
}

static void decide_both(const char *name, const decision *lists, size_t count) {
    for (size_t i = 0; i < count; i++) {
        decide(name, &lists[i], false);
        decide(name, &lists[i], true);
    }
}

/* R02.E1, R02.E2 */
static const decision req02_worked[] = {
    {"E1", {{WHITE, GROUP, 32, ONE, 32}, {GREY, GROUP, 32, ANY}}, "302223"},
    {"E2, group first", {{WHITE, GROUP, 24, ONE, 32}, {BLACK, GROUP, 32, ANY}}, "333333"},
    {"E2, source", {{WHITE, GROUP, 32, ONE, 32}, {BLACK, GROUP, 32, ANY}}, "303333"},
    {"E2, tie", {{WHITE, GROUP, 32, ONE, 24}, {GREY, GROUP, 32, ONE, 24}}, "322223"},
};

/* each two lists on one group: either with the longer source, and tied */
static const decision req02_lists[] = {
    {"white over grey", {{WHITE, GROUP, 32, ONE, 32}, {GREY, GROUP, 32, ONE, 24}}, "302223"},
    {"grey over white", {{GREY, GROUP, 32, ONE, 32}, {WHITE, GROUP, 32, ANY}}, "320003"},
    {"white over black", {{WHITE, GROUP, 32, ONE, 32}, {BLACK, GROUP, 32, ANY}}, "303333"},
    {"black over white", {{BLACK, GROUP, 32, ONE, 32}, {WHITE, GROUP, 32, ANY}}, "330003"},
    {"grey over black", {{GREY, GROUP, 32, ONE, 32}, {BLACK, GROUP, 32, ANY}}, "323333"},
    {"black over grey", {{BLACK, GROUP, 32, ONE, 32}, {GREY, GROUP, 32, ANY}}, "332223"},
    {"tie, white, grey", {{WHITE, GROUP, 32, ONE, 32}, {GREY, GROUP, 32, ONE, 32}}, "323333"},
    {"tie, white, black",
     {{WHITE, GROUP, 32, ONE, 32}, {BLACK, GROUP, 32, ONE, 32}, {WHITE, "239.0.0.0", 8, ANY}}, "030003"},
    {"tie, grey, black",
     {{GREY, GROUP, 32, ONE, 32}, {BLACK, GROUP, 32, ONE, 32}, {WHITE, "239.0.0.0", 8, ANY}}, "030003"},
    {"tie, both for all", {{WHITE, GROUP, 8, ANY}, {GREY, GROUP, 8, ANY}}, "222223"},
    {"two equal ones", {{WHITE, GROUP, 32, ONE, 32}, {WHITE, GROUP, 32, ONE, 32}}, "303333"},
};

/* the longer group prefix decides, whatever the sources; the last six have equal sums */
static const decision req02_group_first[] = {
    {"white, not black", {{WHITE, GROUP, 32, ANY}, {BLACK, GROUP, 24, ONE, 32}}, "300003"},
    {"white, not grey", {{WHITE, GROUP, 32, ANY}, {GREY, GROUP, 24, ONE, 32}}, "300003"},
    {"grey, not white", {{GREY, GROUP, 32, ANY}, {WHITE, GROUP, 24, ONE, 32}}, "322223"},
    {"grey, not black", {{GREY, GROUP, 32, ANY}, {BLACK, GROUP, 24, ONE, 32}}, "322223"},
    {"black, not white", {{BLACK, GROUP, 32, ANY}, {WHITE, GROUP, 24, ONE, 32}}, "333333"},
    {"black, not grey", {{BLACK, GROUP, 32, ANY}, {GREY, GROUP, 24, ONE, 32}}, "333333"},
    {"one bit of group", {{WHITE, GROUP, 32, ANY}, {BLACK, GROUP, 31, ONE, 32}}, "300003"},
    {"group 1 over 0", {{WHITE, GROUP, 1, ANY}, {BLACK, GROUP, 0, ONE, 32}}, "000003"},
    {"IPv6, one bit", {{WHITE, GROUP6, 128, ANY}, {BLACK, GROUP6, 127, ONE6, 128}}, "333330"},
    {"IPv6, grey", {{GREY, GROUP6, 64, ANY}, {WHITE, GROUP6, 8, ONE6, 128}}, "333332"},
    {"sum 63", {{WHITE, GROUP, 32, ONE, 31}, {BLACK, GROUP, 31, ONE, 32}}, "303333"},
    {"sum 32", {{GREY, GROUP, 32, ANY}, {BLACK, GROUP, 8, ONE, 24}}, "322223"},
    {"sum 48", {{WHITE, GROUP, 24, ONE, 24}, {GREY, GROUP, 16, ONE, 32}}, "300003"},
    {"sum 33", {{WHITE, GROUP, 32, ONE, 1}, {GREY, GROUP, 31, ONE, 2}}, "300003"},
    {"sum 255", {{WHITE, GROUP6, 128, ONE6, 127}, {BLACK, GROUP6, 127, ONE6, 128}}, "333330"},
    {"sum 128", {{GREY, GROUP6, 128, ANY}, {BLACK, GROUP6, 64, ONE6, 64}}, "333332"},
};

/* source lengths next to each other, at their limits; and sources that are not matched */
static const decision req02_limits[] = {
    {"1 over 0", {{WHITE, GROUP, 32, "128.0.0.0", 1}, {BLACK, GROUP, 32, ANY}}, "300003"},
    {"1, not matched", {{BLACK, GROUP, 32, "64.0.0.0", 1}, {WHITE, GROUP, 32, ANY}}, "300003"},
    {"2 over 1", {{GREY, GROUP, 32, ONE, 2}, {BLACK, GROUP, 32, ONE, 1}}, "322223"},
    {"32 over 31", {{WHITE, GROUP, 32, TWO, 32}, {GREY, GROUP, 32, TWO, 31}, {BLACK, GROUP, 32, ANY}}, "330233"},
    {"group 0", {{WHITE, GROUP, 0, ONE, 32}, {GREY, GROUP, 0, ANY}}, "202223"},
    {"group 0, 1 over 0", {{WHITE, "0.0.0.0", 0, ONE, 1}, {BLACK, "0.0.0.0", 0, ANY}}, "300003"},
    {"IPv6, 128 over 127", {{WHITE, GROUP6, 128, ONE6, 128}, {BLACK, GROUP6, 128, ONE6, 127}}, "333330"},
    {"IPv6, black", {{BLACK, GROUP6, 128, ONE6, 128}, {WHITE, GROUP6, 128, ONE6, 127}}, "333333"},
    {"IPv6, another", {{BLACK, GROUP6, 128, "2001:db8::", 128}, {WHITE, GROUP6, 128, "2001:db8::", 127}}, "333330"},
    {"IPv6, tie", {{WHITE, GROUP6, 128, ONE6, 127}, {GREY, GROUP6, 128, ONE6, 127}}, "333332"},
    {"IPv6, 1 over 0", {{WHITE, GROUP6, 128, "::", 1}, {BLACK, GROUP6, 128, ANY}}, "333330"},
    {"IPv6, 1, not matched", {{BLACK, GROUP6, 128, "8000::", 1}, {GREY, GROUP6, 128, ANY}}, "333332"},
    {"IPv6, 33 over 32", {{WHITE, GROUP6, 8, ONE6, 33}, {GREY, GROUP6, 8, ONE6, 32}}, "333330"},
    {"IPv6, 65 over 64", {{GREY, GROUP6, 8, ONE6, 65}, {BLACK, GROUP6, 8, ONE6, 64}}, "333332"},
    {"IPv6, 97 over 96", {{WHITE, GROUP6, 8, ONE6, 97}, {BLACK, GROUP6, 8, ONE6, 96}}, "333330"},
    {"IPv6, group 0", {{WHITE, GROUP6, 0, ONE6, 128}, {BLACK, GROUP6, 0, ANY}}, "333330"},
};

/* A has no source: no entry with a source prefix matches it, however long its group prefix is */
static const decision req02_no_source[] = {
    {"32", {{WHITE, GROUP_A, 32, ANY}, {BLACK, GROUP_A, 32, ONE, 32}}, "033333"},
    {"1", {{WHITE, GROUP_A, 32, ANY}, {BLACK, GROUP_A, 32, ONE, 1}}, "033333"},
    {"0.0.0.0/32", {{WHITE, GROUP_A, 32, ANY}, {BLACK, GROUP_A, 32, "0.0.0.0", 32}}, "033333"},
    {"0.0.0.0/1", {{GREY, GROUP_A, 32, ANY}, {WHITE, GROUP_A, 32, "0.0.0.0", 1}}, "233333"},
    {"a longer group", {{GREY, "239.1.1.0", 24, ANY}, {WHITE, GROUP_A, 32, ONE, 32}}, "222223"},
    {"for nobody", {{WHITE, GROUP_A, 32, ONE, 32}, {WHITE, GROUP_A, 32, "0.0.0.0", 32}}, "333333"},
    {"group first", {{WHITE, GROUP_A, 32, ANY}, {BLACK, GROUP_A, 31, ANY}}, "033333"},
    {"tie", {{WHITE, GROUP_A, 32, ANY}, {GREY, GROUP_A, 32, ANY}}, "233333"},
    {"one for all", {{GREY, "239.1.1.0", 30, ONE, 24}, {WHITE, "239.1.1.0", 30, ANY}}, "022223"},
};

/* a third entry, and a fourth */
static const decision req02_more[] = {
    {"longer and longer", {{WHITE, GROUP, 32, ONE, 32}, {GREY, GROUP, 32, ONE, 24}, {BLACK, GROUP, 32, ANY}}, "302223"},
    {"two sources", {{BLACK, GROUP, 32, ONE, 32}, {GREY, GROUP, 32, TWO, 32}, {WHITE, GROUP, 32, ANY}}, "332003"},
    {"a tie over black", {{WHITE, GROUP, 32, ONE, 32}, {GREY, GROUP, 32, ONE, 32}, {BLACK, GROUP, 32, ANY}}, "323333"},
    {"a shorter group between",
     {{WHITE, GROUP, 32, ONE, 24}, {BLACK, GROUP, 31, ONE, 32}, {GREY, GROUP, 32, ANY}}, "300003"},
    {"four",
     {{BLACK, GROUP, 32, ANY}, {GREY, GROUP, 32, FOUR, 29}, {WHITE, GROUP, 32, TWO, 31}, {BLACK, GROUP, 32, THREE, 32}},
     "320323"},
    {"both families",
     {{WHITE, GROUP, 32, ONE, 8}, {GREY, GROUP, 32, ANY}, {GREY, GROUP6, 128, ONE6, 64},
      {BLACK, GROUP6, 128, ONE6, 32}},
     "300002"},
};

static void play_both(const char *name, const entry *list, const step *steps, size_t count) {
    play(name, list, false, steps, count);
    play(name, list, true, steps, count);
}

#define COUNT(rows) (sizeof(rows) / sizeof *(rows))
#define PLAY(name, steps) play(name, all_white, false, steps, COUNT(steps))
#define PLAY_LIST(name, list, steps) play_both(name, list, steps, COUNT(steps))
#define DECIDE(name, lists) decide_both(name, lists, COUNT(lists))

int main(void) {
    PLAY("Req 06, examples", req06_examples);
    PLAY("Req 06, limits", req06_limits);
    PLAY("Req 06, order", req06_order);
    PLAY("Req 06, before the table", req06_before);
    PLAY("Req 06, state", req06_state);
    PLAY_LIST("Req 02, example", req02_e1, req02_examples);
    PLAY_LIST("Req 02, refusals", req02_three, req02_refusals);
    DECIDE("Req 02, examples", req02_worked);
    DECIDE("Req 02, two lists", req02_lists);
    DECIDE("Req 02, group first", req02_group_first);
    DECIDE("Req 02, limits", req02_limits);
    DECIDE("Req 02, no source", req02_no_source);
    DECIDE("Req 02, more entries", req02_more);
    printf("requests: %lu values as they must be\n", tried);
    return 0;
}
