/* Names as text: see ancp_text.h */
#include "ancp_text.h"
#include <stdarg.h>
#include <stdio.h>

const char *ancp_number_text(ancp_number number) {
    switch (number) {
    case ANCP_DONE: return "done";
    case ANCP_ACTIVE: return "flow active already";
    case ANCP_GREY: return "grey: Admission Control message written";
    case ANCP_IGNORED: return "black or matched by no entry: ignored";
    case ANCP_RATE: return "rate does not fit";
    case ANCP_NO_ROOM: return "no record room";
    case ANCP_PORT_DOWN: return "port down";
    case ANCP_NO_PORT: return "no such port";
    case ANCP_BAD_FLOW: return "bad flow address";
    case ANCP_NOT_LISTED: return "channel not listed";
    case ANCP_NOT_ACTIVE: return "flow not active";
    case ANCP_UNDER_COMMITTED: return "delegation under committed";
    case ANCP_FIGURES: return "figures wrong, or a request is open";
    case ANCP_SMALL_BUFFER: return "reply buffer too small";
    case ANCP_BAD_START: return "start tables, sizes or first transaction number bad";
    case ANCP_UNUSABLE: return "message unusable";
    case ANCP_NOT_ASKED: return "no open request answered by this";
    case ANCP_NULL: return "a pointer is NULL";
    case ANCP_MISALIGNED: return "a pointer is not aligned";
    case ANCP_OVERLAP: return "arguments overlap";
    case ANCP_NOT_STARTED: return "card not started";
    case ANCP_OTHER_VERSION: return "header and library are of different versions";
    case ANCP_NO_ROW: return "row beyond the table";
    case ANCP_BAD_LENGTH: return "length beyond its limits";
    case ANCP_BAD_TEXT: return "text is no address";
    }
    return "no number of the card";
}

/* the names of RFC 6320 and RFC 7256 */
const char *ancp_code_text(uint16_t code) {
    switch (code) {
    case 0x000: return "no result";
    case 0x002: return "invalid request message";
    case 0x006: return "one or more of the specified ports are down";
    case 0x013: return "out of resources";
    case 0x051: return "request message type not implemented";
    case 0x053: return "malformed message";
    case 0x054: return "mandatory TLV missing";
    case 0x055: return "invalid TLV contents";
    case 0x064: return "command error";
    case 0x065: return "invalid flow address";
    case 0x066: return "multicast flow does not exist";
    case 0x067: return "invalid preferred bandwidth amount";
    case 0x500: return "one or more of the specified ports do not exist";
    default: return "no result code of the card";
    }
}

/* ---- text into a buffer */
typedef struct { char *out; size_t room, length; } writer;

#ifdef __GNUC__
__attribute__((format(printf, 2, 3)))
#endif
static void put(writer *w, const char *format, ...) {
    size_t left = w->length < w->room ? w->room - w->length : 0;
    va_list rest;
    va_start(rest, format);
    int n = vsnprintf(left ? w->out + w->length : NULL, left, format, rest);
    va_end(rest);
    if (n > 0) w->length += (size_t)n;
}

static writer into(char *out, size_t room) {
    writer w = {out, out ? room : 0, 0};
    if (w.room) out[0] = 0;
    return w;
}

/* ---- addresses */
static uint32_t group_at(const uint32_t address[4], int i) { return address[i / 2] >> (i % 2 ? 0 : 16) & 0xFFFF; }

/* the longest run of two or more groups of zero, the first of equal ones: where it begins and ends, or 8 */
static int zeros(const uint32_t address[4], int *end) {
    int at = 8, length = 1;
    for (int i = 0; i < 8; i++) {
        int k = i;
        while (k < 8 && group_at(address, k) == 0) k++;
        if (k - i > length) {
            at = i;
            length = k - i;
        }
    }
    *end = at + length;
    return at;
}

static void put_address(writer *w, ancp_family family, const uint32_t address[4]) {
    int end, at = zeros(address, &end);
    if (family == ANCP_IPV4) {
        uint32_t a = address[0];
        put(w, "%u.%u.%u.%u", a >> 24, a >> 16 & 255, a >> 8 & 255, a & 255);
    } else if (family == ANCP_IPV6) {
        for (int i = 0; i < 8; i++) {
            if (i == at) put(w, "::");
            if (at <= i && i < end) continue;
            put(w, i == 0 || i == end ? "%x" : ":%x", group_at(address, i));
        }
    } else {
        put(w, "?");
    }
}

size_t ancp_address_text(char *out, size_t room, ancp_family family, const uint32_t address[4]) {
    writer w = into(out, room);
    if (address) put_address(&w, family, address);
    return w.length;
}

/* four numbers of 0 to 255 with dots between them, without leading zeros, to the end of the text */
static bool ipv4(const char *s, uint32_t *address) {
    uint32_t a = 0;
    for (int i = 0; i < 4; i++) {
        uint32_t part = 0;
        int digits = 0;
        for (; '0' <= *s && *s <= '9'; s++, digits++) {
            if (digits > 0 && part == 0) return false;
            part = part * 10 + (uint32_t)(*s - '0');
            if (part > 255) return false;
        }
        if (digits == 0 || *s != (i < 3 ? '.' : 0)) return false;
        s++;
        a = a << 8 | part;
    }
    *address = a;
    return true;
}

static int digit(char c) {
    if ('0' <= c && c <= '9') return c - '0';
    if ('a' <= c && c <= 'f') return c - 'a' + 10;
    return 'A' <= c && c <= 'F' ? c - 'A' + 10 : -1;
}

/* one to four hexadecimal digits; how many, or 0 */
static int group(const char *s, uint32_t *value) {
    int n = 0;
    for (*value = 0; digit(s[n]) >= 0; n++) {
        if (n == 4) return 0;
        *value = *value << 4 | (uint32_t)digit(s[n]);
    }
    return n;
}

/* groups and at most one ::, which stands for at least one; the last two groups may be an IPv4 address */
static bool ipv6(const char *s, uint32_t address[4]) {
    uint32_t groups[8], all[8] = {0}, last;
    int n = 0, gap = -1, from;
    if (*s == ':' && *++s != ':') return false;
    while (*s) {
        int digits;
        if (*s == ':' && gap < 0) {
            gap = n;
            s++;
            continue;
        }
        if (n <= 6 && ipv4(s, &last)) {
            groups[n++] = last >> 16;
            groups[n++] = last & 0xFFFF;
            break;
        }
        if (n == 8 || (digits = group(s, &groups[n])) == 0) return false;
        n++;
        s += digits;
        if (*s && (*s++ != ':' || !*s)) return false;
    }
    if (gap < 0 ? n != 8 : n == 8) return false;
    from = gap < 0 ? 8 : gap;
    for (int i = 0; i < from && i < n; i++) all[i] = groups[i];
    for (int i = from; i < n; i++) all[8 - n + i] = groups[i];
    for (int i = 0; i < 4; i++) address[i] = all[2 * i] << 16 | all[2 * i + 1];
    return true;
}

ancp_number ancp_address_from_text(ancp_family *family, uint32_t address[4], const char *text) {
    uint32_t a[4] = {0};
    bool four;
    if (!family || !address || !text) return ANCP_NULL;
    four = ipv4(text, a);
    if (!four && !ipv6(text, a)) return ANCP_BAD_TEXT;
    *family = four ? ANCP_IPV4 : ANCP_IPV6;
    memcpy(address, a, sizeof a);
    return ANCP_DONE;
}

/* ---- flows */
ancp_number ancp_flow_from_text(ancp_flow *f, const char *group, const char *source) {
    ancp_flow g = {ANCP_IPV4, 0, {0}, {0}};
    ancp_family family = ANCP_IPV4;
    ancp_number number = f ? ancp_address_from_text(&g.family, g.group, group) : ANCP_NULL;
    if (number != ANCP_DONE) return number;
    if (source) {
        number = ancp_address_from_text(&family, g.source, source);
        if (number != ANCP_DONE) return number;
        if (family != g.family) return ANCP_BAD_TEXT;
        g.sourced = 1;
    }
    *f = g;
    return ANCP_DONE;
}

static void put_flow(writer *w, const ancp_flow *f) {
    put(w, "(");
    if (f->sourced) put_address(w, f->family, f->source);
    else put(w, "*");
    put(w, ", ");
    put_address(w, f->family, f->group);
    put(w, ")");
}

size_t ancp_flow_text(char *out, size_t room, const ancp_flow *f) {
    writer w = into(out, room);
    if (f) put_flow(&w, f);
    return w.length;
}

/* ---- why 14 */
static const char *table_text(uint8_t table) {
    static const char *const texts[] = {"none", "ports", "channels", "entries", "first transaction number"};
    return table < sizeof texts / sizeof *texts ? texts[table] : "no table";
}

static const char *field_text(uint8_t field) {
    static const char *const texts[] = {"nothing is wrong",
                                        "more rows than the table has",
                                        "circuit id not of 1 to 63 octets",
                                        "the same as an earlier row",
                                        "rate not 1 to 10,000,000",
                                        "family neither 1 nor 2",
                                        "no group of the family",
                                        "no source of the family",
                                        "list not 1 to 3",
                                        "group prefix longer than an address",
                                        "source prefix longer than an address",
                                        "not 1 to 16,777,215"};
    return field < sizeof texts / sizeof *texts ? texts[field] : "no field";
}

size_t ancp_fault_text(char *out, size_t room, const ancp_fault *fault) {
    writer w = into(out, room);
    if (!fault) return w.length;
    put(&w, "%s", table_text(fault->table));
    if (fault->field != ANCP_FIELD_COUNT && ANCP_TABLE_PORTS <= fault->table && fault->table <= ANCP_TABLE_ENTRIES)
        put(&w, ", row %zu", fault->row);
    put(&w, ": %s", field_text(fault->field));
    return w.length;
}

/* ---- a port */
static void put_id(writer *w, const uint8_t *row) {
    put(w, "\"");
    for (int i = 1; i <= row[0] && i < ANCP_ID_ROW; i++) {
        bool plain = 32 <= row[i] && row[i] < 127 && row[i] != '"' && row[i] != '\\';
        put(w, plain ? "%c" : "\\x%02X", row[i]);
    }
    put(w, "\"");
}

static void put_channel(writer *w, const ancp_tables *t, uint8_t k) {
    const uint32_t *row = t->channels + k * ANCP_CHANNEL_ROW;
    ancp_flow f = {(ancp_family)row[0], row[1], {0}, {0}};
    memcpy(f.group, row + 3, sizeof f.group);
    memcpy(f.source, row + 7, sizeof f.source);
    put(w, "  channel %u ", k);
    put_flow(w, &f);
    put(w, ", rate %u", row[2]);
}

static void put_flow_of(writer *w, const ancp_card *card, const ancp_tables *t, size_t p, uint8_t k) {
    ancp_flow_state state = ancp_card_flow_of_row(card, p, k);
    put_channel(w, t, k);
    put(w, ", %s, accounting %u\n", state.charged ? "charged" : "not charged", state.accounting);
}

size_t ancp_card_port_text(char *out, size_t room, const ancp_card *card, const ancp_tables *t, size_t p) {
    writer w = into(out, room);
    ancp_rows flows = ancp_card_flows(card, t, p);
    ancp_request request = ancp_card_request(card, p);
    if (!ancp_card_is_started(card) || !t || p >= card->core.head.port_count) {
        put(&w, "port %zu: none\n", p);
        return w.length;
    }
    put(&w, "port %zu ", p);
    put_id(&w, t->ids + p * ANCP_ID_ROW);
    put(&w, ": %s, delegation %u, committed %llu\n", ancp_card_is_up(card, p) ? "up" : "down",
        ancp_card_delegation(card, p), (unsigned long long)ancp_card_committed(card, t, p));
    if (request.asking)
        put(&w, "  asks for %u, preferred %u, by transaction %u\n", request.required, request.preferred,
            request.transaction);
    for (size_t i = 0; i < flows.count && i < sizeof flows.rows; i++) put_flow_of(&w, card, t, p, flows.rows[i]);
    return w.length;
}
