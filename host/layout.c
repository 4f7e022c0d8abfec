/* Prints where the proved code puts each field of the structs that it shares with a host (crates/layout), and holds
   ancp_card.h to it. A field is found by setting it alone to all ones and seeing which octets change. Ends with status
   1 where the header has a field elsewhere, of another size, or leaves one out. */
#include "ancp_card.h"
#include <stdio.h>

/* A struct of more than 16 octets is returned in memory that the caller hands in as a first argument (System V ABI). */
void *layout_core(void *, bool, bool, uint32_t, uint32_t, uint32_t, uint32_t, uint8_t, uint8_t, bool, uint8_t, size_t,
                  size_t, size_t, uint32_t, bool, bool);
void *layout_flow(void *, uint32_t, uint32_t, uint32_t, uint32_t);
void *layout_call(void *, uint8_t, size_t, uint32_t, uint32_t, uint32_t, uint32_t, uint32_t, uint32_t);
ancp_answer layout_answer(uint8_t, size_t);
void *layout_rows(void *, size_t, uint8_t);
ancp_request layout_request(bool, uint32_t, uint32_t, uint32_t);
ancp_flow_state layout_flow_state(bool, bool, uint8_t);
ancp_fault layout_fault(size_t, uint8_t, uint8_t);

enum { SPACE = 8192, GUARD = 0xA5 };
static unsigned wrong;

/* a field, and how often it stands there: at `at`, then every `every` octets */
typedef struct { const char *name; size_t at, size, times, every; } field;
#define TIMES(type, f, times, every) {#f, offsetof(type, f), sizeof(((type *)0)->f), times, every}
#define ONCE(type, f) TIMES(type, f, 1, 0)
#define PORT(f) TIMES(ancp_core, ports[0].f, ANCP_PORTS, sizeof(ancp_port))
#define END {NULL, 0, 0, 0, 0}
#define ONES(k, type) (i == (k) ? (type)-1 : (type)0)
#define FLAG(k) (i == (k))

static const field core[] = {PORT(up),
                             PORT(asking),
                             PORT(delegation),
                             PORT(required),
                             PORT(preferred),
                             PORT(transaction),
                             ONCE(ancp_core, pool.owner),
                             ONCE(ancp_core, pool.channel),
                             ONCE(ancp_core, pool.charged),
                             ONCE(ancp_core, pool.accounting),
                             ONCE(ancp_core, head.port_count),
                             ONCE(ancp_core, head.channel_count),
                             ONCE(ancp_core, head.entry_count),
                             ONCE(ancp_core, head.counter.number),
                             ONCE(ancp_core, head.white_cac),
                             ONCE(ancp_core, head.add_cac),
                             END,
                             PORT(unused),
                             ONCE(ancp_core, head.unused),
                             END};
static void make_core(void *to, int i) {
    layout_core(to, FLAG(0), FLAG(1), ONES(2, uint32_t), ONES(3, uint32_t), ONES(4, uint32_t), ONES(5, uint32_t),
                ONES(6, uint8_t), ONES(7, uint8_t), FLAG(8), ONES(9, uint8_t), ONES(10, size_t), ONES(11, size_t),
                ONES(12, size_t), ONES(13, uint32_t), FLAG(14), FLAG(15));
}

static const field flow[] = {
    ONCE(ancp_flow, family), ONCE(ancp_flow, sourced), ONCE(ancp_flow, group), ONCE(ancp_flow, source), END, END};
static void make_flow(void *to, int i) {
    layout_flow(to, ONES(0, uint32_t), ONES(1, uint32_t), ONES(2, uint32_t), ONES(3, uint32_t));
}

static const field call[] = {ONCE(ancp_call, which),
                             ONCE(ancp_call, port),
                             ONCE(ancp_call, amount),
                             ONCE(ancp_call, preferred),
                             ONCE(ancp_call, flow.family),
                             ONCE(ancp_call, flow.sourced),
                             ONCE(ancp_call, flow.group),
                             ONCE(ancp_call, flow.source),
                             END,
                             ONCE(ancp_call, unused),
                             END};
static void make_call(void *to, int i) {
    layout_call(to, ONES(0, uint8_t), ONES(1, size_t), ONES(2, uint32_t), ONES(3, uint32_t), ONES(4, uint32_t),
                ONES(5, uint32_t), ONES(6, uint32_t), ONES(7, uint32_t));
}

static const field answer[] = {ONCE(ancp_answer, number), ONCE(ancp_answer, length), END, ONCE(ancp_answer, unused),
                               END};
static void make_answer(void *to, int i) {
    ancp_answer a = layout_answer(ONES(0, uint8_t), ONES(1, size_t));
    memcpy(to, &a, sizeof a);
}

static const field rows[] = {ONCE(ancp_rows, count), ONCE(ancp_rows, rows), END, END};
static void make_rows(void *to, int i) { layout_rows(to, ONES(0, size_t), ONES(1, uint8_t)); }

static const field request[] = {ONCE(ancp_request, asking), ONCE(ancp_request, required), ONCE(ancp_request, preferred),
                                ONCE(ancp_request, transaction), END, ONCE(ancp_request, unused), END};
static void make_request(void *to, int i) {
    ancp_request r = layout_request(FLAG(0), ONES(1, uint32_t), ONES(2, uint32_t), ONES(3, uint32_t));
    memcpy(to, &r, sizeof r);
}

static const field flow_state[] = {ONCE(ancp_flow_state, active), ONCE(ancp_flow_state, charged),
                                   ONCE(ancp_flow_state, accounting), END, END};
static void make_flow_state(void *to, int i) {
    ancp_flow_state s = layout_flow_state(FLAG(0), FLAG(1), ONES(2, uint8_t));
    memcpy(to, &s, sizeof s);
}

static const field fault[] = {ONCE(ancp_fault, row), ONCE(ancp_fault, table), ONCE(ancp_fault, field), END,
                              ONCE(ancp_fault, unused), END};
static void make_fault(void *to, int i) {
    ancp_fault f = layout_fault(ONES(0, size_t), ONES(1, uint8_t), ONES(2, uint8_t));
    memcpy(to, &f, sizeof f);
}

/* ---- */

static bool lies_in(const field *f, size_t octet) {
    for (size_t k = 0; k < f->times; k++)
        if (octet - (f->at + k * f->every) < f->size) return true;
    return false;
}

static bool is_unused(const field *unused, size_t octet) {
    for (; unused->name; unused++)
        if (lies_in(unused, octet)) return true;
    return false;
}

/* the places of field i: the first run of octets that change, how many runs, and how far they are apart */
static field found(void (*make)(void *, int), int i, const field *unused) {
    static uint8_t zero[SPACE], ones[SPACE];
    field f = {NULL, 0, 0, 0, 0};
    size_t last = 0;
    bool before = false;
    memset(zero, GUARD, SPACE);
    memset(ones, GUARD, SPACE);
    make(zero, -1);
    make(ones, i);
    for (size_t k = 0; k < SPACE; k++) {
        bool differs = zero[k] != ones[k] && !is_unused(unused, k);
        if (differs && !before) {
            if (f.times++ == 0) f.at = k;
            if (f.times == 2) f.every = k - last;
            last = k;
        }
        if (differs && f.times == 1) f.size++;
        before = differs;
    }
    return f;
}

/* octets that the proved code writes */
static size_t written(void (*make)(void *, int)) {
    static uint8_t a[SPACE], b[SPACE];
    size_t size = 0;
    memset(a, 0, SPACE);
    memset(b, 0xFF, SPACE);
    make(a, -1);
    make(b, -1);
    for (size_t k = 0; k < SPACE; k++)
        if (a[k] == b[k]) size = k + 1;
    return size;
}

static void hold(const char *name, size_t size, void (*make)(void *, int), const field *fields) {
    const field *unused = fields;
    size_t sum = 0, reached = written(make);
    while (unused->name) unused++;
    unused++;
    printf("%s: %zu octets\n", name, size);
    for (int i = 0; fields[i].name; i++) {
        const field *due = &fields[i];
        field is = found(make, i, unused);
        bool same = is.at == due->at && is.size == due->size && is.times == due->times && is.every == due->every;
        printf("  %-20s at %4zu, %3zu octets", due->name, is.at, is.size);
        if (is.times != 1) printf(", %zu times, every %zu", is.times, is.every);
        printf("%s\n", same ? "" : " WRONG in ancp_card.h");
        wrong += !same;
        sum += due->size * due->times;
    }
    for (; unused->name; unused++) sum += unused->size * unused->times;
    if (sum != size || reached > size || reached + 8 <= size) {
        wrong++;
        printf("  WRONG: fields of %zu octets in %zu, of which %zu are written\n", sum, size, reached);
    }
}

/* each struct of ANCP_LAYOUT has all its fields there: nothing lies between them */
static void whole(void) {
    static const struct { const char *type, *field; size_t size; } lines[] = {
#define STRUCT_LINE(type, size, align) {#type, NULL, size},
#define FIELD_LINE(type, field, at, size) {#type, #field, size},
        ANCP_LAYOUT(STRUCT_LINE, FIELD_LINE)};
    for (size_t i = 0; i < sizeof lines / sizeof *lines; i++) {
        size_t sum = 0;
        if (lines[i].field) continue;
        for (size_t k = 0; k < sizeof lines / sizeof *lines; k++)
            if (lines[k].field && strcmp(lines[k].type, lines[i].type) == 0) sum += lines[k].size;
        if (sum == lines[i].size) continue;
        wrong++;
        printf("WRONG: ANCP_LAYOUT has %zu of the %zu octets of %s\n", sum, lines[i].size, lines[i].type);
    }
}

int main(void) {
    hold("ancp_core", sizeof(ancp_core), make_core, core);
    hold("ancp_flow", sizeof(ancp_flow), make_flow, flow);
    hold("ancp_call", sizeof(ancp_call), make_call, call);
    hold("ancp_answer", sizeof(ancp_answer), make_answer, answer);
    hold("ancp_rows", sizeof(ancp_rows), make_rows, rows);
    hold("ancp_request", sizeof(ancp_request), make_request, request);
    hold("ancp_flow_state", sizeof(ancp_flow_state), make_flow_state, flow_state);
    hold("ancp_fault", sizeof(ancp_fault), make_fault, fault);
    whole();
    printf("layout: %u wrong\n", wrong);
    return wrong != 0;
}
