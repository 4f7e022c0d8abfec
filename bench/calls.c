/* Whole calls of the card: a join against a plain C version on the same arrays, messages of growing size, and how much stack a call takes.
   Build and run: bench/run */
#include "ancp_card.h"
#include <pthread.h>
#include <stdio.h>
#include <stdlib.h>
#include <string.h>
#include <time.h>

static ancp_tables tables;
static uint8_t reply[ANCP_REPLY];
static uint32_t *const channels = tables.channels, *const entries = tables.entries;

static double now(void) { struct timespec t; clock_gettime(CLOCK_MONOTONIC, &t); return (double)t.tv_sec * 1e9 + (double)t.tv_nsec; }

static ancp_flow nth(unsigned k) { ancp_flow f = {ANCP_IPV4, 0, {0xE9000000u + k, 0, 0, 0}, {0, 0, 0, 0}}; return f; }

/* 64 ports of one octet each, 256 channels of rate 1, 128 entries of which the last is white for all groups */
static ancp_card fresh(bool add) {
    static ancp_card c;
    for (unsigned p = 0; p < ANCP_PORTS; p++) { uint8_t id = (uint8_t)(p + 1); ancp_set_port(&tables, p, &id, 1); }
    for (unsigned k = 0; k < ANCP_CHANNELS; k++) { ancp_flow f = nth(k); ancp_set_channel(&tables, k, &f, 1); }
    for (unsigned i = 0; i < ANCP_ENTRIES; i++) {
        bool last = i == ANCP_ENTRIES - 1;
        ancp_flow f = {ANCP_IPV4, 0, {last ? 0xE0000000u : 0xEF000000u + i, 0, 0, 0}, {0, 0, 0, 0}};
        ancp_set_entry(&tables, i, ANCP_LIST_WHITE, &f, last ? 4 : 32, 0);
    }
    ancp_number number = ancp_card_start(&c, &tables, ANCP_PORTS, ANCP_CHANNELS, ANCP_ENTRIES, true, add, 1);
    if (number != ANCP_DONE) { printf("start: %u\n", number); exit(1); }
    for (size_t p = 0; p < ANCP_PORTS; p++) { ancp_card_port_up(&c, &tables, p); ancp_card_set_delegation(&c, &tables, p, 1000000); }
    return c;
}

/* 256 extras: 16 flows on 21 ports, 8 on the next, 4 on the others but the last, which has 3 */
static ancp_card filled(bool add) {
    ancp_card c = fresh(add);
    for (size_t p = 0; p < 64; p++)
        for (unsigned k = 0; k < (p < 21 ? 16u : p == 21 ? 8u : p == 63 ? 3u : 4u); k++) {
            ancp_flow f = nth(k);
            ancp_card_join(&c, &tables, p, &f, reply, sizeof reply, NULL);
        }
    return c;
}

/* the same join, plainly: on the card in place, without its reply */
static bool same(const ancp_flow *a, const uint32_t *r) { return r[0] == (uint32_t)a->family && r[1] == a->sourced && !memcmp(r + 3, a->group, 16) && !memcmp(r + 7, a->source, 16); }

static int prefix(uint32_t n, const uint32_t *a, const uint32_t *b) {
    for (int w = 0; w < 4 && n; w++) {
        uint32_t k = n < 32 ? n : 32;
        if ((a[w] ^ b[w]) >> (32 - k)) return 0;
        n -= k;
    }
    return 1;
}

__attribute__((noinline)) static int plain_join(ancp_core *c, size_t p, const ancp_flow *f) {
    if (p >= c->head.port_count) return 7;
    if (!c->ports[p].up) return 6;
    size_t k = 0;
    while (k < c->head.channel_count && !same(f, channels + k * 11)) k++;
    if (k == c->head.channel_count) return 9;
    for (int i = 0; i < 512; i++) if (c->pool.owner[i] == p && c->pool.channel[i] == k) return 1;
    static const uint32_t strength[4] = {0, 1, 3, 2};
    uint32_t best = 0;
    for (size_t i = 0; i < c->head.entry_count; i++) {
        const uint32_t *e = entries + i * 12;
        if (e[0] != (uint32_t)f->family || !prefix(e[2], e + 4, f->group) || e[3] != 0) continue;
        uint32_t s = e[2] * 4 + strength[e[1] & 3];
        if (s > best) best = s;
    }
    if (best % 4 != 1) return 3;
    unsigned count[64] = {0}, extras = 0;
    uint64_t sum = 0;
    int unused = 512;
    for (int i = 0; i < 512; i++) {
        uint8_t o = c->pool.owner[i];
        if (o < 64) { count[o]++; if (o == p && c->pool.charged[i]) sum += channels[c->pool.channel[i] * 11 + 2]; }
        else if (unused == 512) unused = i;
    }
    for (int q = 0; q < 64; q++) if (count[q] > 4) extras += count[q] - 4;
    if (unused == 512 || !(count[p] < 4 || (count[p] < 16 && extras < 256))) return 5;
    if (c->head.white_cac && sum + channels[k * 11 + 2] > c->ports[p].delegation) return 4;
    c->pool.owner[unused] = (uint8_t)p; c->pool.channel[unused] = (uint8_t)k; c->pool.charged[unused] = c->head.white_cac; c->pool.accounting[unused] = 0;
    return 0;
}

/* ns of one join: the least of 40 rounds, by turns with the plain one */
static void joins(void) {
    static ancp_card c, d;
    c = filled(false);
    ancp_flow first = nth(3), last = nth(255);
    const ancp_flow *which[2] = {&first, &last};
    enum { N = 1000 };
    for (int i = 0; i < 2; i++) {
        unsigned a = 0, b = 0;
        double proved = 1e9, plain = 1e9;
        for (int round = 0; round < 40; round++) {
            double t0 = now();
            for (int r = 0; r < N; r++) { d = c; a += ancp_card_join(&d, &tables, 63, which[i], reply, sizeof reply, NULL); }
            double t1 = now();
            for (int r = 0; r < N; r++) { d = c; b += (unsigned)plain_join(&d.core, 63, which[i]); }
            double t2 = now();
            if (t1 - t0 < proved) proved = t1 - t0;
            if (t2 - t1 < plain) plain = t2 - t1;
        }
        printf("join, %s channel, full pool: proved %.0f ns, plain C %.0f ns, each with the card copied once for it%s\n", i ? "last" : "fourth", proved / N, plain / N, a == b ? "" : " DIFFERENT");
    }
}

/* ---- messages */
static size_t put16(uint8_t *m, size_t n, unsigned x) { m[n] = (uint8_t)(x >> 8); m[n + 1] = (uint8_t)x; return n + 2; }

static size_t head(uint8_t *m, unsigned kind, unsigned result) { memset(m, 0, 16); m[0] = 0x88; m[1] = 0x0C; m[4] = 0x32; m[5] = (uint8_t)kind; m[6] = (uint8_t)(result << 4); m[11] = 7; m[12] = 0x80; m[13] = 1; return 16; }

static size_t target(uint8_t *m, size_t n, unsigned p) { n = put16(m, n, 0x1000); n = put16(m, n, 8); n = put16(m, n, 1); n = put16(m, n, 1); m[n] = (uint8_t)(p + 1); m[n + 1] = m[n + 2] = m[n + 3] = 0; return n + 4; }

static size_t command(uint8_t *m, size_t n, unsigned code, ancp_flow f) {
    n = put16(m, n, 0x11); n = put16(m, n, 16); m[n] = (uint8_t)code; m[n + 1] = m[n + 2] = m[n + 3] = 0; n += 4;
    n = put16(m, n, 0x19); n = put16(m, n, 8); m[n] = 1; m[n + 1] = 1; n = put16(m, n + 2, 0);
    n = put16(m, n, f.group[0] >> 16);
    return put16(m, n, f.group[0] & 0xFFFF);
}

static size_t close16(uint8_t *m, size_t n) { put16(m, 2, (unsigned)(n - 4)); put16(m, 14, (unsigned)(n - 4)); return n; }

/* each of these messages leaves the card as it was, so that it is copied once */
static double measure(const char *what, const ancp_card *c, const uint8_t *m, size_t n) {
    static ancp_card d;
    int rounds = 4000;
    unsigned answer = 0;
    size_t length = 0;
    double t0 = now();
    d = *c;
    for (int r = 0; r < rounds; r++) answer = ancp_card_message(&d, &tables, m, n, reply, sizeof reply, &length);
    double ns = (now() - t0) / rounds;
    printf("%-50s %8.0f ns   (answer %u, reply of %zu octets)\n", what, ns, answer, length);
    return ns;
}

static void unusable(const char *what, ancp_card *c, const uint8_t *m, size_t n) {
    int rounds = 20000;
    unsigned answer = 0;
    double t0 = now();
    for (int r = 0; r < rounds; r++) answer += ancp_card_message(c, &tables, m, n, reply, sizeof reply, NULL);
    printf("%-50s %8.0f ns   (answer %u)\n", what, (now() - t0) / rounds, answer / (unsigned)rounds);
}

static void unusables(void) {
    static uint8_t m[115200];
    static ancp_card c;
    c = filled(true);
    unusable("unusable: 16 octets of zeros", &c, m, 16);
    unusable("unusable: 115,200 octets of zeros", &c, m, sizeof m);
    size_t n = target(m, head(m, 148, 2), 63);
    close16(m, n);
    m[4] = 0x31;
    unusable("unusable: 28 octets, version 0x31", &c, m, n);
    n = head(m, 148, 2);
    while (n + 4 <= 4084) { n = put16(m, n, 0x7777); n = put16(m, n, 0); }
    n = target(m, n, 63);
    close16(m, n);
    m[4] = 0x31;
    unusable("unusable: 4,096 octets, version 0x31", &c, m, n);
}

static void messages(void) {
    static uint8_t m[4096];
    static ancp_card c;
    c = filled(true);
    double ten = 0;
    for (unsigned count = 1; count <= 100; count *= 10) {
        char what[64];
        size_t n = target(m, head(m, 144, 1), 0);
        for (unsigned i = 0; i < count; i++) n = command(m, n, 1, nth(i % 16));
        snprintf(what, sizeof what, "144, %u repeated Adds", count);
        double ns = measure(what, &c, m, close16(m, n));
        if (count == 10) ten = ns;
        if (count == 100) printf("  100 commands to 10: %.1f\n", ns / ten);
    }
    for (unsigned count = 10; count <= 100; count *= 10) {
        char what[64];
        size_t n = target(m, head(m, 144, 1), 0);
        for (unsigned i = 0; i < count; i++) n = command(m, n, i % 2 ? 1 : 2, nth(15));
        snprintf(what, sizeof what, "144, %u commands, Delete and Add by turns", count);
        double ns = measure(what, &c, m, close16(m, n));
        if (count == 10) ten = ns;
        if (count == 100) printf("  100 commands to 10: %.1f\n", ns / ten);
    }
    size_t n = target(m, head(m, 148, 2), 0);
    measure("148", &c, m, close16(m, n));
    n = target(m, head(m, 148, 2), 63);
    measure("148, last of 64 ports", &c, m, close16(m, n));
    n = target(m, head(m, 148, 2), 0);
    head(m, 149, 2);
    measure("149, 16 flows", &c, m, close16(m, n));
    double small = 0;
    for (size_t size = 400; size <= 4096; size += 3696) {
        char what[64];
        n = target(m, head(m, 148, 2), 0);
        while (n + 4 <= size) { n = put16(m, n, 0x7777); n = put16(m, n, 0); }
        snprintf(what, sizeof what, "148 among unknown TLVs, %zu octets", n);
        double ns = measure(what, &c, m, close16(m, n));
        if (size == 400) small = ns; else printf("  4,096 octets to 400: %.1f\n", ns / small);
    }
}

/* ---- readers, against a port up: none changes the card */
static void readers(void) {
    enum { ROUNDS = 200000 };
    static ancp_card c;
    ancp_flow last = nth(15);
    volatile uint64_t sink = 0;
    c = filled(true);
#define MEASURE(what, expression) do { \
        double t0 = now(); \
        for (int r = 0; r < ROUNDS; r++) sink += (uint64_t)(expression); \
        printf("%-50s %8.1f ns\n", what, (now() - t0) / ROUNDS); \
    } while (0)
    MEASURE("port up, on an up port", ancp_card_port_up(&c, &tables, 20));
    MEASURE("is up", ancp_card_is_up(&c, 20));
    MEASURE("delegation", ancp_card_delegation(&c, 20));
    MEASURE("committed, 16 flows", ancp_card_committed(&c, &tables, 20));
    MEASURE("flows, 16 flows", ancp_card_flows(&c, &tables, 20).count);
    MEASURE("is active, last of 16 flows", ancp_card_is_active(&c, &tables, 20, &last));
    MEASURE("flow, last of 16 flows", ancp_card_flow(&c, &tables, 20, &last).charged);
    MEASURE("request", ancp_card_request(&c, 20).asking);
    MEASURE("extras, full pool", ancp_card_extras(&c));
    MEASURE("next transaction", ancp_card_next_transaction(&c));
    (void)sink;
}

/* ---- stack: the free part of a thread's own stack is painted before a call, and looked at after it; a call's frames lie below this one's */
static uint8_t space[1 << 18] __attribute__((aligned(4096)));
enum { GAP = 512 }; /* room for paint's own frame, which is not painted */

__attribute__((noinline)) static size_t paint(void) {
    uintptr_t here = (uintptr_t)__builtin_frame_address(0), low = (uintptr_t)space;
    size_t n = here - low - GAP;
    for (size_t i = 0; i < n; i++) ((volatile uint8_t *)space)[i] = 0xA5;
    return n;
}

/* at most: what lies in the gap counts as used */
static size_t used(size_t top) {
    size_t i = 0;
    while (i < top && space[i] == 0xA5) i++;
    return top + GAP - i;
}

static void *deep(void *unused) {
    static uint8_t m[4096];
    static ancp_card c;
    ancp_flow last = nth(255);
    unsigned answer;
    (void)unused;
    c = filled(true);
    size_t n = target(m, head(m, 144, 2), 0);
    for (unsigned i = 0; i < 100; i++) n = command(m, n, i % 2 ? 1 : 2, nth(15));
    n = close16(m, command(m, n, 1, nth(200)));
    size_t top = paint();
    answer = ancp_card_message(&c, &tables, m, n, reply, sizeof reply, NULL);
    printf("stack of a message (144, 101 commands, answer %u): %zu octets\n", answer, used(top));
    top = paint();
    answer = ancp_card_join(&c, &tables, 63, &last, reply, sizeof reply, NULL);
    printf("stack of a join (answer %u): %zu octets; a card has %zu\n", answer, used(top), sizeof(ancp_card));
    top = paint();
    answer = (unsigned)ancp_card_flows(&c, &tables, 0).count;
    printf("stack of a reader (flows, %u): %zu octets\n", answer, used(top));
    top = paint();
    answer = ancp_card_start(&c, &tables, ANCP_PORTS, ANCP_CHANNELS, ANCP_ENTRIES, true, true, 1);
    printf("stack of a start (answer %u): %zu octets\n", answer, used(top));
    return NULL;
}

static void stack(void) {
    pthread_attr_t a;
    pthread_t t;
    pthread_attr_init(&a);
    pthread_attr_setstack(&a, space, sizeof space);
    if (!pthread_create(&t, &a, deep, NULL)) pthread_join(t, NULL);
}

int main(void) {
    joins();
    messages();
    unusables();
    readers();
#ifndef __SANITIZE_ADDRESS__ /* a sanitizer's frames are not the library's */
    stack();
#endif
    return 0;
}
