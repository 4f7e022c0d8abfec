/* Finding a channel among 256 and deciding among 128 list entries: the proved functions against plain C loops, in one run.
   Build and run: bench/run */
#include "ancp_card.h"
#include <stdio.h>
#include <stdlib.h>
#include <string.h>
#include <time.h>

typedef ancp_flow flow;

uint32_t speed_channel(const uint32_t *channels, size_t n, flow f);
uint32_t speed_list(const uint32_t *entries, size_t n, flow f);

static uint32_t channels[256 * 11], entries[128 * 12], matching[128 * 12];

__attribute__((noinline)) static uint32_t c_channel(const uint32_t *t, size_t n, const flow *f) {
    for (size_t i = 0; i < n; i++) {
        const uint32_t *r = t + i * 11;
        if (r[0] == (uint32_t)f->family && r[1] == f->sourced && !memcmp(r + 3, f->group, 16) && !memcmp(r + 7, f->source, 16)) return (uint32_t)i;
    }
    return 256;
}

static int prefix(uint32_t n, const uint32_t *a, const uint32_t *b) {
    for (int w = 0; w < 4 && n; w++) {
        uint32_t k = n < 32 ? n : 32;
        if ((a[w] ^ b[w]) >> (32 - k)) return 0;
        n -= k;
    }
    return 1;
}

__attribute__((noinline)) static uint32_t c_list(const uint32_t *t, size_t n, const flow *f) {
    static const uint32_t strength[4] = {0, 1, 3, 2}, list[4] = {0, 1, 3, 2};
    uint64_t best = 0;
    for (size_t i = 0; i < n; i++) {
        const uint32_t *e = t + i * 12;
        if (e[0] != (uint32_t)f->family || !prefix(e[2], e + 4, f->group)) continue;
        if (f->sourced ? !prefix(e[3], e + 8, f->source) : e[3] != 0) continue;
        uint64_t rank = (uint64_t)e[2] << 34 | (uint64_t)e[3] << 2 | (e[1] < 4 ? strength[e[1]] : 0);
        if (rank > best) best = rank;
    }
    return list[best % 4];
}

static double now(void) { struct timespec t; clock_gettime(CLOCK_MONOTONIC, &t); return (double)t.tv_sec * 1e9 + (double)t.tv_nsec; }

static void fill(uint32_t family) {
    memset(channels, 0, sizeof channels);
    memset(entries, 0, sizeof entries);
    int last = family == 1 ? 0 : 3;
    for (int i = 0; i < 256; i++) {
        uint32_t *r = channels + i * 11;
        r[0] = family; r[1] = 1; r[2] = 2000;
        r[3] = family == 1 ? 0xE9FC0000 : 0xFF340000;
        r[3 + last] += (uint32_t)i + 1;
        r[7] = family == 1 ? 0xC0000200 : 0x20010DB8;
        r[7 + last] += 1;
    }
    for (int i = 0; i < 128; i++) {
        uint32_t *e = entries + i * 12;
        e[0] = family; e[1] = i % 2 ? 1 + (uint32_t)i / 9 % 2 * 2 : 2;
        e[2] = family == 1 ? 24 + (uint32_t)i % 9 : 120 + (uint32_t)i % 9;
        e[3] = (uint32_t)i % 2 * 16;
        memcpy(e + 4, channels + (i * 2 % 256) * 11 + 3, 16);
        memcpy(e + 8, channels + 7, 16);
    }
}

/* the same entries, each with the prefixes of this flow: all match it */
static void fill_matching(const flow *f) {
    memcpy(matching, entries, sizeof matching);
    for (int i = 0; i < 128; i++) {
        memcpy(matching + i * 12 + 4, f->group, 16);
        memcpy(matching + i * 12 + 8, f->source, 16);
    }
}

static flow row(int i) { flow f; const uint32_t *r = channels + i * 11; f.family = (ancp_family)r[0]; f.sourced = r[1]; memcpy(f.group, r + 3, 16); memcpy(f.source, r + 7, 16); return f; }

/* ---- what is measured: the proved function, and behind it the C loop */
typedef uint32_t measured(const flow *);
static uint32_t proved_channel(const flow *f) { return speed_channel(channels, 256, *f); }
static uint32_t plain_channel(const flow *f) { return c_channel(channels, 256, f); }
static uint32_t proved_list(const flow *f) { return speed_list(entries, 128, *f); }
static uint32_t plain_list(const flow *f) { return c_list(entries, 128, f); }
static uint32_t proved_matching(const flow *f) { return speed_list(matching, 128, *f); }
static uint32_t plain_matching(const flow *f) { return c_list(matching, 128, f); }

enum { ROWS = 3 };
static const char *const names[ROWS] = {"last of 256 channels", "128 entries", "128 entries, all matching"};
static measured *const calls[ROWS][2] = {
    {proved_channel, plain_channel}, {proved_list, plain_list}, {proved_matching, plain_matching}};

/* ends the program where the two differ on one of the 256 flows */
static void compare(void) {
    for (int i = 0; i < 256 * ROWS; i++) {
        flow f = row(i / ROWS);
        if (calls[i % ROWS][0](&f) == calls[i % ROWS][1](&f)) continue;
        puts("differ");
        exit(1);
    }
}

static double timed(measured *call, const flow *f) {
    enum { N = 2000 };
    static volatile uint32_t sink;
    double from = now();
    for (int i = 0; i < N; i++) sink += call(f);
    return (now() - from) / N;
}

/* the least of many rounds, each through all that is measured */
static void measure(const flow *f) {
    double least[ROWS][2] = {{1e9, 1e9}, {1e9, 1e9}, {1e9, 1e9}};
    for (int i = 0; i < 400 * ROWS * 2; i++) {
        int r = i / 2 % ROWS, c = i % 2;
        double took = timed(calls[r][c], f);
        if (took < least[r][c]) least[r][c] = took;
    }
    for (int r = 0; r < ROWS; r++) printf("%s%s %4.0f ns, C %4.0f ns", r ? "; " : "", names[r], least[r][0], least[r][1]);
    putchar('\n');
}

int main(void) {
    for (uint32_t family = 1; family <= 2; family++) {
        fill(family);
        flow f = row(255);
        fill_matching(&f);
        compare();
        printf("IPv%d: ", family == 1 ? 4 : 6);
        measure(&f);
    }
    return 0;
}
