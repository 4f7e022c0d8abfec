/* ancp_number_after and ancp_numbers_left at the edges of the circle, against plain remainders, and all around it. */
#include "ancp_card.h"
#include <stdio.h>

enum { LAST = 16777215 };
static unsigned long tried, wrong;

static void same(const char *what, uint32_t a, uint32_t b, uint64_t is, uint64_t due) {
    tried++;
    if (is == due) return;
    wrong++;
    printf("%s(%u, %u) is %llu, not %llu\n", what, a, b, (unsigned long long)is, (unsigned long long)due);
}

static bool number(uint32_t n) { return 1 <= n && n <= LAST; }

static void pair(uint32_t a, uint32_t b) {
    uint32_t after = ancp_number_after(a, b), left = ancp_numbers_left(a, b);
    same("ancp_number_after", a, b, after, number(a) ? ((uint64_t)a - 1 + b) % LAST + 1 : 0);
    same("ancp_numbers_left", a, b, left, number(a) && number(b) ? ((uint64_t)b + LAST - a) % LAST : 0);
    if (number(a) && number(b)) same("ancp_number_after the numbers left", a, b, ancp_number_after(a, left), b);
}

/* All of the circle from `first`, a number at a time */
static void walk(uint32_t first) {
    uint32_t n = first;
    for (uint32_t by = 0; by < LAST; by++) {
        same("ancp_number_after", first, by, ancp_number_after(first, by), n);
        same("ancp_numbers_left", first, n, ancp_numbers_left(first, n), by);
        n = n == LAST ? 1 : n + 1;
    }
    same("ancp_number_after", first, LAST, ancp_number_after(first, LAST), first);
}

int main(void) {
    static const uint32_t edges[] = {0,
                                     1,
                                     2,
                                     3,
                                     1023,
                                     1024,
                                     8388607,
                                     8388608,
                                     LAST - 1024,
                                     LAST - 2,
                                     LAST - 1,
                                     LAST,
                                     LAST + 1,
                                     LAST + 2,
                                     2 * LAST - 1,
                                     2 * LAST,
                                     2 * LAST + 1,
                                     255u * LAST,
                                     256u * LAST,
                                     0x7FFFFFFFu,
                                     0x80000000u,
                                     0xFFFFFFFEu,
                                     0xFFFFFFFFu};
    enum { COUNT = sizeof edges / sizeof *edges };
    for (size_t i = 0; i < COUNT; i++)
        for (size_t k = 0; k < COUNT; k++) pair(edges[i], edges[k]);
    walk(1);
    walk(LAST - 5);
    printf("numbers: %lu values, %lu wrong\n", tried, wrong);
    return wrong != 0;
}
