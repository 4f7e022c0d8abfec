/* A host of one line: starts a card, brings the line up, sets its delegation, joins a channel, and hands in the message
   of a file. Then it sends COUNT messages of its own to the server (it prints them): grey joins and requests for
   bandwidth by turns. What must outlast a restart, the limit of README's "A restart", is in LIMIT-FILE. Use: example
   MESSAGE-FILE LIMIT-FILE [COUNT] */
#define _POSIX_C_SOURCE 200809L
#include "ancp_card.h"
#include "ancp_text.h"
#include <errno.h>
#include <fcntl.h>
#include <stdio.h>
#include <stdlib.h>
#include <unistd.h>

#ifndef BLOCK
#define BLOCK 1024u /* numbers to one write of the file */
#define FEW 16u     /* at least 1: how many must be left before a call that may take one */
#endif
#ifndef STEP
#define STEP() ((void)0) /* where `make restart` kills the host */
#endif

static ancp_tables tables;
static ancp_card card;
static ancp_flow channel, grey, all;
static const char *limit_file;
static uint32_t limit;

static int failed(const char *what, ancp_number number) {
    if (number != ANCP_DONE) fprintf(stderr, "%s: %u, %s\n", what, number, ancp_number_text(number));
    return number != ANCP_DONE;
}

/* The file's limit: no number from it on has been sent. No file: nothing has been sent yet, and the first number is 1.
   A file that cannot be read or holds no transaction number is no first use: 0, with which nothing starts. */
static uint32_t stored(void) {
    unsigned number = 0;
    char end = 0;
    FILE *in = fopen(limit_file, "r");
    if (!in) return errno == ENOENT ? 1 : 0;
    int read = fscanf(in, "%8u%c", &number, &end);
    fclose(in);
    return read == 2 && end == '\n' ? ancp_number_after(number, 0) : 0;
}

static bool synced_directory(void) {
    char path[4096];
    if (snprintf(path, sizeof path, "%s", limit_file) >= (int)sizeof path) return false;
    char *slash = strrchr(path, '/');
    if (slash) slash[1] = 0;
    int f = open(slash ? path : ".", O_RDONLY);
    if (f < 0) return false;
    bool ok = fsync(f) == 0;
    close(f);
    return ok;
}

/* True: the limit is on the disk. The file is replaced whole, so that a kill leaves the old limit or the new one. */
static bool store(uint32_t number) {
    char text[16], path[4096];
    int n = snprintf(text, sizeof text, "%u\n", number);
    if (snprintf(path, sizeof path, "%s.new", limit_file) >= (int)sizeof path) return false;
    int f = open(path, O_WRONLY | O_CREAT | O_TRUNC, 0644);
    if (f < 0) return false;
    STEP();
    bool ok = write(f, text, (size_t)n) == n;
    STEP();
    ok = fsync(f) == 0 && ok;
    STEP();
    ok = close(f) == 0 && ok;
    STEP();
    ok = ok && rename(path, limit_file) == 0;
    STEP();
    ok = ok && synced_directory();
    STEP();
    if (!ok) perror(limit_file);
    return ok;
}

/* Before a call that may take a number: when few are left, the next limit is stored first. */
static bool kept(void) {
    uint32_t next = ancp_number_after(limit, BLOCK);
    if (FEW <= ancp_numbers_left(ancp_card_next_transaction(&card), limit)) return true;
    if (!store(next)) return false;
    limit = next;
    return true;
}

static void send_out(const uint8_t *octets, size_t length) {
    printf("sent ");
    for (size_t i = 0; i < length; i++) printf("%02X", octets[i]);
    printf("\n");
    fflush(stdout);
}

/* One message to the server. Setting the delegation closes a request that is open. */
static int request(bool ask) {
    static uint8_t octets[ANCP_REPLY];
    size_t length = 0;
    if (!kept()) return 1;
    STEP();
    if (ask) {
        if (failed("set delegation", ancp_card_set_delegation(&card, &tables, 0, 4000))) return 1;
        if (failed("ask", ancp_card_ask(&card, &tables, 0, 5000, 6000, octets, sizeof octets, &length))) return 1;
    } else {
        ancp_number number = ancp_card_join(&card, &tables, 0, &grey, octets, sizeof octets, &length);
        if (number != ANCP_GREY) return fprintf(stderr, "grey join: %u\n", number), 1;
    }
    STEP();
    send_out(octets, length);
    STEP();
    return 0;
}

/* The message of a file, and the card's answer. */
static int received(const char *file) {
    static uint8_t octets[ANCP_MESSAGE + 1], reply[ANCP_REPLY];
    size_t length = 0;
    FILE *in = fopen(file, "rb");
    if (!in) {
        perror(file);
        return 1;
    }
    size_t n = fread(octets, 1, sizeof octets, in);
    fclose(in);
    ancp_number number = ancp_card_message(&card, &tables, octets, n, reply, sizeof reply, &length);
    printf("answer %u, reply of %zu octets: ", number, length);
    for (size_t i = 0; i < length; i++) printf("%02X", reply[i]);
    printf("\n");
    return 0;
}

/* One port, a white channel and a grey one. */
static int filled(void) {
    return failed("channel", ancp_flow_from_text(&channel, "233.252.0.1", NULL)) ||
           failed("grey", ancp_flow_from_text(&grey, "233.252.0.2", NULL)) ||
           failed("all", ancp_flow_from_text(&all, "224.0.0.0", NULL)) ||
           failed("port", ancp_set_port(&tables, 0, "p1", 2)) ||
           failed("channel", ancp_set_channel(&tables, 0, &channel, 1000)) ||
           failed("channel", ancp_set_channel(&tables, 1, &grey, 1000)) ||
           failed("entry", ancp_set_entry(&tables, 0, ANCP_LIST_WHITE, &all, 4, 0)) ||
           failed("entry", ancp_set_entry(&tables, 1, ANCP_LIST_GREY, &grey, 32, 0));
}

/* Why a start is refused. */
static int why(uint32_t first) {
    ancp_fault fault;
    char text[128];
    if (ancp_card_start_fault(&fault, &tables, 1, 2, 2, first) != ANCP_BAD_START) return 1;
    ancp_fault_text(text, sizeof text, &fault);
    fprintf(stderr, "%s\n", text);
    return 1;
}

int main(int argc, char **argv) {
    uint8_t reply[ANCP_REPLY];
    size_t length = 0;

    if (argc != 3 && argc != 4) {
        fprintf(stderr, "use: %s MESSAGE-FILE LIMIT-FILE [COUNT]\n", argv[0]);
        return 2;
    }
    if (filled()) return 1;

    /* the stored limit is the first number; the limit moved on by a block is stored before the card starts */
    limit_file = argv[2];
    uint32_t first = stored();
    limit = ancp_number_after(first, BLOCK);
    STEP();
    if (!limit) return fprintf(stderr, "%s: no transaction number\n", limit_file), 1;
    if (!store(limit)) return 1;
    if (failed("start", ancp_card_start(&card, &tables, 1, 2, 2, true, true, first))) return why(first);
    STEP();
    if (failed("port up", ancp_card_port_up(&card, &tables, 0))) return 1;
    if (failed("set delegation", ancp_card_set_delegation(&card, &tables, 0, 4000))) return 1;
    if (failed("join", ancp_card_join(&card, &tables, 0, &channel, reply, sizeof reply, &length))) return 1;
    printf("committed %llu of %u\n", (unsigned long long)ancp_card_committed(&card, &tables, 0),
           ancp_card_delegation(&card, 0));
    if (received(argv[1])) return 1;
    for (int i = 0, count = argc == 4 ? atoi(argv[3]) : 0; i < count; i++)
        if (request(i % 2 == 1)) return 1;
    printf("next transaction number %u\n", ancp_card_next_transaction(&card));
    return 0;
}
