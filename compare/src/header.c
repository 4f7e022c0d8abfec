/* The functions of include/ancp_card.h for Rust, which cannot call inline ones: what is compared is the card as a host
   in C has it. With -DSIZES the program that writes the sizes of card and tables for Rust. */
#include "ancp_card.h"

#ifdef SIZES
#include <stdio.h>
int main(void) {
    printf("pub const CARD_OCTETS: usize = %zu;\npub const TABLES_OCTETS: usize = %zu;\n", sizeof(ancp_card),
           sizeof(ancp_tables));
    return 0;
}
#else

/* a flow as ten words: family, sourced, group, source */
static ancp_flow flow_of(const uint32_t *words) {
    ancp_flow f = {(ancp_family)words[0], words[1], {0}, {0}};
    memcpy(f.group, words + 2, sizeof f.group);
    memcpy(f.source, words + 6, sizeof f.source);
    return f;
}

/* ---- rows; those that the setters refuse, too: a start must refuse them */
void compare_set_port(ancp_tables *t, size_t p, uint8_t length, const uint8_t *octets) {
    ancp_set_port(t, p, octets, ANCP_ID_ROW - 1);
    t->ids[p * ANCP_ID_ROW] = length;
}
void compare_set_channel(ancp_tables *t, size_t k, const uint32_t *words, uint32_t rate) {
    ancp_flow f = flow_of(words);
    ancp_set_channel(t, k, &f, rate);
}
void compare_set_entry(ancp_tables *t, size_t i, uint32_t list, const uint32_t *words, uint32_t group_bits,
                       uint32_t source_bits) {
    ancp_flow f = flow_of(words);
    ancp_set_entry(t, i, (ancp_list)list, &f, 0, 0);
    t->entries[i * ANCP_ENTRY_ROW + 2] = group_bits;
    t->entries[i * ANCP_ENTRY_ROW + 3] = source_bits;
}

/* ---- calls */
uint32_t compare_start(ancp_card *card, const ancp_tables *t, size_t ports, size_t channels, size_t entries,
                       bool white_cac, bool add_cac, uint32_t first) {
    return ancp_card_start(card, t, ports, channels, entries, white_cac, add_cac, first);
}
uint32_t compare_port_up(ancp_card *card, const ancp_tables *t, size_t p) { return ancp_card_port_up(card, t, p); }
uint32_t compare_port_down(ancp_card *card, const ancp_tables *t, size_t p) { return ancp_card_port_down(card, t, p); }
uint32_t compare_set_delegation(ancp_card *card, const ancp_tables *t, size_t p, uint32_t amount) {
    return ancp_card_set_delegation(card, t, p, amount);
}
uint32_t compare_join(ancp_card *card, const ancp_tables *t, size_t p, const uint32_t *words, uint8_t *reply,
                      size_t space, size_t *length) {
    ancp_flow f = flow_of(words);
    return ancp_card_join(card, t, p, &f, reply, space, length);
}
uint32_t compare_leave(ancp_card *card, const ancp_tables *t, size_t p, const uint32_t *words) {
    ancp_flow f = flow_of(words);
    return ancp_card_leave(card, t, p, &f);
}
uint32_t compare_ask(ancp_card *card, const ancp_tables *t, size_t p, uint32_t required, uint32_t preferred,
                     uint8_t *reply, size_t space, size_t *length) {
    return ancp_card_ask(card, t, p, required, preferred, reply, space, length);
}
uint32_t compare_message(ancp_card *card, const ancp_tables *t, const uint8_t *octets, size_t n, uint8_t *reply,
                         size_t space, size_t *length) {
    return ancp_card_message(card, t, octets, n, reply, space, length);
}

/* ---- readers */
bool compare_is_up(const ancp_card *card, size_t p) { return ancp_card_is_up(card, p); }
uint32_t compare_delegation(const ancp_card *card, size_t p) { return ancp_card_delegation(card, p); }
uint64_t compare_committed(const ancp_card *card, const ancp_tables *t, size_t p) {
    return ancp_card_committed(card, t, p);
}
size_t compare_extras(const ancp_card *card) { return ancp_card_extras(card); }
uint32_t compare_next_transaction(const ancp_card *card) { return ancp_card_next_transaction(card); }
bool compare_is_active(const ancp_card *card, const ancp_tables *t, size_t p, const uint32_t *words) {
    ancp_flow f = flow_of(words);
    return ancp_card_is_active(card, t, p, &f);
}
size_t compare_flows(const ancp_card *card, const ancp_tables *t, size_t p, uint8_t *rows) {
    ancp_rows flows = ancp_card_flows(card, t, p);
    memcpy(rows, flows.rows, sizeof flows.rows);
    return flows.count;
}

/* what is unused is zero, after every call */
bool compare_is_clean(const ancp_card *card) {
    for (size_t p = 0; p < ANCP_PORTS; p++)
        if (card->core.ports[p].unused) return false;
    return card->core.head.unused == 0;
}

/* the open request: required, preferred, transaction; false where there is none */
bool compare_request(const ancp_card *card, size_t p, uint32_t *figures) {
    ancp_request request = ancp_card_request(card, p);
    figures[0] = request.required;
    figures[1] = request.preferred;
    figures[2] = request.transaction;
    return request.asking;
}

/* accounting and charge of the port's flow on a channel row; false where there is none */
bool compare_marks(const ancp_card *card, size_t p, uint8_t row, uint8_t *marks) {
    ancp_flow_state state = ancp_card_flow_of_row(card, p, row);
    marks[0] = state.accounting;
    marks[1] = state.charged;
    return state.active;
}
#endif
