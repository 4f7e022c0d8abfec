/* Names as text for a host of ancp_card.h: numbers, result codes, addresses, a port. The functions are in
   libancp_card.a; they are plain C (host/text.c), not proved, and use no locale.

   A function that writes text works as snprintf: `out` gets at most space - 1 characters and a 0 after them, and what
   comes back is how long the whole text is. With space 0 nothing is written, and `out` may be NULL. */
#ifndef ANCP_TEXT_H
#define ANCP_TEXT_H

#include "ancp_card.h"

#ifdef __cplusplus
extern "C" {
#endif

/* room for any address, and for any flow */
enum { ANCP_ADDRESS_TEXT = 40, ANCP_FLOW_TEXT = 84 };

/* what a number means; never NULL */
const char *ancp_number_text(ancp_number number);

/* what the Result Code of a message means that the card writes (the low 12 bits of octets 6 and 7); never NULL */
const char *ancp_code_text(uint16_t code);

/* 233.252.0.1, ff3e::1 */
size_t ancp_address_text(char *out, size_t space, ancp_family family, const uint32_t address[4]);

/* ANCP_DONE, or ANCP_BAD_TEXT, and nothing is written */
ancp_number ancp_address_from_text(ancp_family *family, uint32_t address[4], const char *text);

/* (source, group), with * where there is no source */
size_t ancp_flow_text(char *out, size_t space, const ancp_flow *f);

/* source is NULL where there is none; ANCP_DONE, or ANCP_BAD_TEXT, and nothing is written */
ancp_number ancp_flow_from_text(ancp_flow *f, const char *group, const char *source);

/* where a start's tables are wrong: "channels, row 3: rate not 1 to 10,000,000" */
size_t ancp_fault_text(char *out, size_t space, const ancp_fault *fault);

/* a port for a log, as the readers of ancp_card.h say: a line for the port, one for its open request, one for each flow */
size_t ancp_card_port_text(char *out, size_t space, const ancp_card *card, const ancp_tables *t, size_t p);

#ifdef __cplusplus
}
#endif
#endif
