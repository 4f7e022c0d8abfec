/* What test.c and test_text.c share. requests.c, a program of its own, has the checks, tables, card and reply of it. */
#include "ancp_card.h"
#include "ancp_text.h"

/* the program ends with status 1 where a value is not what it must be */
extern unsigned long tried;
void same(const char *file, int line, const char *what, unsigned long long is, unsigned long long due);
void same_text(const char *file, int line, const char *what, const char *is, const char *due);
#define IS(what, due) same(__FILE__, __LINE__, #what, (unsigned long long)(what), (unsigned long long)(due))
#define HOLDS(what) IS(!!(what), 1)
#define TEXT(what, due) same_text(__FILE__, __LINE__, #what, what, due)

/* a card of three ports: p1, p2, and an id of 63 octets; channels: white 1000, grey 500, black 10, and 2000 for IPv6
   with a source */
extern ancp_tables tables;
extern ancp_card card;
extern uint8_t reply[ANCP_REPLY + 64];
extern ancp_flow white, grey, black, six, unlisted;
extern size_t length;
enum { FIRST = 0xABCDEF, ROOM = ANCP_REPLY };
void fill(void);
void begin(bool white_cac, bool add_cac); /* port 0 up with delegation 4000 */

/* a message: its header with a Target that names p1, commands, and that it comes in */
size_t head(unsigned kind, unsigned result, uint32_t transaction);
size_t command(size_t n, unsigned code, unsigned accounting, const ancp_flow *f);
ancp_number send_in(size_t n);

void texts(void);
