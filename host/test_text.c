/* Every function of ancp_text.h: a part of test.c */
#include "test.h"

static void number_texts(void) {
    static const uint16_t codes[] = {0, 2, 6, 0x13, 0x51, 0x53, 0x54, 0x55, 0x64, 0x65, 0x66, 0x67, 0x500};
    for (unsigned i = 0; i < 256; i++) {
        bool known = i <= 16 || (100 <= i && i <= 107);
        IS(strcmp(ancp_number_text((ancp_number)i), "no number of the card") != 0, known);
        for (unsigned k = 0; known && k < i; k++)
            HOLDS(strcmp(ancp_number_text((ancp_number)i), ancp_number_text((ancp_number)k)) != 0);
    }
    TEXT(ancp_number_text(ANCP_RATE), "rate does not fit");
    TEXT(ancp_number_text(ANCP_OVERLAP), "arguments overlap");
    for (unsigned i = 0; i < 4096; i++) {
        bool known = false;
        for (size_t k = 0; k < sizeof codes / sizeof *codes; k++) known = known || codes[k] == i;
        IS(strcmp(ancp_code_text((uint16_t)i), "no result code of the card") != 0, known);
    }
    TEXT(ancp_code_text(0x500), "one or more of the specified ports do not exist");
}

/* the text of an address made of text */
static const char *again(const char *address) {
    static char out[ANCP_ADDRESS_TEXT];
    ancp_family family = ANCP_IPV4;
    uint32_t words[4] = {7, 7, 7, 7};
    if (ancp_address_from_text(&family, words, address) != ANCP_DONE) {
        IS(words[0] == 7 && words[3] == 7, 1);
        return "";
    }
    size_t n = ancp_address_text(out, sizeof out, family, words);
    IS(n, strlen(out));
    return out;
}

static void addresses(void) {
    static const char *const good_ones[][2] = {{"0.0.0.0", "0.0.0.0"},
                                               {"255.255.255.255", "255.255.255.255"},
                                               {"233.252.0.1", "233.252.0.1"},
                                               {"::", "::"},
                                               {"::1", "::1"},
                                               {"1::", "1::"},
                                               {"FF3E::8000:1", "ff3e::8000:1"},
                                               {"1:2:3:4:5:6:7:8", "1:2:3:4:5:6:7:8"},
                                               {"1:0:0:2:0:0:0:3", "1:0:0:2::3"},
                                               {"1:0:0:2:0:0:3:4", "1::2:0:0:3:4"},
                                               {"1:0:2:3:4:5:6:7", "1:0:2:3:4:5:6:7"},
                                               {"::ffff:1.2.3.4", "::ffff:102:304"},
                                               {"1:2:3:4:5:6:1.2.3.4", "1:2:3:4:5:6:102:304"},
                                               {"1:2:3:4:5:6:7::", "1:2:3:4:5:6:7:0"},
                                               {"::2:3:4:5:6:7:8", "0:2:3:4:5:6:7:8"},
                                               {"0001:0db8::", "1:db8::"}};
    static const char *const bad_ones[] = {"",
                                           " ",
                                           "1",
                                           "1.2.3",
                                           "1.2.3.4.5",
                                           "1.2.3.256",
                                           "01.2.3.4",
                                           "1.2.3.4 ",
                                           " 1.2.3.4",
                                           "1..2.3",
                                           "1.2.3.",
                                           "-1.2.3.4",
                                           "1.2.3.4/8",
                                           "0x1.2.3.4",
                                           ":",
                                           ":::",
                                           "1:2",
                                           "1:2:3:4:5:6:7",
                                           "1:2:3:4:5:6:7:8:9",
                                           "1::2::3",
                                           "12345::",
                                           "g::",
                                           "1:",
                                           ":1",
                                           "1:2:3:4:5:6:7:8::",
                                           "::1:2:3:4:5:6:7:8",
                                           "1:2:3:4:5:6:7:1.2.3.4",
                                           "::1.2.3",
                                           "1.2.3.4::",
                                           "fe80::1%eth0",
                                           "1:::2"};
    for (size_t i = 0; i < sizeof good_ones / sizeof *good_ones; i++) TEXT(again(good_ones[i][0]), good_ones[i][1]);
    for (size_t i = 0; i < sizeof bad_ones / sizeof *bad_ones; i++) TEXT(again(bad_ones[i]), "");
}

static void flow_texts(void) {
    char out[ANCP_FLOW_TEXT], small[8];
    ancp_flow f = white, kept = white;
    uint32_t words[4] = {0x01020304, 0, 0, 0};
    ancp_family family = ANCP_IPV4;
    fill();
    IS(ancp_flow_text(out, sizeof out, &white), strlen("(*, 233.252.0.1)"));
    TEXT(out, "(*, 233.252.0.1)");
    ancp_flow_text(out, sizeof out, &six);
    TEXT(out, "(2001:db8::1, ff3e::8000:1)");
    IS(ancp_flow_from_text(&f, "1:2:3:4:5:6:7:8", "ffff:ffff:ffff:ffff:ffff:ffff:ffff:ffff"), ANCP_DONE);
    HOLDS(ancp_flow_text(out, sizeof out, &f) < ANCP_FLOW_TEXT);
    memset(f.group, 0xFF, sizeof f.group);
    IS(ancp_flow_text(out, sizeof out, &f), ANCP_FLOW_TEXT - 2);
    IS(ancp_flow_text(small, sizeof small, &white), 16);
    TEXT(small, "(*, 233");
    IS(ancp_flow_text(NULL, 0, &white), 16);
    IS(ancp_address_text(small, 0, ANCP_IPV4, words), 7);
    IS(ancp_flow_text(out, sizeof out, NULL), 0);
    IS(ancp_address_text(out, sizeof out, ANCP_IPV4, NULL), 0);
    f = kept;
    IS(ancp_flow_from_text(&f, "233.252.0.1", "2001:db8::1"), ANCP_BAD_TEXT);
    IS(ancp_flow_from_text(&f, "233.252.0.1.", NULL), ANCP_BAD_TEXT);
    IS(ancp_flow_from_text(&f, "233.252.0.1", "x"), ANCP_BAD_TEXT);
    IS(ancp_flow_from_text(&f, NULL, NULL), ANCP_NULL);
    IS(ancp_flow_from_text(NULL, "233.252.0.1", NULL), ANCP_NULL);
    IS(memcmp(&f, &kept, sizeof f), 0);
    IS(ancp_address_from_text(NULL, words, "1.2.3.4"), ANCP_NULL);
    IS(ancp_address_from_text(&family, NULL, "1.2.3.4"), ANCP_NULL);
    IS(ancp_address_from_text(&family, words, NULL), ANCP_NULL);
}

static void port_texts(void) {
    char out[2048];
    begin(true, false);
    IS(ancp_card_join(&card, &tables, 0, &white, reply, ROOM, &length), ANCP_DONE);
    IS(send_in(command(head(144, 1, 7), 1, 1, &grey)), ANCP_DONE);
    IS(ancp_card_ask(&card, &tables, 0, 5000, 6000, reply, ROOM, &length), ANCP_DONE);
    size_t n = ancp_card_port_text(out, sizeof out, &card, &tables, 0);
    IS(n, strlen(out));
    TEXT(out, "port 0 \"p1\": up, delegation 4000, committed 1000\n"
              "  asks for 5000, preferred 6000, by transaction 11259375\n"
              "  channel 0 (*, 233.252.0.1), rate 1000, charged, accounting 0\n"
              "  channel 1 (*, 233.252.0.2), rate 500, not charged, accounting 1\n");
    IS(ancp_set_port(&tables, 1, "\"\\\n", 3), ANCP_DONE);
    ancp_card_port_text(out, sizeof out, &card, &tables, 1);
    TEXT(out, "port 1 \"\\x22\\x5C\\x0A\": down, delegation 0, committed 0\n");
    IS(ancp_card_port_text(out, 7, &card, &tables, 1), 55);
    TEXT(out, "port 1");
    ancp_card_port_text(out, sizeof out, &card, &tables, 3);
    TEXT(out, "port 3: none\n");
    ancp_card_port_text(out, sizeof out, NULL, &tables, 0);
    TEXT(out, "port 0: none\n");
    ancp_card_port_text(out, sizeof out, &card, NULL, 0);
    TEXT(out, "port 0: none\n");
}

void texts(void) {
    number_texts();
    addresses();
    flow_texts();
    port_texts();
}
