#ifndef ROWS_H
#define ROWS_H

#include "ipnetwork.h"

#include <stddef.h>

/* Texts, the fault of each family for them, and the canonical text of those that are accepted. */
struct row {
    const char *text;
    ipnetwork_fault v4, v6;
    const char *canonical;
};

#define YES IPNETWORK_OK
#define FORM IPNETWORK_FORMAT
#define ADDR IPNETWORK_ADDRESS
#define PREF IPNETWORK_PREFIX

static const struct row rows[] = {
    {"0.0.0.0", YES, ADDR, "0.0.0.0/32"},
    {"255.255.255.255", YES, ADDR, "255.255.255.255/32"},
    {"10.0.200.9/8", YES, ADDR, "10.0.200.9/8"},
    {"10.1.9.32/255.255.0.0", YES, ADDR, "10.1.9.32/16"},
    {"10.1.9.32/0.0.0.0", YES, ADDR, "10.1.9.32/0"},
    {"10.0.0.0/+32", YES, ADDR, "10.0.0.0/32"},
    {"10.0.0.0/00032", YES, ADDR, "10.0.0.0/32"},
    {"10.0.0.0/+008", YES, ADDR, "10.0.0.0/8"},
    {"", ADDR, ADDR, NULL},
    {"1.2.3", ADDR, ADDR, NULL},
    {"1.2.3.4.5", ADDR, ADDR, NULL},
    {"01.2.3.4", ADDR, ADDR, NULL},
    {"00.0.0.0", ADDR, ADDR, NULL},
    {"256.0.0.0", ADDR, ADDR, NULL},
    {"1.2.3.1000", ADDR, ADDR, NULL},
    {"1..2.3", ADDR, ADDR, NULL},
    {"1.2.3.", ADDR, ADDR, NULL},
    {".1.2.3", ADDR, ADDR, NULL},
    {"+1.2.3.4", ADDR, ADDR, NULL},
    {"0x1.2.3.4", ADDR, ADDR, NULL},
    {"1.2.3.4 ", ADDR, ADDR, NULL},
    {"10/8", ADDR, ADDR, NULL},
    {"x/y/z", FORM, FORM, NULL},
    {"//", FORM, FORM, NULL},
    {"10.0.0.0/8/", FORM, FORM, NULL},
    {"x/99", ADDR, ADDR, NULL},
    {"/", ADDR, ADDR, NULL},
    {"10.0.0.0/99", PREF, ADDR, NULL},
    {"10.0.0.0/", PREF, ADDR, NULL},
    {"10.0.0.0/+", PREF, ADDR, NULL},
    {"10.0.0.0/-0", PREF, ADDR, NULL},
    {"10.0.0.0/++1", PREF, ADDR, NULL},
    {"10.0.0.0/33", PREF, ADDR, NULL},
    {"10.0.0.0/256", PREF, ADDR, NULL},
    {"10.0.0.0/8.", PREF, ADDR, NULL},
    {"10.0.0.0/1 ", PREF, ADDR, NULL},
    {"10.0.0.0/255.0.255.0", PREF, ADDR, NULL},
    {"10.0.0.0/+255.0.0.0", PREF, ADDR, NULL},
    {"::", ADDR, YES, "::/128"},
    {"::1/0", ADDR, YES, "::1/0"},
    {"::1/+064", ADDR, YES, "::1/64"},
    {"0001:0002::00aB/128", ADDR, YES, "1:2::ab/128"},
    {"1:2:3:4:5:6:7::", ADDR, YES, "1:2:3:4:5:6:7:0/128"},
    {"::2:3:4:5:6:7:8", ADDR, YES, "0:2:3:4:5:6:7:8/128"},
    {"1::3:4:5:6:7:8", ADDR, YES, "1:0:3:4:5:6:7:8/128"},
    {"1:2:3:4:5:6:1.2.3.4/64", ADDR, YES, "1:2:3:4:5:6:102:304/64"},
    {"::1.2.3.4", ADDR, YES, "::102:304/128"},
    {"::ffff:0:0/96", ADDR, YES, "::ffff:0.0.0.0/96"},
    {"::FFFF:255.255.255.255", ADDR, YES, "::ffff:255.255.255.255/128"},
    {"::fffe:1.2.3.4", ADDR, YES, "::fffe:102:304/128"},
    {"0:0:1:0:0:1:0:0", ADDR, YES, "::1:0:0:1:0:0/128"},
    {"1:0:0:1:0:0:0:0", ADDR, YES, "1:0:0:1::/128"},
    {"ffff:ffff:ffff:ffff:ffff:ffff:ffff:ffff/128", ADDR, YES, "ffff:ffff:ffff:ffff:ffff:ffff:ffff:ffff/128"},
    {":", ADDR, ADDR, NULL},
    {"1:2:3:4:5:6:7", ADDR, ADDR, NULL},
    {"1:2:3:4:5:6:7:8:9", ADDR, ADDR, NULL},
    {"1:2:3:4:5:6:7:8::", ADDR, ADDR, NULL},
    {"1::2::3", ADDR, ADDR, NULL},
    {":::", ADDR, ADDR, NULL},
    {"12345::", ADDR, ADDR, NULL},
    {"g::", ADDR, ADDR, NULL},
    {"1.2.3.4::", ADDR, ADDR, NULL},
    {"1:2:3:4:5:6:7:1.2.3.4", ADDR, ADDR, NULL},
    {"::01.2.3.4", ADDR, ADDR, NULL},
    {"fe80::1%1", ADDR, ADDR, NULL},
    {"[::1]", ADDR, ADDR, NULL},
    {"::1/129", ADDR, PREF, NULL},
    {"::1/++1", ADDR, PREF, NULL},
    {"::1/ffff::", ADDR, PREF, NULL},
    {"::1/24/", FORM, FORM, NULL},
};

#endif
