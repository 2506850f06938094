/* Calls each function of include/bratthelm.h on document 01's examples, prints a line for each call, and last 'N passed, M failed'. */
#include "bratthelm.h"
#include <stdio.h>
#include <stdlib.h>

static unsigned passed, failed;

/* Whether a call returned the number and left the row that it should; the numbers behind the row must still be 7. */
static void expect(const char *name, uint32_t got, uint32_t number, const uint32_t *row, const uint32_t *want, size_t len) {
    int same = got == number;
    size_t i;
    printf("%s: %u", name, (unsigned)got);
    for (i = 0; i < len; i++) {
        printf(" %u", (unsigned)row[i]);
        same &= row[i] == want[i];
    }
    for (i = len; i < 16; i++)
        same &= row[i] == 7;
    printf(same ? "\n" : "  WRONG\n");
    same ? passed++ : failed++;
}

static uint32_t row[16];

/* A row of sevens, so that what a function does not write is seen. */
static uint32_t *fresh(void) {
    size_t i;
    for (i = 0; i < 16; i++)
        row[i] = 7;
    return row;
}

static void check(const char *name, int holds) {
    printf("%s%s\n", name, holds ? "" : "  WRONG");
    holds ? passed++ : failed++;
}

/* A comparator for qsort, of decimals. */
static int by_value(const void *left, const void *right) {
    uint32_t order = BRATTHELM_EQUAL;
    bratthelm_decimal_compare(left, BRATTHELM_DECIMAL_LEN, right, BRATTHELM_DECIMAL_LEN, &order, 1);
    return (int)order - BRATTHELM_EQUAL;
}

/* Sorts texts of decimals by value, and says whether they stand as they should. */
static int sorts(const char *const *texts, const char *const *want, size_t count) {
    uint32_t marks[8][BRATTHELM_DECIMAL_LEN], len;
    uint8_t text[BRATTHELM_TEXT_MAX];
    int same = count <= 8;
    size_t i;
    for (i = 0; same && i < count; i++)
        same = bratthelm_decimal_parse((const uint8_t *)texts[i], strlen(texts[i]), marks[i], BRATTHELM_DECIMAL_LEN) == 0;
    if (same)
        qsort(marks, count, sizeof marks[0], by_value);
    for (i = 0; same && i < count; i++)
        same = bratthelm_decimal_print(marks[i], BRATTHELM_DECIMAL_LEN, text, sizeof text, &len, 1) == 0 && len == strlen(want[i]) &&
               memcmp(text, want[i], len) == 0;
    return same;
}

/* Whether as many steps as its depth lead from each event to the root, each to an event before it with a depth one less. */
static int all_climb(const uint32_t *events, uint32_t count) {
    uint32_t i, at, up, depth;
    for (i = 0; i < count; i++) {
        at = i;
        for (depth = events[BRATTHELM_EVENT_LEN * i + 1]; depth > 0; depth--) {
            up = events[BRATTHELM_EVENT_LEN * at + 8];
            if (up >= at || events[BRATTHELM_EVENT_LEN * up + 1] != depth - 1)
                return 0;
            at = up;
        }
        if (at != 0)
            return 0;
    }
    return 1;
}

#define ROW(...) (const uint32_t[]){__VA_ARGS__}, sizeof((const uint32_t[]){__VA_ARGS__}) / sizeof(uint32_t)
#define NONE (const uint32_t[]){0}, 0

int main(void) {
    static const uint8_t list[] = {0x02, 0x02, 0x00, 0x0A, 0x00, 0x04, 0x01, 0x00, 0x05, 0xFE, 0xFF};
    static const uint8_t zoe[] = {0x00, 0x01, 0x00, 0x11, 0x00, 0x0B, 0x00, 0x01, 0x00, 0x0C, 0x0C, 0x00, 0x61, 0x04, 0x5A, 0x6F, 0xC3, 0xAB};
    static const uint8_t cut[] = {0x00, 0x01, 0x00, 0x11, 0x00, 0x0B, 0x00, 0x01, 0x00, 0x0C, 0x0C, 0x00, 0x61, 0x04, 0x5A, 0x6F, 0xC3, 0x22};
    /* an empty array, and true inside two arrays, in an array */
    static const uint8_t deep[] = {0x02, 0x02, 0x00, 0x1C, 0x00, 0x02, 0x0A, 0x00, 0x02, 0x0E, 0x00, 0x00, 0x00, 0x04, 0x00,
                                   0x01, 0x00, 0x0E, 0x00, 0x02, 0x07, 0x00, 0x01, 0x00, 0x07, 0x00, 0x04, 0x01, 0x00};
    static const uint8_t small[] = {0x02, 0x01, 0x00, 0x0B, 0x00, 0x07, 0x07, 0x00, 0xFF, 0xFF, 0xFF, 0xFF};
    static const uint8_t half[] = {0x0B, 0x00, 0x00, 0x00, 0x00, 0x00, 0x00, 0xF8, 0x3F};
    static const uint8_t truth[] = {0x04, 0x01}, literal[] = {0x04, 0x03}, unknown[] = {0x0D};
    static const uint8_t minus[] = {0x04, 0x02, 0x73, 0xDD}, plus[] = {0x04, 0x02, 0x8C, 0x22};
    static const uint8_t ninety_nine[] = {0xE3}, too_large[] = {0xE4}, nought[] = {0x7F};
    uint32_t events[3 * BRATTHELM_EVENT_LEN], tree[5 * BRATTHELM_EVENT_LEN], nine[12], hundred[12], d[12];
    uint8_t bytes[BRATTHELM_BYTES_MAX], text[BRATTHELM_TEXT_MAX], spoilt[sizeof deep];
    uint32_t r;
    size_t i;

    /* the root */
    expect("root of the list", bratthelm_root(list, sizeof list, fresh(), 16), 0, row, ROW(8, 2, 1, 10, 2));
    expect("root of the empty document", bratthelm_root(list, 0, fresh(), 16), 0, row, ROW(1, 4, 0, 0, 0));
    expect("root true", bratthelm_root(truth, sizeof truth, fresh(), 16), 0, row, ROW(2, 4, 1, 0, 0));
    expect("root of an unknown literal", bratthelm_root(literal, sizeof literal, fresh(), 16), BRATTHELM_ERR_LITERAL, row, NONE);
    expect("root of an unknown type", bratthelm_root(unknown, sizeof unknown, fresh(), 16), BRATTHELM_ERR_TYPE, row, NONE);
    expect("root, four numbers lent", bratthelm_root(list, sizeof list, fresh(), 4), BRATTHELM_ERR_ROOM, row, NONE);
    expect("root 1.5", bratthelm_root(half, sizeof half, fresh(), 16), 0, row, ROW(5, 11, 0, 0x3FF80000, 0));
    check("it is 1.5", bratthelm_double(row) == 1.5);

    /* elements */
    expect("element 0", bratthelm_elem_at(list, sizeof list, 2, 1, 10, 2, 0, fresh(), 16), 0, row, ROW(2, 4, 1, 0, 0));
    expect("element 1", bratthelm_elem_at(list, sizeof list, 2, 1, 10, 2, 1, fresh(), 16), 0, row, ROW(3, 5, 4294967294, 4294967295, 0));
    check("it is -2", bratthelm_int(row) == -2);
    expect("element 2", bratthelm_elem_at(list, sizeof list, 2, 1, 10, 2, 2, fresh(), 16), 0, row, ROW(0, 0, 0, 0, 0));
    expect("element of another view", bratthelm_elem_at(list, sizeof list, 2, 1, 9, 2, 0, fresh(), 16), BRATTHELM_ERR_VIEW, row, NONE);
    expect("element of no container", bratthelm_elem_at(list, sizeof list, 4, 1, 10, 2, 0, fresh(), 16), BRATTHELM_ERR_VIEW, row, NONE);
    expect("element -1 of a small array", bratthelm_elem_at(small, sizeof small, 2, 1, 11, 1, 0, fresh(), 16), 0, row, ROW(3, 7, 4294967295, 4294967295, 0));
    expect("member a", bratthelm_elem_at(zoe, sizeof zoe, 0, 1, 17, 1, 0, fresh(), 16), 0, row, ROW(6, 12, 14, 4, 0));

    /* keys and counts */
    expect("key 0", bratthelm_key_at(zoe, sizeof zoe, 0, 1, 17, 1, 0, fresh(), 16), 0, row, ROW(1, 12, 1));
    expect("key 1", bratthelm_key_at(zoe, sizeof zoe, 0, 1, 17, 1, 1, fresh(), 16), 0, row, ROW(0, 0, 0));
    expect("key of an array", bratthelm_key_at(list, sizeof list, 2, 1, 10, 2, 0, fresh(), 16), BRATTHELM_ERR_VIEW, row, NONE);
    expect("count", bratthelm_element_count(list, sizeof list, 2, 1, 10, 2, fresh(), 16), 0, row, ROW(2));
    expect("count, nothing lent", bratthelm_element_count(list, sizeof list, 2, 1, 10, 2, fresh(), 0), BRATTHELM_ERR_ROOM, row, NONE);

    /* the walk */
    for (i = 0; i < 27; i++)
        events[i] = 7;
    expect("walk, one number lent", bratthelm_walk(list, sizeof list, events, 27, fresh(), 1), BRATTHELM_ERR_ROOM, row, NONE);
    check("no event is written", events[0] == 7);
    expect("walk, room for two", bratthelm_walk(list, sizeof list, events, 26, fresh(), 16), BRATTHELM_ERR_EVENTS, row, ROW(2, 8));
    check("the third event's place is as it was", events[18] == 7 && events[26] == 7);
    expect("walk of the list", bratthelm_walk(list, sizeof list, events, 27, fresh(), 16), 0, row, ROW(3, 0));
    for (i = 0; i < 27; i++)
        printf("%u%s", (unsigned)events[i], i % 9 == 8 ? "\n" : " ");
    check("its events", memcmp(events, (const uint32_t[]){2, 0, 0, 0, 0, 1, 10, 2, 0, 4, 1, 0, 0, 0, 6, 1, 0, 0, 5, 1, 1, 0, 0, 9, 2, 0, 0}, sizeof events) == 0);
    expect("walk of Zoë, cut inside a character", bratthelm_walk(cut, sizeof cut, events, 27, fresh(), 16), BRATTHELM_ERR_UTF8, row, ROW(1, 17));

    /* from an event to the root */
    expect("walk of arrays in arrays", bratthelm_walk(deep, sizeof deep, tree, 45, fresh(), 16), 0, row, ROW(5, 0));
    check("true is event 4, at depth 3", tree[9 * 4] == 4 && tree[9 * 4 + 1] == 3);
    check("from it to events 3, 2 and 0", tree[9 * 4 + 8] == 3 && tree[9 * 3 + 8] == 2 && tree[9 * 2 + 8] == 0);
    check("the empty array is in the root, and the root's number is 0", tree[9 * 1 + 8] == 0 && tree[8] == 0);
    check("each event climbs to the root", all_climb(tree, 5));
    memcpy(spoilt, deep, sizeof deep);
    spoilt[27] = 3;
    for (i = 0; i < 45; i++)
        tree[i] = 7;
    expect("walk of arrays in arrays, an unknown literal", bratthelm_walk(spoilt, sizeof spoilt, tree, 45, fresh(), 16), BRATTHELM_ERR_LITERAL, row, ROW(4, 26));
    check("each event before it climbs to the root", tree[9 * 3 + 8] == 2 && all_climb(tree, 4));
    check("the next event's place is as it was", tree[9 * 4] == 7 && tree[9 * 4 + 8] == 7);

    /* decimals */
    expect("packed -12.34", bratthelm_decimal_read_packed(minus, sizeof minus, 0, fresh(), 16), 0, row, ROW(2, 2, 1, 12, 340000000, 0, 0, 0, 0, 0, 0, 0));
    expect("packed 12.34", bratthelm_decimal_read_packed(plus, sizeof plus, 1, fresh(), 16), 0, row, ROW(2, 2, 0, 12, 340000000, 0, 0, 0, 0, 0, 0, 0));
    memcpy(d, row, sizeof d);
    expect("packed, eleven numbers lent", bratthelm_decimal_read_packed(plus, sizeof plus, 1, fresh(), 11), BRATTHELM_ERR_ROOM, row, NONE);
    expect("packed, cut", bratthelm_decimal_read_packed(plus, 3, 1, fresh(), 16), BRATTHELM_ERR_SHORT, row, NONE);
    expect("digit bytes of 99", bratthelm_decimal_read_bin(ninety_nine, 1, 2, 0, 0, fresh(), 16), 0, row, ROW(2, 0, 0, 99, 0, 0, 0, 0, 0, 0, 0, 0));
    expect("digit bytes of 100 in two digits", bratthelm_decimal_read_bin(too_large, 1, 2, 0, 0, fresh(), 16), BRATTHELM_ERR_GROUP, row, NONE);
    expect("digit bytes of a scale over the precision", bratthelm_decimal_read_bin(nought, 1, 2, 3, 0, fresh(), 16), BRATTHELM_ERR_RANGE, row, NONE);
    expect("print 12.34", bratthelm_decimal_print(d, 12, text, sizeof text, fresh(), 16), 0, row, ROW(5));
    check("12.34", memcmp(text, "12.34", 5) == 0);
    expect("print, four characters lent", bratthelm_decimal_print(d, 12, text, 4, fresh(), 16), BRATTHELM_ERR_ROOM, row, NONE);
    expect("print eleven numbers", bratthelm_decimal_print(d, 11, text, sizeof text, fresh(), 16), BRATTHELM_ERR_RECORD, row, NONE);
    expect("write 12.34", bratthelm_decimal_write_bin(d, 12, bytes, sizeof bytes, fresh(), 16), 0, row, ROW(2));
    check("8C 22", bytes[0] == 0x8C && bytes[1] == 0x22);
    expect("write, one byte lent", bratthelm_decimal_write_bin(d, 12, bytes, 1, fresh(), 16), BRATTHELM_ERR_ROOM, row, NONE);
    r = bratthelm_decimal_read_bin(nought, 1, 2, 0, 1, d, 12);
    expect("print 7F, kept", r ? r : bratthelm_decimal_print(d, 12, text, sizeof text, fresh(), 16), 0, row, ROW(1));
    check("0, kept", text[0] == '0');
    expect("write 7F again", bratthelm_decimal_write_bin(d, 12, bytes, sizeof bytes, fresh(), 16), 0, row, ROW(1));
    check("80", bytes[0] == 0x80);
    d[2] = 1;
    expect("print a sign on zero", bratthelm_decimal_print(d, 12, text, sizeof text, fresh(), 16), BRATTHELM_ERR_RECORD, row, NONE);
    expect("write a sign on zero", bratthelm_decimal_write_bin(d, 12, bytes, sizeof bytes, fresh(), 16), BRATTHELM_ERR_RECORD, row, NONE);
    expect("compare with a sign on zero", bratthelm_decimal_compare(d, 12, d, 12, fresh(), 16), BRATTHELM_ERR_RECORD, row, NONE);
    r = bratthelm_decimal_read_bin(nought, 1, 2, 0, 0, d, 12);
    expect("print 7F", r ? r : bratthelm_decimal_print(d, 12, text, sizeof text, fresh(), 16), 0, row, ROW(1));
    check("0", text[0] == '0');
    expect("parse 007", bratthelm_decimal_parse((const uint8_t *)"007", 3, fresh(), 16), 0, row, ROW(2, 0, 0, 7, 0, 0, 0, 0, 0, 0, 0, 0));
    memcpy(d, row, sizeof d);
    expect("print 007", bratthelm_decimal_print(d, 12, text, sizeof text, fresh(), 16), 0, row, ROW(1));
    check("7", text[0] == '7');
    expect("parse .5", bratthelm_decimal_parse((const uint8_t *)".5", 2, fresh(), 16), 0, row, ROW(0, 1, 0, 500000000, 0, 0, 0, 0, 0, 0, 0, 0));
    expect("parse .", bratthelm_decimal_parse((const uint8_t *)".", 1, fresh(), 16), BRATTHELM_ERR_TEXT, row, NONE);
    r = bratthelm_decimal_parse((const uint8_t *)"9", 1, nine, 12) | bratthelm_decimal_parse((const uint8_t *)"100", 3, hundred, 12);
    check("parse 9 and 100", r == 0);
    expect("9 and 100", bratthelm_decimal_compare(nine, 12, hundred, 12, fresh(), 16), 0, row, ROW(BRATTHELM_LESS));
    expect("100 and 9", bratthelm_decimal_compare(hundred, 12, nine, 12, fresh(), 16), 0, row, ROW(BRATTHELM_GREATER));
    r = bratthelm_decimal_parse((const uint8_t *)"9.0", 3, d, 12);
    expect("9 and 9.0", r ? r : bratthelm_decimal_compare(nine, 12, d, 12, fresh(), 16), 0, row, ROW(BRATTHELM_EQUAL));
    check("marks sorted by value", sorts((const char *const[]){"100", "9", "-2", "9.50", "0.5", "-10"},
                                         (const char *const[]){"-10", "-2", "0.5", "9", "9.50", "100"}, 6));
    nine[11] = 1;
    expect("9 with an unused group and 100", bratthelm_decimal_compare(nine, 12, hundred, 12, fresh(), 16), BRATTHELM_ERR_RECORD, row, NONE);

    printf("%u passed, %u failed\n", passed, failed);
    return failed != 0;
}
