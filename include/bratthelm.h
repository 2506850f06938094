/*
 * Bratthelm for C: MySQL's binary JSON, read by position and walked as a whole, and its packed decimals, read, written, printed, parsed and
 * compared, by code that is proved. The archive is librelay.a, which './archive' writes; it links into x86-64 Linux programs.
 *
 * How a function answers
 *
 * It returns a refusal's number, or 0. Its answer is a row of 32-bit numbers, which it stores at the front of `answer`; what stands behind them stays
 * as it was. `answer_len` says how many numbers are lent. Fewer than the row takes are refused by 25, before anything else is looked at, and then nothing
 * that is lent changes. Any other refusal changes nothing either, but for the walk's, whose events and row stand then too.
 *
 * What the caller sees to
 *
 * Every pointer is valid for as many items as the length after it says, and is not null, even where that is 0. What a function writes to
 * (answer, events, bytes, text) overlaps nothing else that is lent to the call, and no other thread touches it meanwhile. Nothing else is
 * asked: any bytes, any numbers and any lengths have their answer. No function keeps a pointer or allocates, and the walk needs some 31,100 bytes
 * of stack at most, as measured with the older kit.
 *
 * The rows
 *
 *   a value, 5 numbers: kind, type code, and three that depend on the kind
 *     0 nothing      0   0           0            0        a position at or past the count: this is no refusal
 *     1 null         4   0           0            0
 *     2 a truth      4   1 or 0      0            0
 *     3 signed       c   lower half  upper half   0        64 bits in two's complement, in two halves: bratthelm_int
 *     4 unsigned     c   lower half  upper half   0        64 bits in two halves: bratthelm_bits
 *     5 a double    11   lower half  upper half   0        its exact bits, those of a NaN too: bratthelm_double
 *     6 a string    12   start       length       0        bytes of the document; whether they are UTF-8 the walk alone asks
 *     7 opaque      15   start       length       column type
 *     8 container    c   start       size         count    c is 0 small object, 1 large object, 2 small array, 3 large array
 *   an event of the walk, 9 numbers, as bratthelm_walk says: 0 type code, 1 depth, 2 position, 3 and 4 key's start and length, 5 and 6 value's start and
 *     length, 7 count or column type, 8 the index of its container's event
 *   a key, 3 numbers: 1, start, length; or 0 0 0 for nothing
 *   a count, an order, a number of bytes or of characters, 1 number
 *   how a walk ended, 2 numbers: the count of events, and the place of the fault, which is 0 where there is none. Of BRATTHELM_ERR_UTF8 it is
 *     where a key or string breaks: at the first byte that does not go on with the character that is begun before it or, where none is begun, begins
 *     none. Where the text ends inside a character it is the text's end: no byte is bad then, the one there is of something else, and the document may
 *     end there too, so do not read doc[place] before you held it against the text's end. Up to three bytes before the place belong to the begun
 *     character. Of any other number it is the first byte of the key entry for a key's fault, else of the value entry, and 0 at the root
 *   a decimal, 12 numbers: how many digits stand before the point and after it, sign (0, or 1 for a minus; handed in, any other number is a minus too), and
 *     nine groups: the digits, cut in nines from the point outwards, left to right; the last group of a fraction is filled with zeros to nine digits, unused
 *     groups are 0, and so is the sign of a zero. Numbers that you hand in and that are not so are refused by 26.
 *     1234567890.5 is 10 1 0 1 234567890 500000000 0 0 0 0 0 0
 *
 * Starts count from the document's first byte. A container is asked by four numbers of its row: type code, start, size and count.
 *
 * Example: the first member of an object, and a price from a row
 *
 * [example]
 * #include "bratthelm.h"
 * #include <stdio.h>
 *
 * int main(void) {
 *     static const uint8_t doc[] = {0x00, 0x01, 0x00, 0x11, 0x00, 0x0B, 0x00, 0x01, 0x00, 0x0C, 0x0C, 0x00, 0x61, 0x04, 0x5A, 0x6F, 0xC3, 0xAB};
 *     static const uint8_t price[] = {0x04, 0x02, 0x8C, 0x22};
 *     uint32_t root[BRATTHELM_VALUE_LEN], key[BRATTHELM_KEY_LEN], value[BRATTHELM_VALUE_LEN], d[BRATTHELM_DECIMAL_LEN], count[1];
 *     uint8_t text[BRATTHELM_TEXT_MAX];
 *     if (bratthelm_root(doc, sizeof doc, root, BRATTHELM_VALUE_LEN) != 0 || root[0] != BRATTHELM_KIND_CONTAINER)
 *         return 1;
 *     if (bratthelm_key_at(doc, sizeof doc, root[1], root[2], root[3], root[4], 0, key, BRATTHELM_KEY_LEN) != 0 || key[0] == 0)
 *         return 1;
 *     if (bratthelm_elem_at(doc, sizeof doc, root[1], root[2], root[3], root[4], 0, value, BRATTHELM_VALUE_LEN) != 0)
 *         return 1;
 *     if (value[0] == BRATTHELM_KIND_STRING)
 *         printf("%.*s: %.*s\n", (int)key[2], (const char *)doc + key[1], (int)value[3], (const char *)doc + value[2]);
 *     if (bratthelm_decimal_read_packed(price, sizeof price, 0, d, BRATTHELM_DECIMAL_LEN) != 0)
 *         return 1;
 *     if (bratthelm_decimal_print(d, BRATTHELM_DECIMAL_LEN, text, sizeof text, count, 1) != 0)
 *         return 1;
 *     printf("%.*s\n", (int)count[0], (const char *)text);
 *     return 0;
 * }
 * [end]
 *
 * It prints 'a: Zoë' and '12.34'.
 */
#ifndef BRATTHELM_H
#define BRATTHELM_H

#include <stddef.h>
#include <stdint.h>
#include <string.h>

#ifdef __cplusplus
extern "C" {
#endif

/* What a function returns: 0, or the number of a refusal. */
enum bratthelm_refusal {
    BRATTHELM_ANSWERED = 0,
    BRATTHELM_ERR_DOCUMENT = 1, /* the document is longer than 16,777,216 bytes */
    BRATTHELM_ERR_TYPE = 2,     /* unknown type code */
    BRATTHELM_ERR_CUT = 3,      /* the bytes end early */
    BRATTHELM_ERR_SIZE = 4,     /* a container's size exceeds what is left, or its header the size */
    BRATTHELM_ERR_KEY = 5,      /* a key starts before the header's end, or ends past the container */
    BRATTHELM_ERR_POINTER = 6,  /* a value's offset is before the end of its own entry, or past the container */
    BRATTHELM_ERR_LITERAL = 7,  /* unknown literal */
    BRATTHELM_ERR_LENGTH = 8,   /* a length field goes on after five bytes, or its length is above 4,294,967,295 */
    BRATTHELM_ERR_UTF8 = 9,     /* a key or a string is not UTF-8 (the walk, with the place where it breaks) */
    BRATTHELM_ERR_COLUMN = 10,  /* unknown column type */
    BRATTHELM_ERR_DEPTH = 11,   /* a path is longer than 100 (the walk) */
    BRATTHELM_ERR_EVENTS = 12,  /* no room for an event (the walk) */
    BRATTHELM_ERR_VIEW = 13,    /* no whole container of this code, start, size and count in the document, or not of the kind asked for */
    BRATTHELM_ERR_RANGE = 20,   /* precision or scale out of range */
    BRATTHELM_ERR_SHORT = 21,   /* the bytes of a decimal end early */
    BRATTHELM_ERR_GROUP = 22,   /* a group of digits holds too large a number */
    BRATTHELM_ERR_TEXT = 23,    /* not decimal text */
    BRATTHELM_ERR_DIGITS = 24,  /* over 65 digits, or over 30 after the point */
    BRATTHELM_ERR_ROOM = 25,    /* what is lent is shorter than the result */
    BRATTHELM_ERR_RECORD = 26   /* the numbers are no decimal: fewer than twelve, or not as 'a decimal' above, as a sign on zero */
};

/* The first number of a value's row. */
enum bratthelm_kind {
    BRATTHELM_KIND_NOTHING = 0,
    BRATTHELM_KIND_NULL = 1,
    BRATTHELM_KIND_TRUTH = 2,
    BRATTHELM_KIND_SIGNED = 3,
    BRATTHELM_KIND_UNSIGNED = 4,
    BRATTHELM_KIND_DOUBLE = 5,
    BRATTHELM_KIND_STRING = 6,
    BRATTHELM_KIND_OPAQUE = 7,
    BRATTHELM_KIND_CONTAINER = 8
};

/* How many numbers each row takes, and how many bytes are enough for any decimal's text and for any decimal's digit bytes. */
enum {
    BRATTHELM_VALUE_LEN = 5,
    BRATTHELM_KEY_LEN = 3,
    BRATTHELM_COUNT_LEN = 1,
    BRATTHELM_WALK_LEN = 2,
    BRATTHELM_EVENT_LEN = 9,
    BRATTHELM_DECIMAL_LEN = 12,
    BRATTHELM_TEXT_MAX = 67,
    BRATTHELM_BYTES_MAX = 36
};

/* What the number of an order is. */
enum { BRATTHELM_LESS = 0, BRATTHELM_EQUAL = 1, BRATTHELM_GREATER = 2 };

/* The root value of a document, a row of a value: 1, 2, then what its content is refused with. The empty document is null. */
uint32_t bratthelm_root(const uint8_t *doc, size_t doc_len, uint32_t *answer, size_t answer_len);

/* The element of an array, or the value of an object's member, at a position, a row of a value: 1, 13, nothing at or past the count, 2, 6, then what its
 * content is refused with. A code above 3 is 13. */
uint32_t bratthelm_elem_at(const uint8_t *doc, size_t doc_len, uint32_t code, uint32_t start, uint32_t size, uint32_t count, uint32_t pos,
                           uint32_t *answer, size_t answer_len);

/* The key at a position of an object, a row of a key: 1, 13 (also for arrays), nothing at or past the count, 5. */
uint32_t bratthelm_key_at(const uint8_t *doc, size_t doc_len, uint32_t code, uint32_t start, uint32_t size, uint32_t count, uint32_t pos,
                          uint32_t *answer, size_t answer_len);

/* How many elements or members a container has, one number: 1, 13. */
uint32_t bratthelm_element_count(const uint8_t *doc, size_t doc_len, uint32_t code, uint32_t start, uint32_t size, uint32_t count,
                                 uint32_t *answer, size_t answer_len);

/* Every path of the document, a path before what is below it and otherwise by position, as events of nine numbers: type code (0 small object, 1 large object,
 * 2 small array, 3 large array, 4 literal, 5 Int16, 6 UInt16, 7 Int32, 8 UInt32, 9 Int64, 10 UInt64, 11 double, 12 string, 15 opaque), depth, position, key's
 * start, key's length, value's start, value's length, one that is a container's count, an opaque value's column type or else 0, and the index of its
 * container's event. There is room for events_len / 9 of them. The row is the count of events and the place of the fault; it is stored, and that many events
 * stand, also where a number is returned: 1 to 12.
 * To climb: the container of event i is event events[BRATTHELM_EVENT_LEN * i + 8], which stands before it. From any event that stands, also where a number is
 * returned, as many such steps as its depth lead to the root. The root is event 0, of depth 0, and its own number is 0 too: stop there. */
uint32_t bratthelm_walk(const uint8_t *doc, size_t doc_len, uint32_t *events, size_t events_len, uint32_t *answer, size_t answer_len);

/* The decimal in the digit bytes at the front, of a precision and a scale, a row of a decimal: 20, 21, 22. With keep other than 0 it keeps its
 * precision, so that bratthelm_decimal_write_bin gives the bytes back (of a precision of 1 or more), except for a negative zero: a zero is positive, so 7F FF of
 * (2,1) comes back as 80 00. To show it, read it with 0. */
uint32_t bratthelm_decimal_read_bin(const uint8_t *bytes, size_t bytes_len, uint32_t precision, uint32_t scale, uint32_t keep, uint32_t *answer,
                                    size_t answer_len);

/* The same after a precision byte and a scale byte, as inside JSON: 21 where one of these is missing, 20, 21, 22. */
uint32_t bratthelm_decimal_read_packed(const uint8_t *bytes, size_t bytes_len, uint32_t keep, uint32_t *answer, size_t answer_len);

/* The decimal that a text writes, a row of a decimal: 23, 24. */
uint32_t bratthelm_decimal_parse(const uint8_t *text, size_t text_len, uint32_t *answer, size_t answer_len);

/* Writes a decimal's digit bytes to the front of `bytes`, and answers how many they are: 26, also for fewer than twelve numbers, then 25 where `bytes` is
 * too short, and then it is as it was. */
uint32_t bratthelm_decimal_write_bin(const uint32_t *decimal, size_t decimal_len, uint8_t *bytes, size_t bytes_len, uint32_t *answer,
                                     size_t answer_len);

/* Prints a decimal to the front of `text`, without a 0 at the end, and answers how many characters it has: 26, then 25, as above. */
uint32_t bratthelm_decimal_print(const uint32_t *decimal, size_t decimal_len, uint8_t *text, size_t text_len, uint32_t *answer, size_t answer_len);

/* The order of two decimals by value, one number: 0 less, 1 equal, 2 greater; 26 where either is no decimal. The comparison behind
 * it is an order of decimals (crates/order_laws), so rows can be sorted by it: a comparator for qsort returns (int)answer[0] - BRATTHELM_EQUAL, since what
 * this function returns is the refusal. A row that a function here answered is not refused; test rows of your own before the sort. Equal are those that
 * print the same once zeros at the front of the integral part and at the end of the fraction, and then a last point, are removed; qsort need not leave
 * them as they stood. */
uint32_t bratthelm_decimal_compare(const uint32_t *left, size_t left_len, const uint32_t *right, size_t right_len, uint32_t *answer,
                                   size_t answer_len);

/* The number in a value's row of kind 3, 4 or 5. */
static inline uint64_t bratthelm_bits(const uint32_t *value) {
    return (uint64_t)value[3] << 32 | value[2];
}

static inline int64_t bratthelm_int(const uint32_t *value) {
    const uint64_t bits = bratthelm_bits(value);
    int64_t n;
    memcpy(&n, &bits, sizeof n);
    return n;
}

static inline double bratthelm_double(const uint32_t *value) {
    const uint64_t bits = bratthelm_bits(value);
    double x;
    memcpy(&x, &bits, sizeof x);
    return x;
}

#ifdef __cplusplus
}
#endif

#endif
