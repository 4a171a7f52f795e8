/* oer.h: settings messages in Canonical OER (Rec. ITU-T X.696, clause 31) for C and whatever speaks C.
 *
 * Eight functions check a type table, read, write and edit messages, and read single settings. They are the C face of
 * code that is proved against definitions of X.696: each function answers every input, however broken, with a reply,
 * and keeps nothing between calls. There is no heap and no global state: all memory is lent by the caller. Calls may
 * run at the same time on different buffers.
 *
 * Link with liboer_c.a. The library is for x86-64 and needs nothing but libc.
 *
 *
 * HOW MEMORY IS LENT
 *
 * Every list is a pointer and behind it the number of its elements (words of 64 bits, or octets). Each pointer has to
 * be valid for that many elements, and not NULL, also where the number is 0. A buffer that is written must overlap no
 * other list of the call. A refusal leaves every lent buffer as it was. On DONE the words and octets behind the stated
 * counts stay as they were, too.
 *
 *
 * THE TYPE TABLE: rows and items
 *
 * The table says what a message holds. `rows` has six words a row, 1 to 256 rows; `items` has three words an item, 0 to
 * 1,024 items. Both are numbered from 0. The words of a row are
 *
 *     kind, flags, A, B, first item, item count
 *
 * and a word that a kind does not name is 0. An item names only rows with smaller numbers; items may be shared. Nesting
 * is at most 16.
 *
 *     kind        type                 words
 *     1           BOOLEAN              none
 *     2           INTEGER              flags 1: lower bound A; flags 2: upper bound B (3: both). A is signed; B is
 *                                      unsigned if A is there and at least 0, else signed. An unset bound is 0.
 *     3           ENUMERATED           items (number, 0, 0), strictly ascending as signed numbers
 *     4, 5        REAL                 none; binary32, binary64
 *     6           NULL                 none
 *     7, 8, 9     OCTET STRING, BIT STRING, VisibleString
 *                                      A: least size; flags 2: greatest size B; in octets, bits, characters;
 *                                      each at most 65,535
 *     10          SEQUENCE             items (row, mark, default); mark 0 plain, 1 OPTIONAL, 2 DEFAULT. DEFAULT is
 *                                      for kinds 1, 2, 3 (the number of an allowed value) and 11 (0: the empty list)
 *     11          SEQUENCE OF          one item (row, 0, 0)
 *     12          CHOICE               items (tag class 0 to 3, tag number 0 to 2,097,151, row), strictly ascending
 *
 * A SET is written as a SEQUENCE, its components in the order of their tags. Negative numbers are in two's complement.
 *
 *
 * THE VALUE LIST: nodes and contents
 *
 * A value is a list of nodes in order of the walk, two words a node (kind, number), at most 4,096 nodes, and a list of
 * the octets of its strings, one string behind the other, at most 65,535. A node's children follow it.
 *
 *     kind        number
 *     0           0: an OPTIONAL component that is ABSENT
 *     1           0 or 1
 *     2, 3        the number
 *     4, 5        the IEEE 754 bits; the one NaN is 7FC00000 or 7FF8000000000000
 *     6           0
 *     7, 8, 9     how many octets, bits, characters. Bits fill whole octets from the top; unused bits are 0
 *     10          how many components the type has, ABSENT ones counted; a DEFAULT component always has its value
 *     11          how many elements
 *     12          the place of the alternative among the items, from 0; one child
 *
 *
 * PATHS
 *
 * A path is a list of words. A step is a component number, an element number, or 0 into a CHOICE's alternative. The
 * empty path is the whole value. A path may end at an ABSENT component but not pass it.
 *
 *
 * REPLIES
 *
 * part: 0 table (or DONE), 1 message, 2 value list, 3 path, 4 result. The first fault is reported, in the order of
 * reading.
 *
 *     number                  given when                                                             place
 *     0  OER_DONE             otherwise                                                              0
 *     1  OER_TABLE_SIZE       rows or items not whole, or their count out of range                   0
 *     2  OER_TABLE_ROW        a row breaks a rule                                                    first such row
 *     3  OER_TYPE             the asked row is not in the table                                      0
 *     4  OER_LONG             message, contents or result above 65,535 octets                        0
 *     5  OER_SHORT            octets missing                                                         offset
 *     6  OER_NOT_CANONICAL    octets break a form                                                    offset
 *     7  OER_NOT_ALLOWED      outside bounds, size, list, tags or characters; in a list another NaN  offset or node
 *     8  OER_WIDE             a number of more than 8 octets                                         offset
 *     9  OER_LEFT_OVER        octets after the value                                                 first of them
 *     10 OER_NODES            above 4,096 nodes                                                      offset, or 0
 *     11 OER_LIST             node or contents missing, left over, of wrong kind or form             node
 *     12 OER_ROOM             a lent buffer is smaller than the result                               0
 *     13 OER_PATH             no such component                                                      step, from 0
 *
 * An offset is that of the first octet of the innermost value being read. A refusal has zero counts.
 *
 *
 * EXAMPLE: SEQUENCE {a BOOLEAN OPTIONAL, b INTEGER (0..255) DEFAULT 5}, message 80 FF (TRUE, 5); b becomes 6
 *
 *     static const uint64_t rows[]  = {1,0,0,0,0,0,  2,3,0,255,0,0,  10,0,0,0,0,2};
 *     static const uint64_t items[] = {0,1,0,  1,2,5};
 *     const uint8_t  message[] = {0x80, 0xFF};
 *     const uint64_t path[] = {1}, node[] = {2, 6};
 *     uint8_t none[1], out[8];
 *     oer_reply r = oer_edit(rows, 18, items, 6, 2, message, 2, path, 1, node, 2, none, 0, out, sizeof out);
 *     // r.number 0, r.octets 3, out C0 FF 06
 */
#ifndef OER_H
#define OER_H

#include <stddef.h>
#include <stdint.h>

#ifdef __cplusplus
extern "C" {
#endif

enum {
    OER_DONE = 0,
    OER_TABLE_SIZE = 1,
    OER_TABLE_ROW = 2,
    OER_TYPE = 3,
    OER_LONG = 4,
    OER_SHORT = 5,
    OER_NOT_CANONICAL = 6,
    OER_NOT_ALLOWED = 7,
    OER_WIDE = 8,
    OER_LEFT_OVER = 9,
    OER_NODES = 10,
    OER_LIST = 11,
    OER_ROOM = 12,
    OER_PATH = 13
};

/* What a setting is. */
enum {
    OER_REFUSED = 0,
    OER_ABSENT = 1,
    OER_TRUTH = 2,    /* word: 0 or 1 */
    OER_UNSIGNED = 3, /* word: the number */
    OER_SIGNED = 4,   /* word: the number in two's complement; ENUMERATED, too */
    OER_SINGLE = 5,   /* word: the bits of a binary32 */
    OER_DOUBLE = 6,   /* word: the bits of a binary64 */
    OER_SIZE = 7,     /* word: octets, bits or characters of a string */
    OER_GROUP = 8     /* word: how many children; NULL has none, a CHOICE one */
};

/* A reply. Counts on DONE: nodes and contents octets (validate, decode), or octets of the result (measure, encode,
 * edit). */
typedef struct oer_reply {
    uint64_t number;
    uint64_t part;
    uint64_t place;
    uint64_t nodes;
    uint64_t octets;
} oer_reply;

/* A single setting. If it is refused, `what` and `word` are 0; else number, part and place are 0. */
typedef struct oer_setting {
    uint64_t number;
    uint64_t part;
    uint64_t place;
    uint64_t what;
    uint64_t word;
} oer_setting;

/* A string in a message. found 1: its octets are message[start .. start + length]. found 0: show the fallback text;
 * start and length are 0. A BIT STRING is shown without its unused-bits octet. An empty string is found. */
typedef struct oer_text {
    uint64_t found;
    uint64_t start;
    uint64_t length;
} oer_text;

/* Judges a type table: 1, 2 or DONE. */
oer_reply oer_check(const uint64_t *rows, size_t rows_len, const uint64_t *items, size_t items_len);

/* Judges a message of the row's type, and says how many nodes and contents octets its value list has. */
oer_reply oer_validate(const uint64_t *rows, size_t rows_len, const uint64_t *items, size_t items_len, uint64_t row,
                       const uint8_t *message, size_t message_len);

/* Reads a message to its value list. nodes_len counts words, two a node. */
oer_reply oer_decode(const uint64_t *rows, size_t rows_len, const uint64_t *items, size_t items_len, uint64_t row,
                     const uint8_t *message, size_t message_len, uint64_t *nodes, size_t nodes_len, uint8_t *contents,
                     size_t contents_len);

/* Judges a value list, and says how many octets its message has. */
oer_reply oer_measure(const uint64_t *rows, size_t rows_len, const uint64_t *items, size_t items_len, uint64_t row,
                      const uint64_t *nodes, size_t nodes_len, const uint8_t *contents, size_t contents_len);

/* Writes a value list as a message. */
oer_reply oer_encode(const uint64_t *rows, size_t rows_len, const uint64_t *items, size_t items_len, uint64_t row,
                     const uint64_t *nodes, size_t nodes_len, const uint8_t *contents, size_t contents_len,
                     uint8_t *out, size_t out_len);

/* Writes the message with the component at the path replaced. The new value is a list for that component's type, or one
 * ABSENT node if it is OPTIONAL. Every other component keeps its octets; at most one presence bit changes. */
oer_reply oer_edit(const uint64_t *rows, size_t rows_len, const uint64_t *items, size_t items_len, uint64_t row,
                   const uint8_t *message, size_t message_len, const uint64_t *path, size_t path_len,
                   const uint64_t *nodes, size_t nodes_len, const uint8_t *contents, size_t contents_len,
                   uint8_t *out, size_t out_len);

/* Reads the component at the path of the value that decoding gives; a DEFAULT component is therefore never absent. */
oer_setting oer_read_setting(const uint64_t *rows, size_t rows_len, const uint64_t *items, size_t items_len,
                             uint64_t row, const uint8_t *message, size_t message_len, const uint64_t *path,
                             size_t path_len);

/* Finds the octets of the string at the path in the message; not found if the reading is refused, absent or no
 * string. */
oer_text oer_read_text(const uint64_t *rows, size_t rows_len, const uint64_t *items, size_t items_len, uint64_t row,
                       const uint8_t *message, size_t message_len, const uint64_t *path, size_t path_len);

#ifdef __cplusplus
}
#endif

#endif
