/* The accident in C: a renter's own limit takes one octet more, and her neighbour's entry stays as it was.
 *
 *   gcc -std=c99 -I../../include example.c ../../target/staticlib/liboer_c.a -o ../../target/example-c
 */
#include "oer.h"

#include <stdio.h>
#include <string.h>

/* SEQUENCE OF {name VisibleString (SIZE (1..12)), limit INTEGER (0..MAX), alarm BOOLEAN DEFAULT TRUE,
 *              band REAL OPTIONAL} */
static const uint64_t rows[] = {9, 2, 1, 12, 0, 0, 2,  1, 0, 0, 0, 0, 1,  0, 0, 0, 0, 0,
                                4, 0, 0, 0,  0, 0, 10, 0, 0, 0, 0, 4, 11, 0, 0, 0, 4, 1};
static const uint64_t items[] = {0, 0, 0, 1, 0, 0, 2, 2, 1, 3, 1, 0, 4, 0, 0};
static const uint64_t yard = 5;
static const uint8_t message[] = {1, 2, 0,  4, 'A', 'n', 'n', 'a', 1, 255, 64, 4, 'B', 'e', 'r', 't',
                                  3, 1, 17, 112, 63, 0, 0, 0};

#define COUNT(list) (sizeof(list) / sizeof((list)[0]))

static void show(const uint8_t *octets, size_t count)
{
    for (size_t i = 0; i < count; i++)
        printf("%02X ", octets[i]);
    printf("\n");
}

int main(void)
{
    const uint64_t her_limit[] = {0, 1}, his_name[] = {1, 0}, his_alarm[] = {1, 2};
    const uint64_t new_limit[] = {2, 256};
    const uint8_t no_contents[1] = {0};
    uint8_t after[64];

    oer_reply reply = oer_edit(rows, COUNT(rows), items, COUNT(items), yard, message, COUNT(message), her_limit, 2,
                               new_limit, 2, no_contents, 0, after, sizeof after);
    if (reply.number != OER_DONE) {
        printf("refused: %d, part %d, place %d\n", (int)reply.number, (int)reply.part, (int)reply.place);
        return 1;
    }
    show(message, COUNT(message));
    show(after, reply.octets);

    oer_text name = oer_read_text(rows, COUNT(rows), items, COUNT(items), yard, after, reply.octets, his_name, 2);
    oer_setting alarm =
        oer_read_setting(rows, COUNT(rows), items, COUNT(items), yard, after, reply.octets, his_alarm, 2);
    printf("%.*s: overload alarm %s\n", (int)name.length, (const char *)after + name.start, alarm.word ? "on" : "off");

    /* Her entry ends at octet 10 of the first message and at octet 11 of the second; the rest has to be the same. */
    int same = reply.octets == COUNT(message) + 1 && memcmp(after + 11, message + 10, COUNT(message) - 10) == 0;
    printf("the neighbour's entry is %s\n", same ? "the same octet for octet" : "DAMAGED");
    return same && alarm.what == OER_TRUTH && alarm.word == 1 ? 0 : 1;
}
