/* The fields of each method and each property, as the standard has them, and tests of what is read and written of them. */
#ifndef FEKSROUM_TEST_TABLE_H
#define FEKSROUM_TEST_TABLE_H

#include <stdbool.h>
#include <stdint.h>

/* A method, by a letter for each field: o, h, l, q numbers of 1, 2, 4, 8 bytes; b a flag, of which those side by side share a byte; s, S
 * a short and a long string; T a table. Reserved fields: 0, 1 a number of 2 bytes that is this one, Z of 4 bytes; f a flag; e, E
 * an empty string. */
typedef struct method_fields {
    uint16_t class_id, method_id;
    const char *fields;
} method_fields;

enum { METHODS = 66, PROPERTIES = 14 };

extern const method_fields methods[METHODS];

/* The properties by the same letters, content-type the first, whose bit in the mask is the highest. */
extern const char properties[PROPERTIES + 1];

/* Whether the fields of each of the 66 methods and each of the 14 properties, alone and together, are read and written as the standard
 * has them: with reserved fields at their constants, and read at other values too. Also whether no other ids are a method's. */
bool table_is_known(void);

#endif
