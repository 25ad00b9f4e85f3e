/* Tests of what is read of the fields of a payload. */
#ifndef FEKSROUM_TEST_FIELDS_H
#define FEKSROUM_TEST_FIELDS_H

#include <feksroum.h>

/* Whether what is read of a payload agrees with what feksroum_check says of it, and with itself: nodes nest and lie within, fields
 * alone are those read with all inside, a short list is refused with the length needed, each table opened alone has the
 * same nodes. */
bool fields_agree(uint8_t type, const uint8_t *payload, size_t length);

/* The same of frames whose fields are known by hand, and of arguments at their bounds. */
bool fields_are_known(void);

#endif
