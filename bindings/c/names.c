/* Whether feksroum_names.h says what the library says, at every id and place of 0 to 255 and at the reply codes. */
#include "feksroum.h"
#include "feksroum_names.h"
#include <stdio.h>
#include <string.h>

/* A name that the library wrote, and one of the header. */
static int is_same(const uint8_t *name, size_t length, const char *other) {
    return length <= FEKSROUM_NAME_MAX && strlen(other) == length && memcmp(name, other, length) == 0;
}

/* How many fields are named at a method, or -1 where the header names them otherwise. */
static int named_fields(uint16_t class_id, uint16_t method_id) {
    uint8_t name[FEKSROUM_NAME_MAX];
    int count = 0;
    for (int place = 0; place < 256; place++) {
        size_t length = feksroum_field_name(class_id, method_id, (uint8_t)place, name, sizeof name);
        if (!is_same(name, length, feksroum_name_of_field(class_id, method_id, (uint8_t)place)))
            return -1;
        count += length > 0;
    }
    return count;
}

/* Names and kinds of all methods that ids up to 255 may have; how many there are. */
static int methods(void) {
    uint8_t name[FEKSROUM_NAME_MAX], kinds[FEKSROUM_FIELDS_MAX];
    int count = 0;
    for (uint16_t class_id = 0; class_id < 256; class_id++) {
        size_t length = feksroum_class_name(class_id, name, sizeof name);
        if (!is_same(name, length, feksroum_name_of_class(class_id)))
            return -1;
        for (uint16_t method_id = 0; method_id < 256; method_id++) {
            length = feksroum_method_name(class_id, method_id, name, sizeof name);
            if (!is_same(name, length, feksroum_name_of_method(class_id, method_id)))
                return -1;
            if ((size_t)named_fields(class_id, method_id) != feksroum_shape(class_id, method_id, kinds, sizeof kinds))
                return -1;
            count += length > 0;
        }
    }
    return count;
}

/* The rows, one after another: how many there are. */
static int rows(void) {
    uint8_t kinds[FEKSROUM_FIELDS_MAX];
    uint32_t before = 0;
    int k = 0;
    for (; k < 256; k++) {
        feksroum_method method = feksroum_method_at((uint8_t)k);
        uint32_t ids = (uint32_t)method.class_id << 16 | method.method_id;
        if (method.status != FEKSROUM_OK)
            return method.status == FEKSROUM_BAD_ARGUMENT && ids == 0 ? k : -1;
        if (ids <= before || method.fields != feksroum_shape(method.class_id, method.method_id, kinds, sizeof kinds))
            return -1;
        before = ids;
    }
    return k;
}

/* Names and kinds of properties: how many there are. */
static int properties(void) {
    uint8_t name[FEKSROUM_NAME_MAX];
    int count = 0;
    for (int place = 0; place < 256; place++) {
        size_t length = feksroum_property_name((uint8_t)place, name, sizeof name);
        if (!is_same(name, length, feksroum_name_of_property((uint8_t)place)) || (length > 0) != (feksroum_property_kind((uint8_t)place) > 0))
            return -1;
        count += length > 0;
    }
    return count;
}

/* A few rows by hand, as the standard has them. */
static int by_hand(void) {
    uint8_t kinds[FEKSROUM_FIELDS_MAX], name[4] = {1, 2, 3, 4};
    const uint8_t deliver[] = {FEKSROUM_SHORT_STRING, FEKSROUM_LONG_LONG, FEKSROUM_FLAG, FEKSROUM_SHORT_STRING, FEKSROUM_SHORT_STRING};
    feksroum_method last = feksroum_method_at(FEKSROUM_METHODS - 1);
    return feksroum_shape(FEKSROUM_CLASS_BASIC, FEKSROUM_BASIC_DELIVER, kinds, sizeof kinds) == sizeof deliver &&
           memcmp(kinds, deliver, sizeof deliver) == 0 && last.class_id == FEKSROUM_CLASS_TX && last.method_id == FEKSROUM_TX_ROLLBACK_OK &&
           FEKSROUM_BASIC_DELIVER_DELIVERY_TAG == 1 && FEKSROUM_PROPERTY_CLUSTER_ID == FEKSROUM_PROPERTIES - 1 &&
           feksroum_class_name(FEKSROUM_CLASS_BASIC, name, 4) == 5 && name[0] == 1 &&
           strcmp(feksroum_name_of_reply(FEKSROUM_REPLY_NOT_FOUND), "not-found") == 0 && !feksroum_reply_is_hard(404) &&
           feksroum_reply_is_hard(FEKSROUM_REPLY_FRAME_ERROR);
}

int main(void) {
    int found[] = {methods(), rows(), properties(), by_hand()};
    printf("%d methods, %d rows, %d properties\n", found[0], found[1], found[2]);
    return found[0] != FEKSROUM_METHODS || found[1] != FEKSROUM_METHODS || found[2] != FEKSROUM_PROPERTIES || !found[3];
}
