"""The kinds of fields of methods and content headers, and the tag bytes of values, as `feksroum.h` numbers them."""

OCTET, SHORT, LONG, LONG_LONG, FLAG, SHORT_STRING, LONG_STRING, TABLE = range(1, 9)

(
    TRUTH, INT8, UINT8, INT16, UINT16, INT32, UINT32, INT64, FLOAT32, FLOAT64, DECIMAL, STRING, ARRAY, TIME, INNER_TABLE,
    BYTE_ARRAY, NOTHING,
) = b"tbBsuIilfdDSATFxV"
