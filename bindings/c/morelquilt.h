/* Morelquilt: a proved codec for rows of Microsoft's TDS protocol. docs/BOARD.md has how to link it.
 *
 * Every call ends, on every number, every byte and every room: with refusal 0 and a count, or with one of nine
 * refusals and the count 0. A refused call has changed no lent byte. One that was not refused has written at the
 * front of what it was lent to write, and nothing behind.
 *
 * No call allocates, locks, keeps a pointer, has a state of its own or calls anything outside of the archive: any
 * thread may make any call at any time.
 *
 * What a caller owes, since nothing can check it:
 *   - X and X_length belong together: X points to X_length elements, altogether below 2^63 bytes, that may be read and,
 *     where X is not const, written. Nobody else writes them during the call. X may be null where X_length is 0.
 *   - A pointer without a length points to one whole struct, number or array, and is never null.
 *   - A pointer is aligned as its type asks in C.
 *   - What a call writes overlaps nothing else that it is given.
 */
#ifndef MORELQUILT_H
#define MORELQUILT_H

#include <stddef.h>
#include <stdint.h>
#include <string.h>

#ifdef __cplusplus
extern "C" {
#endif

/* ---- What a call answers */

/* The refusals, in document 01's words and by its numbers. Only MORELQUILT_MISSING may be cured by more bytes. */
enum morelquilt_refusal {
    MORELQUILT_OK = 0,
    MORELQUILT_MISSING = 1,     /* a needed byte lies behind the input's end, or the content span of a value to be written leaves its buffer */
    MORELQUILT_UNKNOWN = 2,     /* unknown packet type, packet status or type byte */
    MORELQUILT_KIND = 3,        /* the value's kind does not fit the type, including null under a fixed type */
    MORELQUILT_ROOM = 4,        /* the whole output is longer than the room lent */
    MORELQUILT_LONG = 5,        /* content is longer than allowed */
    MORELQUILT_RULE = 6,        /* the descriptor or column list breaks a rule */
    MORELQUILT_NOT_CARRIED = 7, /* type Udt or SSVariant met as a descriptor; a value asked of a type that is not carried */
    MORELQUILT_SEQUENCE = 8,    /* a length or chunk sequence that the type forbids */
    MORELQUILT_NOT_TEXT = 9     /* text to be written is not UTF-8, or text out meets an unpaired surrogate */
};

/* Refusal 0 and a count, or a refusal and the count 0. Each call says what it counts: mostly the bytes that it wrote,
 * or the next place, the one behind what it read. */
typedef struct morelquilt_counted {
    uint64_t refusal;
    uint64_t count;
} morelquilt_counted;

/* ---- What crosses. Numbers are in the machine's order, which must be low byte first. */

/* A packet header. */
typedef struct morelquilt_header {
    uint16_t type;
    uint16_t status;
    uint16_t length;
    uint16_t spid;
    uint16_t id;
    uint16_t window;
} morelquilt_header;

/* The bits of a column's flags. */
enum morelquilt_flag {
    MORELQUILT_HAS_COLLATION = 1,
    MORELQUILT_HAS_SCHEMA = 2
};

/* A column: 16 bytes without padding, so that an array of them is a row's table. What a column does not have is 0: set
 * what it has by name, as in {.type = MORELQUILT_TYPE_INTN, .length = 4}. Any 16 bytes may be given; those that are no
 * column's are refused with 6 where the column is used. */
typedef struct morelquilt_column {
    uint8_t type;       /* a type byte, enum morelquilt_type */
    uint8_t flags;      /* enum morelquilt_flag */
    uint8_t precision;  /* of Decimaln and Numericn */
    uint8_t scale;      /* of Decimaln and Numericn */
    uint32_t length;    /* declared, in bytes; 3 of Daten; 0 of a fixed type and Xml */
    uint32_t collation; /* the collation's four bytes as a number */
    uint8_t sort;       /* its sort byte */
    uint8_t zero;
    uint16_t names;     /* of Xml with a schema: the caller's index of its morelquilt_names */
} morelquilt_column;

/* The bytes of a lent buffer that hold a name in UTF-16LE. */
typedef struct morelquilt_name {
    uint64_t start; /* in bytes */
    uint64_t units; /* of two bytes each */
} morelquilt_name;

/* The names of an Xml column's schema. They stand beside the table; no value and no row asks for them. */
typedef struct morelquilt_names {
    morelquilt_name database;
    morelquilt_name owner;
    morelquilt_name collection;
} morelquilt_names;

/* The kinds of a value, and what its two numbers are. */
enum morelquilt_kind {
    MORELQUILT_NULL = 0,
    MORELQUILT_BIT = 1,
    MORELQUILT_U8 = 2,
    MORELQUILT_I16 = 3,
    MORELQUILT_I32 = 4,
    MORELQUILT_I64 = 5,
    MORELQUILT_F32 = 6,
    MORELQUILT_F64 = 7,
    MORELQUILT_GUID = 8,            /* the two halves of its sixteen bytes in text order, high byte first */
    MORELQUILT_BINARY = 9,          /* start and count of bytes, in the buffer (written) or in the row (read) */
    MORELQUILT_STRING = 10,         /* the same; UTF-8 to be written, UTF-16LE when read */
    MORELQUILT_BINARY_IN_ROOM = 11, /* read only: start and count in the room, where long content was joined */
    MORELQUILT_STRING_IN_ROOM = 12  /* the same, in UTF-16LE */
};

/* A value. Numbers stand in `first`, signed ones in 64-bit two's complement, floats as their bits; what a kind has no use
 * for is 0. A kind above 10, or a number that no value of the kind has, is refused with 3 when it is to be written. */
typedef struct morelquilt_value {
    uint64_t kind;
    uint64_t first;
    uint64_t second;
} morelquilt_value;

/* What a row needs. */
typedef struct morelquilt_needs {
    uint64_t room;   /* bytes of room that reading it takes */
    uint64_t normal; /* bytes of its normal form */
} morelquilt_needs;

/* A walk over the chunks of long (PLP) content. */
typedef struct morelquilt_walk {
    uint64_t at;    /* the place of the next chunk's head */
    uint64_t sum;   /* content bytes passed */
    uint64_t known; /* 1 where the total is known, else 0 */
    uint64_t total; /* 0 where it is not known */
    uint64_t text;  /* 1 where an even count of bytes is asked, else 0 */
    uint64_t ended; /* 1 where the last head was taken, else 0 */
} morelquilt_walk;

/* The type bytes. */
enum morelquilt_type {
    MORELQUILT_TYPE_NULL = 0x1F,
    MORELQUILT_TYPE_INT1 = 0x30,
    MORELQUILT_TYPE_BIT = 0x32,
    MORELQUILT_TYPE_INT2 = 0x34,
    MORELQUILT_TYPE_INT4 = 0x38,
    MORELQUILT_TYPE_DATETIME4 = 0x3A,
    MORELQUILT_TYPE_FLOAT4 = 0x3B,
    MORELQUILT_TYPE_MONEY = 0x3C,
    MORELQUILT_TYPE_DATETIME = 0x3D,
    MORELQUILT_TYPE_FLOAT8 = 0x3E,
    MORELQUILT_TYPE_MONEY4 = 0x7A,
    MORELQUILT_TYPE_INT8 = 0x7F,
    MORELQUILT_TYPE_GUID = 0x24,
    MORELQUILT_TYPE_INTN = 0x26,
    MORELQUILT_TYPE_DATEN = 0x28,
    MORELQUILT_TYPE_TIMEN = 0x29,
    MORELQUILT_TYPE_DATETIME2 = 0x2A,
    MORELQUILT_TYPE_DATETIMEOFFSETN = 0x2B,
    MORELQUILT_TYPE_BITN = 0x68,
    MORELQUILT_TYPE_DECIMALN = 0x6A,
    MORELQUILT_TYPE_NUMERICN = 0x6C,
    MORELQUILT_TYPE_FLOATN = 0x6D,
    MORELQUILT_TYPE_MONEYN = 0x6E,
    MORELQUILT_TYPE_DATETIMEN = 0x6F,
    MORELQUILT_TYPE_BIGVARBIN = 0xA5,
    MORELQUILT_TYPE_BIGVARCHAR = 0xA7,
    MORELQUILT_TYPE_BIGBINARY = 0xAD,
    MORELQUILT_TYPE_BIGCHAR = 0xAF,
    MORELQUILT_TYPE_NVARCHAR = 0xE7,
    MORELQUILT_TYPE_NCHAR = 0xEF,
    MORELQUILT_TYPE_IMAGE = 0x22,
    MORELQUILT_TYPE_TEXT = 0x23,
    MORELQUILT_TYPE_NTEXT = 0x63,
    MORELQUILT_TYPE_XML = 0xF1,
    MORELQUILT_TYPE_UDT = 0xF0,
    MORELQUILT_TYPE_SSVARIANT = 0x62
};

/* The declared length of long content, as varbinary(max) has it. */
#define MORELQUILT_MAX 65535

/* ---- Packets */

/* The header at a place: the next place. Refused with 1, then 2. */
morelquilt_counted morelquilt_header_read(const uint8_t *bytes, size_t bytes_length, size_t at, morelquilt_header *fields);

/* A header: 8 bytes written. Refused with 2 for an unknown type or status, then 4. The length is not judged. */
morelquilt_counted morelquilt_header_write(uint8_t type, uint8_t status, uint16_t length, uint16_t spid, uint8_t id, uint8_t window,
                                           uint8_t *out, size_t out_length);

/* A prelogin message: 33 bytes written, or 39 where fed_auth is 1. Refused with 2 for an encryption above 3, a mars or a fed_auth
 * above 1, then 4. */
morelquilt_counted morelquilt_prelogin_write(uint32_t version, uint16_t sub_build, uint8_t encryption, uint32_t thread_id, uint8_t mars,
                                             uint8_t fed_auth, uint8_t *out, size_t out_length);

/* ---- Numbers and GUIDs */

/* The number of `width` bytes at a place, low byte first, or high byte first where `high` is 1: the next place. Refused with 2
 * for a width other than 1, 2, 4 and 8 or a high above 1, then 1. */
morelquilt_counted morelquilt_number_read(const uint8_t *bytes, size_t bytes_length, size_t at, uint8_t width, uint8_t high, uint64_t *to);

/* The GUID at a place, its sixteen bytes in text order: the next place. Refused with 1. */
morelquilt_counted morelquilt_guid_read(const uint8_t *bytes, size_t bytes_length, size_t at, uint8_t text[16]);

/* Sixteen bytes in text order as a GUID: 16 bytes written. Refused with 4. */
morelquilt_counted morelquilt_guid_write(const uint8_t text[16], uint8_t *out, size_t out_length);

/* ---- A column's descriptor (TYPE_INFO) */

/* The descriptor at a place: the next place. `index` goes into the column where it has a schema; `names` are then spans of
 * `bytes`, and six zeros where it has none. Refused with 1, 2 or 7, as the bytes come. */
morelquilt_counted morelquilt_column_read(const uint8_t *bytes, size_t bytes_length, size_t at, uint16_t index, morelquilt_column *column,
                                          morelquilt_names *names);

/* How many bytes a descriptor has. The names are spans of the buffer, and are looked at only where the column has a schema.
 * Refused with 6, then 7. */
morelquilt_counted morelquilt_column_size(const morelquilt_column *column, const morelquilt_names *names, const uint8_t *buffer,
                                          size_t buffer_length);

/* A descriptor: bytes written. Refused with 6, 7, 4, in this order. */
morelquilt_counted morelquilt_column_write(const morelquilt_column *column, const morelquilt_names *names, const uint8_t *buffer,
                                           size_t buffer_length, uint8_t *out, size_t out_length);

/* ---- One value. Its content, where it has any, is a span of the buffer. */

/* How many bytes a value has under a column. Refused as value_write is, but with 4. */
morelquilt_counted morelquilt_value_size(const morelquilt_column *column, const morelquilt_value *value, const uint8_t *buffer,
                                         size_t buffer_length);

/* A value under a column: bytes written. Refused with 3 for three numbers that are no value, then 6, 7, 3, 1, 9, 5, 4, in this
 * order. */
morelquilt_counted morelquilt_value_write(const morelquilt_column *column, const morelquilt_value *value, const uint8_t *buffer,
                                          size_t buffer_length, uint8_t *out, size_t out_length);

/* The value at a place of a row: the next place. Long content is joined at the front of the room; all other content stays in
 * the row, and needs no room. Refused with 1 for a place behind the row's end, then 6, 7, what the bytes say, and 4. */
morelquilt_counted morelquilt_value_read(const morelquilt_column *column, const uint8_t *row, size_t row_length, size_t at, uint8_t *room,
                                         size_t room_length, morelquilt_value *value);

/* How many bytes a value has with its own descriptor in front. Refused as untyped_write is, but with 4. */
morelquilt_counted morelquilt_untyped_size(const morelquilt_value *value, const uint8_t *buffer, size_t buffer_length);

/* A value with its own descriptor in front: bytes written. Refused with 3 for three numbers that are no value, then 1, 9, 5, 4. */
morelquilt_counted morelquilt_untyped_write(const morelquilt_value *value, const uint8_t *buffer, size_t buffer_length, uint8_t *out,
                                            size_t out_length);

/* ---- Rows, as they are exported: a table in bytes, 16 for each column, and values in numbers, three for each. The same
 * calls counted in columns and values follow below: prefer those. A table that ends within a column is 6 in that column's
 * turn, and so are values that end within a value. */

morelquilt_counted morelquilt_row_size(const uint8_t *table, size_t table_length, const uint64_t *values, size_t values_length,
                                       const uint8_t *buffer, size_t buffer_length);

morelquilt_counted morelquilt_row_write(const uint8_t *table, size_t table_length, const uint64_t *values, size_t values_length,
                                        const uint8_t *buffer, size_t buffer_length, uint8_t *out, size_t out_length);

morelquilt_counted morelquilt_row_needs(const uint8_t *table, size_t table_length, const uint8_t *row, size_t row_length, size_t at,
                                        morelquilt_needs *needs);

morelquilt_counted morelquilt_row_read(const uint8_t *table, size_t table_length, const uint8_t *row, size_t row_length, size_t at,
                                       uint8_t *room, size_t room_length, uint64_t *values, size_t values_length);

morelquilt_counted morelquilt_row_normal(const uint8_t *table, size_t table_length, const uint8_t *row, size_t row_length, size_t at,
                                         uint8_t *out, size_t out_length, uint64_t *next);

/* ---- Long (PLP) content, chunk by chunk: nothing is copied */

/* The eight bytes at a place, and the walk behind them: the next place. `text` is 1 where the content is a string, else 0.
 * Null has no chunks: its walk has ended at once. Refused with 2 for a text above 1, then 1 or 5. */
morelquilt_counted morelquilt_walk_open(const uint8_t *bytes, size_t bytes_length, size_t at, uint8_t text, morelquilt_walk *walk);

/* As many chunk heads as are allowed, or up to the last one: how many were taken. Refused with 2 for a flag of the walk (known,
 * text, ended) above 1, then 1, 5 or 8, as the bytes come; the walk then stands where it stood. */
morelquilt_counted morelquilt_walk_step(const uint8_t *bytes, size_t bytes_length, uint64_t allowed, morelquilt_walk *walk);

/* ---- Text */

/* How many bytes UTF-8 text has as UTF-16LE. Refused with 9. */
morelquilt_counted morelquilt_utf16_size(const uint8_t *text, size_t text_length);

/* UTF-8 as UTF-16LE: bytes written. Refused with 9, then 4. */
morelquilt_counted morelquilt_to_utf16(const uint8_t *text, size_t text_length, uint8_t *out, size_t out_length);

/* How many bytes UTF-16LE units have as UTF-8. Refused with 8 for an odd count of bytes, then 9. */
morelquilt_counted morelquilt_utf8_size(const uint8_t *units, size_t units_length);

/* UTF-16LE as UTF-8: bytes written. Refused with 8, 9, 4, in this order. */
morelquilt_counted morelquilt_to_utf8(const uint8_t *units, size_t units_length, uint8_t *out, size_t out_length);

/* ---- The layout that the archive counts on */

#if defined(__cplusplus) && __cplusplus >= 201103L
#define MORELQUILT_ASSERT(name, holds) static_assert(holds, #name)
#elif !defined(__cplusplus) && defined(__STDC_VERSION__) && __STDC_VERSION__ >= 201112L
#define MORELQUILT_ASSERT(name, holds) _Static_assert(holds, #name)
#else
#define MORELQUILT_ASSERT(name, holds) typedef char morelquilt_assert_##name[(holds) ? 1 : -1]
#endif

#if !defined(__BYTE_ORDER__) || __BYTE_ORDER__ != __ORDER_LITTLE_ENDIAN__
#error "morelquilt: a machine that stores numbers low byte first"
#endif
MORELQUILT_ASSERT(sizes_are_64_bits, sizeof(size_t) == 8 && sizeof(void *) == 8);
MORELQUILT_ASSERT(counted_is_two_numbers, sizeof(morelquilt_counted) == 16);
MORELQUILT_ASSERT(header_is_six_numbers, sizeof(morelquilt_header) == 12);
MORELQUILT_ASSERT(column_is_16_bytes, sizeof(morelquilt_column) == 16);
MORELQUILT_ASSERT(column_length_at_4, offsetof(morelquilt_column, length) == 4);
MORELQUILT_ASSERT(column_collation_at_8, offsetof(morelquilt_column, collation) == 8);
MORELQUILT_ASSERT(column_sort_at_12, offsetof(morelquilt_column, sort) == 12);
MORELQUILT_ASSERT(column_names_at_14, offsetof(morelquilt_column, names) == 14);
MORELQUILT_ASSERT(names_are_six_numbers, sizeof(morelquilt_names) == 48);
MORELQUILT_ASSERT(value_is_three_numbers, sizeof(morelquilt_value) == 24);
MORELQUILT_ASSERT(needs_are_two_numbers, sizeof(morelquilt_needs) == 16);
MORELQUILT_ASSERT(walk_is_six_numbers, sizeof(morelquilt_walk) == 48);

/* ---- Rows, counted in columns and values */

/* How many bytes a row has. Its values' contents are spans of one buffer. Refused as write_row is, but with 4. */
static inline morelquilt_counted morelquilt_size_row(const morelquilt_column *table, size_t columns, const morelquilt_value *values, size_t count,
                                                     const uint8_t *buffer, size_t buffer_length) {
    return morelquilt_row_size((const uint8_t *)table, columns * sizeof *table, (const uint64_t *)values, count * 3, buffer, buffer_length);
}

/* A row: bytes written. Refused with 3 for a value that is none, then 6 for more than 1,024 columns or another count of values, then
 * as its values are, from the left, and with 4 last. */
static inline morelquilt_counted morelquilt_write_row(const morelquilt_column *table, size_t columns, const morelquilt_value *values, size_t count,
                                                      const uint8_t *buffer, size_t buffer_length, uint8_t *out, size_t out_length) {
    return morelquilt_row_write((const uint8_t *)table, columns * sizeof *table, (const uint64_t *)values, count * 3, buffer, buffer_length, out,
                                out_length);
}

/* What the row at a place needs: the next place. Refused with 1 for a place behind the row's end, then 6 for more than 1,024
 * columns, then as its values are, from the left. */
static inline morelquilt_counted morelquilt_judge_row(const morelquilt_column *table, size_t columns, const uint8_t *row, size_t row_length,
                                                      size_t at, morelquilt_needs *needs) {
    return morelquilt_row_needs((const uint8_t *)table, columns * sizeof *table, row, row_length, at, needs);
}

/* The values of the row at a place, one for each column at the front of `values`: the next place. Long content is joined in
 * the room, column behind column. Refused as judge_row is, and with 4 where room or values are too few. */
static inline morelquilt_counted morelquilt_read_row(const morelquilt_column *table, size_t columns, const uint8_t *row, size_t row_length,
                                                     size_t at, uint8_t *room, size_t room_length, morelquilt_value *values, size_t count) {
    return morelquilt_row_read((const uint8_t *)table, columns * sizeof *table, row, row_length, at, room, room_length, (uint64_t *)values,
                               count * 3);
}

/* The normal form of the row at a place: bytes written, and in `next` the next place. Two rows hold the same exactly when
 * their normal forms are the same bytes. Refused as judge_row is, and with 4 last. */
static inline morelquilt_counted morelquilt_normal_row(const morelquilt_column *table, size_t columns, const uint8_t *row, size_t row_length,
                                                       size_t at, uint8_t *out, size_t out_length, uint64_t *next) {
    return morelquilt_row_normal((const uint8_t *)table, columns * sizeof *table, row, row_length, at, out, out_length, next);
}

/* ---- Values made and taken apart */

static inline morelquilt_value morelquilt_made(uint64_t kind, uint64_t first, uint64_t second) {
    morelquilt_value value;
    value.kind = kind;
    value.first = first;
    value.second = second;
    return value;
}

static inline morelquilt_value morelquilt_null(void) { return morelquilt_made(MORELQUILT_NULL, 0, 0); }
static inline morelquilt_value morelquilt_bit(int truth) { return morelquilt_made(MORELQUILT_BIT, truth != 0, 0); }
static inline morelquilt_value morelquilt_u8(uint8_t n) { return morelquilt_made(MORELQUILT_U8, n, 0); }
static inline morelquilt_value morelquilt_i16(int16_t n) { return morelquilt_made(MORELQUILT_I16, (uint64_t)(int64_t)n, 0); }
static inline morelquilt_value morelquilt_i32(int32_t n) { return morelquilt_made(MORELQUILT_I32, (uint64_t)(int64_t)n, 0); }
static inline morelquilt_value morelquilt_i64(int64_t n) { return morelquilt_made(MORELQUILT_I64, (uint64_t)n, 0); }

static inline morelquilt_value morelquilt_f32(float x) {
    uint32_t bits;
    memcpy(&bits, &x, sizeof bits);
    return morelquilt_made(MORELQUILT_F32, bits, 0);
}

static inline morelquilt_value morelquilt_f64(double x) {
    uint64_t bits;
    memcpy(&bits, &x, sizeof bits);
    return morelquilt_made(MORELQUILT_F64, bits, 0);
}

static inline uint64_t morelquilt_half(const uint8_t half[8]) {
    uint64_t n = 0;
    int i;
    for (i = 0; i < 8; i++) n = n << 8 | half[i];
    return n;
}

/* Sixteen bytes in text order. */
static inline morelquilt_value morelquilt_guid(const uint8_t text[16]) {
    return morelquilt_made(MORELQUILT_GUID, morelquilt_half(text), morelquilt_half(text + 8));
}

/* Bytes of the buffer. */
static inline morelquilt_value morelquilt_binary(uint64_t start, uint64_t count) { return morelquilt_made(MORELQUILT_BINARY, start, count); }

/* UTF-8 in the buffer. */
static inline morelquilt_value morelquilt_string(uint64_t start, uint64_t count) { return morelquilt_made(MORELQUILT_STRING, start, count); }

/* The number of a u8, an i16, an i32 or an i64. */
static inline int64_t morelquilt_integer_of(const morelquilt_value *value) {
    int64_t n;
    memcpy(&n, &value->first, sizeof n);
    return n;
}

static inline float morelquilt_f32_of(const morelquilt_value *value) {
    uint32_t bits = (uint32_t)value->first;
    float x;
    memcpy(&x, &bits, sizeof x);
    return x;
}

static inline double morelquilt_f64_of(const morelquilt_value *value) {
    double x;
    memcpy(&x, &value->first, sizeof x);
    return x;
}

/* A GUID's sixteen bytes in text order. */
static inline void morelquilt_guid_of(const morelquilt_value *value, uint8_t text[16]) {
    int i;
    for (i = 0; i < 8; i++) {
        text[i] = (uint8_t)(value->first >> (56 - 8 * i));
        text[8 + i] = (uint8_t)(value->second >> (56 - 8 * i));
    }
}

/* Where the content of a read binary or string begins: in the row, or in the room that it was joined in. NULL for another
 * kind. It has value->second bytes. */
static inline const uint8_t *morelquilt_content_of(const morelquilt_value *value, const uint8_t *row, const uint8_t *room) {
    switch (value->kind) {
    case MORELQUILT_BINARY:
    case MORELQUILT_STRING: return row + value->first;
    case MORELQUILT_BINARY_IN_ROOM:
    case MORELQUILT_STRING_IN_ROOM: return room + value->first;
    default: return NULL;
    }
}

/* A refusal in words. */
static inline const char *morelquilt_words(uint64_t refusal) {
    switch (refusal) {
    case MORELQUILT_OK: return "not refused";
    case MORELQUILT_MISSING: return "a needed byte lies behind the input's end, or the content span of a value to be written leaves its buffer";
    case MORELQUILT_UNKNOWN: return "unknown packet type, packet status or type byte";
    case MORELQUILT_KIND: return "the value's kind does not fit the type";
    case MORELQUILT_ROOM: return "the whole output is longer than the room lent";
    case MORELQUILT_LONG: return "content is longer than allowed";
    case MORELQUILT_RULE: return "the descriptor or column list breaks a rule";
    case MORELQUILT_NOT_CARRIED: return "a type that is not carried";
    case MORELQUILT_SEQUENCE: return "a length or chunk sequence that the type forbids";
    case MORELQUILT_NOT_TEXT: return "text to be written is not UTF-8, or text out meets an unpaired surrogate";
    default: return "no refusal";
    }
}

#ifdef __cplusplus
}
#endif
#endif
