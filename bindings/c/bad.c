/* Bad input: what no case of cases/ can say, since a frame holds well-formed numbers. Each call here must give the refusal that is
 * named, with the count 0, and leave every lent byte as it was; the last line says how many did. */
#include "morelquilt.h"
#include <inttypes.h>
#include <stdio.h>

/* All that a call is lent here, so that one comparison shows a changed byte. */
static struct lent {
    uint8_t input[64];
    uint8_t room[64];
    morelquilt_column table[4];
    morelquilt_value values[4];
    morelquilt_value found[3];
    morelquilt_header header;
    morelquilt_column column;
    morelquilt_names names;
    morelquilt_walk walk;
    morelquilt_needs needs;
    uint64_t number;
    uint8_t guid[16];
} lent, was;

static morelquilt_column many_columns[1025];
static morelquilt_value many_values[1025];
static unsigned long passed, failed;

static void judge(const char *call, int line, morelquilt_counted c, uint64_t refusal, uint64_t count) {
    int right = c.refusal == refusal && c.count == count && (!refusal || !memcmp(&lent, &was, sizeof lent));
    if (right) passed++;
    else if (failed++ < 10) printf("line %d: %s: refusal %" PRIu64 ", count %" PRIu64 "\n", line, call, c.refusal, c.count);
}

#define REFUSED(refusal, call) (was = lent, judge(#call, __LINE__, call, refusal, 0))
#define ANSWERED(count, call) (was = lent, judge(#call, __LINE__, call, 0, count))

static const uint8_t *const in = lent.input;
static uint8_t *const room = lent.room;
static const uint8_t *const table = (const uint8_t *)lent.table;
static const uint64_t *const values = (const uint64_t *)lent.values;
static uint64_t *const found = (uint64_t *)lent.found;
static const uint64_t huge[] = {65, 4096, (uint64_t)1 << 32, (uint64_t)1 << 63, UINT64_MAX - 1, UINT64_MAX};
enum { ROOM = sizeof lent.room, HUGE = sizeof huge / sizeof *huge };

static const morelquilt_column INTN4 = {.type = MORELQUILT_TYPE_INTN, .length = 4};
static const morelquilt_column LONG = {.type = MORELQUILT_TYPE_BIGVARBIN, .length = MORELQUILT_MAX};
static const morelquilt_column XML = {.type = MORELQUILT_TYPE_XML, .flags = MORELQUILT_HAS_SCHEMA};

/* Null pointers where the length is 0. */
static void nulls(void) {
    ANSWERED(0, morelquilt_utf16_size(NULL, 0));
    ANSWERED(0, morelquilt_to_utf16(NULL, 0, NULL, 0));
    ANSWERED(0, morelquilt_utf8_size(NULL, 0));
    ANSWERED(0, morelquilt_to_utf8(NULL, 0, NULL, 0));
    REFUSED(1, morelquilt_header_read(NULL, 0, 0, &lent.header));
    REFUSED(4, morelquilt_header_write(1, 0, 8, 0, 0, 0, NULL, 0));
    REFUSED(4, morelquilt_prelogin_write(0, 0, 0, 0, 0, 0, NULL, 0));
    REFUSED(1, morelquilt_number_read(NULL, 0, 0, 1, 0, &lent.number));
    REFUSED(1, morelquilt_guid_read(NULL, 0, 0, lent.guid));
    REFUSED(4, morelquilt_guid_write(lent.guid, NULL, 0));
    REFUSED(1, morelquilt_column_read(NULL, 0, 0, 0, &lent.column, &lent.names));
    ANSWERED(2, morelquilt_column_size(&INTN4, &lent.names, NULL, 0));
    REFUSED(4, morelquilt_column_write(&INTN4, &lent.names, NULL, 0, NULL, 0));
    lent.values[0] = morelquilt_i32(-2);
    ANSWERED(5, morelquilt_value_size(&INTN4, lent.values, NULL, 0));
    REFUSED(4, morelquilt_value_write(&INTN4, lent.values, NULL, 0, NULL, 0));
    REFUSED(1, morelquilt_value_read(&INTN4, NULL, 0, 0, NULL, 0, lent.found));
    ANSWERED(7, morelquilt_untyped_size(lent.values, NULL, 0));
    REFUSED(4, morelquilt_untyped_write(lent.values, NULL, 0, NULL, 0));
    lent.values[0] = morelquilt_binary(0, 0);
    ANSWERED(12, morelquilt_value_size(&LONG, lent.values, NULL, 0));
    ANSWERED(0, morelquilt_row_size(NULL, 0, NULL, 0, NULL, 0));
    ANSWERED(0, morelquilt_row_write(NULL, 0, NULL, 0, NULL, 0, NULL, 0));
    ANSWERED(0, morelquilt_row_needs(NULL, 0, NULL, 0, 0, &lent.needs));
    ANSWERED(0, morelquilt_row_read(NULL, 0, NULL, 0, 0, NULL, 0, NULL, 0));
    ANSWERED(0, morelquilt_row_normal(NULL, 0, NULL, 0, 0, NULL, 0, &lent.number));
    REFUSED(1, morelquilt_walk_open(NULL, 0, 0, 0, &lent.walk));
    memset(&lent.walk, 0, sizeof lent.walk);
    ANSWERED(0, morelquilt_walk_step(NULL, 0, 0, &lent.walk));
    REFUSED(1, morelquilt_walk_step(NULL, 0, 1, &lent.walk));
}

/* A place behind the end, before anything else. */
static void places(void) {
    lent.table[0].type = 0;
    for (size_t i = 0; i < HUGE; i++) {
        REFUSED(1, morelquilt_header_read(in, 64, huge[i], &lent.header));
        REFUSED(1, morelquilt_number_read(in, 64, huge[i], 8, 0, &lent.number));
        REFUSED(1, morelquilt_guid_read(in, 64, huge[i], lent.guid));
        REFUSED(1, morelquilt_column_read(in, 64, huge[i], 0, &lent.column, &lent.names));
        REFUSED(1, morelquilt_value_read(lent.table, in, 64, huge[i], room, ROOM, lent.found));
        REFUSED(1, morelquilt_row_needs(table, 16, in, 64, huge[i], &lent.needs));
        REFUSED(1, morelquilt_row_read(table, 16, in, 64, huge[i], room, ROOM, found, 9));
        REFUSED(1, morelquilt_row_normal(table, 16, in, 64, huge[i], room, ROOM, &lent.number));
        REFUSED(1, morelquilt_walk_open(in, 64, huge[i], 0, &lent.walk));
        lent.walk = (morelquilt_walk){huge[i], 0, 0, 0, 0, 0};
        REFUSED(1, morelquilt_walk_step(in, 64, 1, &lent.walk));
        REFUSED(1, morelquilt_walk_step(in, 64, 0, &lent.walk));
    }
}

/* Spans that leave the buffer: content is 1, a name is 6. */
static void span(uint64_t start, uint64_t count) {
    lent.table[0] = LONG;
    lent.values[0] = morelquilt_binary(start, count);
    REFUSED(1, morelquilt_value_size(lent.table, lent.values, in, 64));
    REFUSED(1, morelquilt_value_write(lent.table, lent.values, in, 64, room, ROOM));
    REFUSED(1, morelquilt_untyped_size(lent.values, in, 64));
    REFUSED(1, morelquilt_untyped_write(lent.values, in, 64, room, ROOM));
    REFUSED(1, morelquilt_row_size(table, 16, values, 3, in, 64));
    REFUSED(1, morelquilt_row_write(table, 16, values, 3, in, 64, room, ROOM));
    lent.values[0] = morelquilt_string(start, count);
    REFUSED(1, morelquilt_untyped_write(lent.values, in, 64, room, ROOM));
    for (int i = 0; i < 3; i++) {
        memset(&lent.names, 0, sizeof lent.names);
        *(i == 0 ? &lent.names.database : i == 1 ? &lent.names.owner : &lent.names.collection) = (morelquilt_name){start, count};
        REFUSED(6, morelquilt_column_size(&XML, &lent.names, in, 64));
        REFUSED(6, morelquilt_column_write(&XML, &lent.names, in, 64, room, ROOM));
    }
}

static void spans(void) {
    span(64, 1);
    span(63, 2);
    span(65, 0);
    for (size_t i = 0; i < HUGE; i++) {
        span(0, huge[i]);
        span(huge[i], 0);
        span(huge[i], huge[i]);
        span(1, huge[i]);
        span(huge[i], 1);
    }
}

/* Every room that is too short; then one that is not, whose byte behind stays. */
#define ROOMS(needed, call)                                        \
    do {                                                           \
        size_t n = 0;                                              \
        for (; n < (needed); n++) REFUSED(4, call);                \
        memset(room, 0xA5, ROOM);                                  \
        ANSWERED(needed, call);                                    \
        if (room[n] != 0xA5) failed++, printf("%s: behind\n", #call); \
    } while (0)

static void rooms(void) {
    static const uint8_t two_chunks[] = {0xFE, 0xFF, 0xFF, 0xFF, 0xFF, 0xFF, 0xFF, 0xFF, 1, 0, 0, 0, 0xAA, 2, 0, 0, 0, 0xBB, 0xCC, 0, 0, 0, 0};
    memcpy(lent.input, "abcdefgh", 8);
    lent.table[0] = LONG;
    lent.values[0] = morelquilt_binary(0, 8);
    memset(&lent.names, 0, sizeof lent.names);
    ROOMS(8, morelquilt_header_write(1, 0, 8, 0, 0, 0, room, n));
    ROOMS(33, morelquilt_prelogin_write(1, 2, 3, 4, 1, 0, room, n));
    ROOMS(39, morelquilt_prelogin_write(1, 2, 3, 4, 1, 1, room, n));
    ROOMS(16, morelquilt_guid_write(lent.guid, room, n));
    ROOMS(3, morelquilt_column_write(lent.table, &lent.names, in, 8, room, n));
    ROOMS(24, morelquilt_value_write(lent.table, lent.values, in, 8, room, n));
    ROOMS(13, morelquilt_untyped_write(lent.values, in, 8, room, n));
    ROOMS(24, morelquilt_row_write(table, 16, values, 3, in, 8, room, n));
    ROOMS(16, morelquilt_to_utf16(in, 8, room, n));
    ROOMS(8, morelquilt_to_utf8((const uint8_t *)"a\0b\0c\0d\0e\0f\0g\0h\0", 16, room, n));
    memcpy(lent.input, two_chunks, sizeof two_chunks);
    for (size_t n = 0; n < 3; n++) {
        REFUSED(4, morelquilt_value_read(lent.table, in, 23, 0, room, n, lent.found));
        REFUSED(4, morelquilt_row_read(table, 16, in, 23, 0, room, n, found, 3));
        REFUSED(4, morelquilt_row_read(table, 16, in, 23, 0, room, ROOM, found, n));
    }
    for (size_t n = 0; n < 19; n++) REFUSED(4, morelquilt_row_normal(table, 16, in, 23, 0, room, n, &lent.number));
    ANSWERED(23, morelquilt_row_read(table, 16, in, 23, 0, room, 3, found, 3));
}

/* A table that every call of rows refuses with 6, whatever the values. */
static void no_table(const uint8_t *columns, size_t bytes, const uint64_t *given, size_t numbers) {
    REFUSED(6, morelquilt_row_size(columns, bytes, given, numbers, in, 64));
    REFUSED(6, morelquilt_row_write(columns, bytes, given, numbers, in, 64, room, ROOM));
    REFUSED(6, morelquilt_row_needs(columns, bytes, in, 64, 0, &lent.needs));
    REFUSED(6, morelquilt_row_read(columns, bytes, in, 64, 0, room, ROOM, found, 9));
    REFUSED(6, morelquilt_row_normal(columns, bytes, in, 64, 0, room, ROOM, &lent.number));
}

/* Tables that end within a record, behind columns that are read and written without a fault; lists of another length. */
static void tables(void) {
    const uint8_t *columns = (const uint8_t *)many_columns;
    const uint64_t *nothing = (const uint64_t *)many_values;
    memset(lent.input, 0, sizeof lent.input);
    for (size_t i = 0; i < 1025; i++) {
        many_columns[i] = INTN4;
        many_values[i] = morelquilt_null();
    }
    for (size_t bytes = 1; bytes < 64; bytes++)
        if (bytes % 16) no_table(columns, bytes, nothing, (bytes / 16 + 1) * 3);
    no_table(columns, 1025 * 16, nothing, 1025 * 3);
    no_table(columns, 1024 * 16 + 1, nothing, 1025 * 3);
    for (size_t numbers = 0; numbers < 12; numbers++) {
        if (numbers == 6) continue;
        REFUSED(6, morelquilt_row_size(columns, 32, nothing, numbers, in, 64));
        REFUSED(6, morelquilt_row_write(columns, 32, nothing, numbers, in, 64, room, ROOM));
    }
    for (size_t numbers = 0; numbers < 6; numbers++) REFUSED(4, morelquilt_row_read(columns, 32, in, 64, 0, room, ROOM, found, numbers));
    ANSWERED(2, morelquilt_row_read(columns, 32, in, 64, 0, room, ROOM, found, 6));
}

/* A record that no column packs to, alone and behind a good column. */
static void no_column(morelquilt_column record) {
    lent.table[0] = lent.table[1] = record;
    REFUSED(6, morelquilt_column_size(lent.table, &lent.names, in, 64));
    REFUSED(6, morelquilt_column_write(lent.table, &lent.names, in, 64, room, ROOM));
    REFUSED(6, morelquilt_value_size(lent.table, lent.values, in, 64));
    REFUSED(6, morelquilt_value_write(lent.table, lent.values, in, 64, room, ROOM));
    REFUSED(6, morelquilt_value_read(lent.table, in, 64, 0, room, ROOM, lent.found));
    no_table(table, 16, values, 3);
    lent.table[0] = INTN4;
    no_table(table, 32, values, 6);
}

static int known(unsigned type) {
    static const uint8_t types[] = {0x1F, 0x30, 0x32, 0x34, 0x38, 0x3A, 0x3B, 0x3C, 0x3D, 0x3E, 0x7A, 0x7F, 0x24, 0x26, 0x28, 0x29, 0x2A, 0x2B,
                                    0x68, 0x6A, 0x6C, 0x6D, 0x6E, 0x6F, 0xA5, 0xA7, 0xAD, 0xAF, 0xE7, 0xEF, 0x22, 0x23, 0x63, 0xF1, 0xF0, 0x62};
    return memchr(types, (int)type, sizeof types) != NULL;
}

/* Every type byte that there is not; of every type that there is, every byte at every place that must hold another. */
static void records(void) {
    for (size_t i = 0; i < 2; i++) lent.values[i] = morelquilt_null();
    memset(lent.input, 0, sizeof lent.input);
    memset(&lent.names, 0, sizeof lent.names);
    for (unsigned type = 0; type < 256; type++) {
        morelquilt_column record = {.type = (uint8_t)type};
        if (!known(type)) {
            no_column(record);
            continue;
        }
        for (unsigned place = 8; place < 16; place++)
            for (unsigned byte = 1; byte < 256; byte++) {
                uint8_t bytes[16] = {(uint8_t)type};
                bytes[place] = (uint8_t)byte;
                memcpy(&record, bytes, 16);
                no_column(record);
            }
        for (unsigned flags = 4; flags < 256; flags++) {
            memset(&record, 0, sizeof record);
            record.type = (uint8_t)type;
            record.flags = (uint8_t)flags;
            no_column(record);
        }
    }
}

/* Three numbers that are no value, before anything else: the columns are no columns either. */
static void no_value(uint64_t kind, uint64_t first, uint64_t second) {
    memset(lent.table, 0, 32);
    lent.values[1] = (morelquilt_value){kind, first, second};
    REFUSED(3, morelquilt_value_size(lent.table, lent.values + 1, in, 64));
    REFUSED(3, morelquilt_value_write(lent.table, lent.values + 1, in, 64, room, ROOM));
    REFUSED(3, morelquilt_untyped_size(lent.values + 1, in, 64));
    REFUSED(3, morelquilt_untyped_write(lent.values + 1, in, 64, room, ROOM));
    REFUSED(3, morelquilt_row_size(table, 16, values, 6, in, 64));
    REFUSED(3, morelquilt_row_write(table, 16, values, 7, in, 64, room, ROOM));
}

static void numbers(void) {
    lent.values[0] = morelquilt_null();
    for (uint64_t kind = 11; kind < 300; kind++) no_value(kind, 0, 0);
    for (size_t i = 0; i < HUGE; i++) {
        no_value(huge[i], 0, 0);
        no_value(MORELQUILT_NULL, huge[i], 0);
        no_value(MORELQUILT_BIT, huge[i], 0);
        for (uint64_t kind = MORELQUILT_NULL; kind <= MORELQUILT_F64; kind++) no_value(kind, 0, huge[i]);
    }
    no_value(MORELQUILT_BIT, 2, 0);
    no_value(MORELQUILT_U8, 256, 0);
    no_value(MORELQUILT_U8, UINT64_MAX, 0);
    no_value(MORELQUILT_I16, 32768, 0);
    no_value(MORELQUILT_I16, (uint64_t)-32769, 0);
    no_value(MORELQUILT_I32, 2147483648, 0);
    no_value(MORELQUILT_I32, (uint64_t)-2147483649, 0);
    no_value(MORELQUILT_F32, 4294967296, 0);
}

/* Numbers that no enum has, before anything else: the rooms are empty, the places behind the end. */
static void unknown(void) {
    for (unsigned n = 0; n < 256; n++) {
        uint8_t byte = (uint8_t)n;
        if (!memchr("\1\2\3\4\6\7\10\16\20\21\22", (int)n, 11)) REFUSED(2, morelquilt_header_write(byte, 0, 0, 0, 0, 0, room, 0));
        if (!memchr("\0\1\3\10\20", (int)n, 5)) REFUSED(2, morelquilt_header_write(1, byte, 0, 0, 0, 0, room, 0));
        if (n > 3) REFUSED(2, morelquilt_prelogin_write(0, 0, byte, 0, 0, 0, room, 0));
        if (n > 1) {
            REFUSED(2, morelquilt_prelogin_write(0, 0, 0, 0, byte, 0, room, 0));
            REFUSED(2, morelquilt_prelogin_write(0, 0, 0, 0, 0, byte, room, 0));
            REFUSED(2, morelquilt_number_read(in, 64, 65, 1, byte, &lent.number));
            REFUSED(2, morelquilt_walk_open(in, 64, 65, byte, &lent.walk));
        }
        if (n != 1 && n != 2 && n != 4 && n != 8) REFUSED(2, morelquilt_number_read(in, 64, 65, byte, 0, &lent.number));
    }
    for (size_t i = 0; i < HUGE; i++) {
        lent.walk = (morelquilt_walk){65, 0, huge[i], 0, 0, 0};
        REFUSED(2, morelquilt_walk_step(in, 64, 1, &lent.walk));
        lent.walk = (morelquilt_walk){65, 0, 0, 0, huge[i], 0};
        REFUSED(2, morelquilt_walk_step(in, 64, 1, &lent.walk));
        lent.walk = (morelquilt_walk){65, 0, 0, 0, 0, huge[i]};
        REFUSED(2, morelquilt_walk_step(in, 64, 0, &lent.walk));
    }
}

int main(void) {
    static void (*const parts[])(void) = {nulls, places, spans, rooms, tables, records, numbers, unknown};
    for (size_t i = 0; i < sizeof parts / sizeof *parts; i++) {
        memset(&lent, 0xA5, sizeof lent);
        parts[i]();
    }
    printf("%lu right, %lu wrong\n", passed, failed);
    return failed != 0;
}
