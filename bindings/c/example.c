/* How a C program uses the codec: it writes a row, reads it back, and asks whether two rows hold the same. */
#include "morelquilt.h"
#include <inttypes.h>
#include <stdio.h>

#define COUNT(array) (sizeof(array) / sizeof *(array))

/* A limit and the name of its track; and a column of long binary content. */
static const morelquilt_column track[] = {
    {.type = MORELQUILT_TYPE_INTN, .length = 4},
    {.type = MORELQUILT_TYPE_NVARCHAR, .flags = MORELQUILT_HAS_COLLATION, .length = 40, .collation = 0x00D00409, .sort = 52},
};
static const morelquilt_column points[] = {{.type = MORELQUILT_TYPE_BIGVARBIN, .length = MORELQUILT_MAX}};

static int refused(const char *what, morelquilt_counted c) {
    if (c.refusal) printf("%s is refused: %" PRIu64 ", %s\n", what, c.refusal, morelquilt_words(c.refusal));
    return c.refusal != 0;
}

/* Writes a limit and a name, whose UTF-8 is the buffer. */
static morelquilt_counted write_track(int32_t limit, const char *name, uint8_t *out, size_t out_length) {
    const morelquilt_value values[] = {morelquilt_i32(limit), morelquilt_string(0, strlen(name))};
    return morelquilt_write_row(track, COUNT(track), values, COUNT(values), (const uint8_t *)name, strlen(name), out, out_length);
}

/* Reads them, and prints them; the name comes as UTF-16LE. */
static void print_track(const uint8_t *row, size_t row_length) {
    morelquilt_value values[COUNT(track)];
    uint8_t name[64];
    morelquilt_counted c = morelquilt_read_row(track, COUNT(track), row, row_length, 0, NULL, 0, values, COUNT(values));
    if (refused("the row", c)) return;
    c = morelquilt_to_utf8(morelquilt_content_of(&values[1], row, NULL), values[1].second, name, sizeof name);
    if (refused("the name", c)) return;
    printf("limit %" PRId64 " on %.*s\n", morelquilt_integer_of(&values[0]), (int)c.count, (const char *)name);
}

/* Whether two rows hold the same: their normal forms are the same bytes. */
static int same(const uint8_t *one, size_t one_length, const uint8_t *other, size_t other_length) {
    uint8_t a[64], b[64];
    uint64_t next;
    morelquilt_counted n = morelquilt_normal_row(points, COUNT(points), one, one_length, 0, a, sizeof a, &next);
    morelquilt_counted m = morelquilt_normal_row(points, COUNT(points), other, other_length, 0, b, sizeof b, &next);
    return !n.refusal && !m.refusal && n.count == m.count && memcmp(a, b, n.count) == 0;
}

int main(void) {
    /* The bytes AA BB CC, long content of unknown length: in two chunks, and in one. */
    static const uint8_t two[] = {0xFE, 0xFF, 0xFF, 0xFF, 0xFF, 0xFF, 0xFF, 0xFF, 1, 0, 0, 0, 0xAA, 2, 0, 0, 0, 0xBB, 0xCC, 0, 0, 0, 0};
    static const uint8_t one[] = {0xFE, 0xFF, 0xFF, 0xFF, 0xFF, 0xFF, 0xFF, 0xFF, 3, 0, 0, 0, 0xAA, 0xBB, 0xCC, 0, 0, 0, 0};
    uint8_t room[64];
    morelquilt_counted c = write_track(-2, "sp\xC3\xA5r 2", room, sizeof room);
    if (refused("the row", c)) return 1;
    print_track(room, c.count);
    refused("half a name", write_track(-2, "sp\xC3", room, sizeof room));
    if (same(two, sizeof two, one, sizeof one)) printf("the same\n");
    return 0;
}
