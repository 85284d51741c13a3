/* Answers the frames of cases/PROTOCOL.md through the header's calls: frames on standard input, a line each on standard output.
 *
 * Beyond what the lines say it holds every call to three things, and says `fault: ..` in place of the line where one fails:
 * a call that finds a size says what the call that writes does; a refused call leaves what it would have written as it
 * was; and no call touches its input, or a byte behind the room. */
#include "morelquilt.h"
#include <inttypes.h>
#include <stdio.h>
#include <stdlib.h>

enum { MOST = 1 << 18, COLUMNS = 1025, FILL = 0xA5 };

static uint8_t frame[MOST], before[MOST], room[MOST + 64];
static size_t frame_length, room_length, place;
static morelquilt_column table[COLUMNS];
static morelquilt_names names[COLUMNS];
static morelquilt_value values[COLUMNS + 1];
static const char *fault;

/* ---- a frame's fields, in their order */

static const uint8_t *take(size_t n) {
    if (n > frame_length - place) {
        fprintf(stderr, "a frame ends too early\n");
        exit(2);
    }
    place += n;
    return frame + place - n;
}

static uint64_t number(size_t width) {
    const uint8_t *p = take(width);
    uint64_t n = 0;
    while (width--) n = n << 8 | p[width];
    return n;
}

static uint8_t byte(void) { return take(1)[0]; }

static const uint8_t *input(size_t *length) {
    *length = number(4);
    return take(*length);
}

static void lend_room(void) {
    room_length = number(4);
    memset(room, FILL, sizeof room);
}

/* A length above four bytes has no record. A record that no column packs to stands for such a column: 6 where it is used. */
static void desc(morelquilt_column *column, morelquilt_names *beside) {
    memset(column, 0, sizeof *column);
    column->type = byte();
    uint64_t length = number(8);
    column->length = (uint32_t)length;
    column->zero = length > UINT32_MAX;
    column->precision = byte();
    column->scale = byte();
    if (byte()) column->flags |= MORELQUILT_HAS_COLLATION;
    column->collation = (uint32_t)number(4);
    column->sort = byte();
    if (byte()) column->flags |= MORELQUILT_HAS_SCHEMA;
    beside->database.start = number(8);
    beside->database.units = number(8);
    beside->owner.start = number(8);
    beside->owner.units = number(8);
    beside->collection.start = number(8);
    beside->collection.units = number(8);
}

static void value(morelquilt_value *to) {
    to->kind = byte();
    if (to->kind == MORELQUILT_GUID) {
        *to = morelquilt_guid(take(16));
        return;
    }
    to->first = number(8);
    to->second = number(8);
}

static size_t columns(void) {
    size_t n = number(2);
    if (n > COLUMNS) exit(2);
    for (size_t i = 0; i < n; i++) desc(table + i, names + i);
    return n;
}

/* ---- an answer's words */

static void say_number(uint64_t n) { printf(" %" PRIu64, n); }

static void say_bytes(const uint8_t *bytes, size_t n) {
    printf(n ? " " : " -");
    for (size_t i = 0; i < n; i++) printf("%02x", bytes[i]);
}

static size_t changed(size_t from, size_t to) {
    size_t n = 0;
    for (size_t i = from; i < to; i++) n += room[i] != FILL;
    return n;
}

static void say_changed(size_t from) { printf(" changed %zu", changed(from, room_length)); }

static void say_wrote(uint64_t count) {
    say_number(count);
    say_bytes(room, count);
    say_changed(count);
}

static void say_desc(const morelquilt_column *c, const morelquilt_names *n) {
    const uint64_t words[] = {c->type, c->length, c->precision, c->scale, (c->flags & MORELQUILT_HAS_COLLATION) != 0, c->collation, c->sort,
                              (c->flags & MORELQUILT_HAS_SCHEMA) != 0, n->database.start, n->database.units, n->owner.start, n->owner.units,
                              n->collection.start, n->collection.units};
    for (size_t i = 0; i < sizeof words / sizeof *words; i++) say_number(words[i]);
}

static void say_value(const morelquilt_value *v, const uint8_t *row) {
    static const char *const kinds[] = {"null", "bit",  "u8",        "i16",       "i32",        "i64",       "f32",
                                        "f64",  "guid", "binary in", "string in", "binary out", "string out"};
    uint8_t text[16];
    if (v->kind > MORELQUILT_STRING_IN_ROOM) {
        fault = "a kind that there is not";
        return;
    }
    printf(" %s", kinds[v->kind]);
    if (v->kind == MORELQUILT_NULL) return;
    if (v->kind == MORELQUILT_GUID) {
        morelquilt_guid_of(v, text);
        say_bytes(text, 16);
    } else if (v->kind < MORELQUILT_GUID) {
        if (v->kind < MORELQUILT_F32) printf(" %" PRId64, morelquilt_integer_of(v));
        else say_number(v->first);
    } else {
        say_number(v->first);
        say_number(v->second);
        say_bytes(morelquilt_content_of(v, row, room), v->second);
    }
}

static void say_walk(const morelquilt_walk *w) {
    say_number(w->at);
    say_number(w->sum);
    say_number(w->known);
    say_number(w->total);
    say_number(w->text);
    say_number(w->ended);
}

/* ---- what every call is held to */

/* Fills what a call is to write; `kept` says whether it is still so. */
static void fill(void *out, size_t n) { memset(out, FILL, n); }

static void kept(const void *out, size_t n) {
    const uint8_t *p = out;
    for (size_t i = 0; i < n; i++)
        if (p[i] != FILL) fault = "a refused call wrote";
}

/* The line of a refusal, `out` having been filled before; whether it was one. */
static int refused(morelquilt_counted c, const void *out, size_t n) {
    if (!c.refusal) {
        printf("ok");
        return 0;
    }
    printf("no %" PRIu64, c.refusal);
    if (c.count) fault = "a refusal with a count";
    kept(out, n);
    return 1;
}

/* The line of a call that writes into the room, beside the one that finds the size. */
static void wrote(morelquilt_counted size, morelquilt_counted c) {
    if (!size.refusal && size.count > room_length) size = (morelquilt_counted){MORELQUILT_ROOM, 0};
    if (size.refusal != c.refusal || size.count != c.count) fault = "the size is another";
    if (refused(c, NULL, 0)) say_changed(0);
    else say_wrote(c.count);
}

/* ---- the operations */

static void header_read(void) {
    size_t at = number(8), n;
    const uint8_t *in = input(&n);
    morelquilt_header h;
    fill(&h, sizeof h);
    morelquilt_counted c = morelquilt_header_read(in, n, at, &h);
    if (refused(c, &h, sizeof h)) return;
    const uint64_t words[] = {c.count, h.type, h.status, h.length, h.spid, h.id, h.window};
    for (size_t i = 0; i < 7; i++) say_number(words[i]);
}

static void header_write(void) {
    lend_room();
    uint8_t type = byte(), status = byte();
    uint16_t length = (uint16_t)number(2), spid = (uint16_t)number(2);
    uint8_t id = byte(), window = byte();
    morelquilt_counted size = {0, 8};
    wrote(size, morelquilt_header_write(type, status, length, spid, id, window, room, room_length));
}

static void prelogin_write(void) {
    lend_room();
    uint32_t version = (uint32_t)number(4);
    uint16_t sub_build = (uint16_t)number(2);
    uint8_t encryption = byte();
    uint32_t thread_id = (uint32_t)number(4);
    uint8_t mars = byte(), fed_auth = byte();
    morelquilt_counted size = {0, fed_auth ? 39 : 33};
    wrote(size, morelquilt_prelogin_write(version, sub_build, encryption, thread_id, mars, fed_auth, room, room_length));
}

static void type_read(void) {
    size_t at = number(8), n;
    const uint8_t *in = input(&n);
    struct { morelquilt_column column; morelquilt_names names; } to;
    fill(&to, sizeof to);
    morelquilt_counted c = morelquilt_column_read(in, n, at, 7, &to.column, &to.names);
    if (refused(c, &to, sizeof to)) return;
    if (to.column.names != (to.column.flags & MORELQUILT_HAS_SCHEMA ? 7 : 0) || to.column.zero) fault = "another record";
    say_number(c.count);
    say_desc(&to.column, &to.names);
}

static void type_write(void) {
    size_t n;
    lend_room();
    desc(table, names);
    const uint8_t *in = input(&n);
    morelquilt_counted size = morelquilt_column_size(table, names, in, n);
    wrote(size, morelquilt_column_write(table, names, in, n, room, room_length));
}

static void value_read(void) {
    size_t at = number(8), n;
    lend_room();
    desc(table, names);
    const uint8_t *in = input(&n);
    fill(values, sizeof *values);
    morelquilt_counted c = morelquilt_value_read(table, in, n, at, room, room_length, values);
    if (refused(c, values, sizeof *values)) {
        say_changed(0);
        return;
    }
    say_number(c.count);
    say_value(values, in);
    say_wrote(values->kind > MORELQUILT_STRING ? values->second : 0);
}

static void value_write(void) {
    size_t n;
    lend_room();
    desc(table, names);
    value(values);
    const uint8_t *in = input(&n);
    morelquilt_counted size = morelquilt_value_size(table, values, in, n);
    wrote(size, morelquilt_value_write(table, values, in, n, room, room_length));
}

static void untyped_write(void) {
    size_t n;
    lend_room();
    value(values);
    const uint8_t *in = input(&n);
    morelquilt_counted size = morelquilt_untyped_size(values, in, n);
    wrote(size, morelquilt_untyped_write(values, in, n, room, room_length));
}

/* The row at a place, in two steps as a caller would take them: what it needs, then its values, one more being lent. The
 * columns stand in the table, and are said where `with_columns` asks for it. */
static void row(size_t count, const uint8_t *in, size_t n, size_t at, int with_columns) {
    morelquilt_needs needs;
    fill(&needs, sizeof needs);
    fill(values, sizeof values);
    morelquilt_counted judged = morelquilt_judge_row(table, count, in, n, at, &needs);
    morelquilt_counted c = morelquilt_read_row(table, count, in, n, at, room, room_length, values, count + 1);
    if (judged.refusal) kept(&needs, sizeof needs);
    if (c.refusal == MORELQUILT_ROOM ? judged.refusal || needs.room <= room_length : c.refusal != judged.refusal || c.count != judged.count)
        fault = "the row is judged otherwise than read";
    if (refused(c, values, sizeof values)) {
        say_changed(0);
        return;
    }
    kept(values + count, sizeof *values);
    say_number(c.count);
    say_number(count);
    for (size_t i = 0; with_columns && i < count; i++) say_desc(table + i, names + i);
    uint64_t joined = 0;
    for (size_t i = 0; i < count; i++) {
        say_value(values + i, in);
        if (values[i].kind > MORELQUILT_STRING) joined += values[i].second;
    }
    if (joined != needs.room) fault = "the row needed another room";
    say_wrote(joined);
}

static void row_read(void) {
    size_t at = number(8), n;
    lend_room();
    size_t count = columns();
    const uint8_t *in = input(&n);
    row(count, in, n, at, 0);
}

static void row_write(void) {
    size_t n;
    lend_room();
    size_t count = columns(), given = number(2);
    if (given > COLUMNS) exit(2);
    for (size_t i = 0; i < given; i++) value(values + i);
    const uint8_t *in = input(&n);
    morelquilt_counted size = morelquilt_size_row(table, count, values, given, in, n);
    wrote(size, morelquilt_write_row(table, count, values, given, in, n, room, room_length));
}

static void normal(void) {
    size_t at = number(8), n;
    lend_room();
    size_t count = columns();
    const uint8_t *in = input(&n);
    morelquilt_needs needs;
    uint64_t next;
    fill(&next, sizeof next);
    morelquilt_counted judged = morelquilt_judge_row(table, count, in, n, at, &needs), size = {judged.refusal, judged.refusal ? 0 : needs.normal};
    morelquilt_counted c = morelquilt_normal_row(table, count, in, n, at, room, room_length, &next);
    if (c.refusal) {
        kept(&next, sizeof next);
        wrote(size, c);
        return;
    }
    if (size.refusal || size.count != c.count || judged.count != next) fault = "the row is judged otherwise than normalised";
    printf("ok");
    say_number(next);
    say_wrote(c.count);
}

static void walk_open(void) {
    size_t at = number(8), n;
    uint8_t text = byte();
    const uint8_t *in = input(&n);
    morelquilt_walk w;
    fill(&w, sizeof w);
    morelquilt_counted c = morelquilt_walk_open(in, n, at, text, &w);
    if (refused(c, &w, sizeof w)) return;
    if (w.at != c.count) fault = "the walk does not begin at the next place";
    say_number(c.count);
    printf(w.ended ? " null" : " walk");
    if (!w.ended) say_walk(&w);
}

static void walk(void) {
    morelquilt_walk w, was;
    size_t n;
    w.at = number(8);
    w.sum = number(8);
    w.known = byte();
    w.total = number(8);
    w.text = byte();
    w.ended = byte();
    was = w;
    uint64_t allowed = number(8);
    const uint8_t *in = input(&n);
    morelquilt_counted c = morelquilt_walk_step(in, n, allowed, &w);
    if (refused(c, NULL, 0)) {
        if (memcmp(&w, &was, sizeof w)) fault = "a refused call wrote";
        return;
    }
    say_number(c.count);
    say_walk(&w);
}

static void text_in(void) {
    size_t n;
    lend_room();
    const uint8_t *in = input(&n);
    wrote(morelquilt_utf16_size(in, n), morelquilt_to_utf16(in, n, room, room_length));
}

static void text_out(void) {
    size_t n;
    lend_room();
    const uint8_t *in = input(&n);
    wrote(morelquilt_utf8_size(in, n), morelquilt_to_utf8(in, n, room, room_length));
}

static void guid(void) {
    uint8_t wire[16];
    fill(wire, sizeof wire);
    if (!refused(morelquilt_guid_write(take(16), wire, sizeof wire), wire, sizeof wire)) say_bytes(wire, 16);
}

static void guid_read(void) {
    size_t at = number(8), n;
    const uint8_t *in = input(&n);
    uint8_t text[16];
    fill(text, sizeof text);
    morelquilt_counted c = morelquilt_guid_read(in, n, at, text);
    if (refused(c, text, sizeof text)) return;
    say_number(c.count);
    say_bytes(text, 16);
}

static void number_read(void) {
    size_t at = number(8), n;
    uint8_t width = byte();
    const uint8_t *in = input(&n);
    uint64_t to;
    fill(&to, sizeof to);
    morelquilt_counted c = morelquilt_number_read(in, n, at, width, 0, &to);
    if (refused(c, &to, sizeof to)) return;
    say_number(c.count);
    say_number(to);
}

/* A capture: a count of columns in two bytes, their descriptors, a row. */
static void capture(void) {
    size_t n;
    lend_room();
    const uint8_t *in = input(&n);
    uint64_t count = 0;
    morelquilt_counted c = morelquilt_number_read(in, n, 0, 2, 0, &count);
    if (!c.refusal && count > 1024) c = (morelquilt_counted){MORELQUILT_RULE, 0};
    for (size_t i = 0; !c.refusal && i < count; i++) c = morelquilt_column_read(in, n, c.count, (uint16_t)i, table + i, names + i);
    if (!c.refusal) row(count, in, n, c.count, 1);
    else if (refused(c, NULL, 0)) say_changed(0);
}

/* No call of the codec: whether this program counts changed bytes. */
static void self_test(void) {
    lend_room();
    size_t at = number(4);
    uint8_t stored = byte(), refusal = byte();
    morelquilt_counted c = {refusal, number(4)};
    if (at < room_length) room[at] = stored;
    if (refusal) c.count = 0;
    if (refused(c, NULL, 0)) say_changed(0);
    else say_wrote(c.count);
}

static int answer(void) {
    switch (byte()) {
    case 0x20: header_read(); return 1;
    case 0x21: header_write(); return 1;
    case 0x22: prelogin_write(); return 1;
    case 0x28: type_read(); return 1;
    case 0x29: type_write(); return 1;
    case 0x30: value_read(); return 1;
    case 0x31: value_write(); return 1;
    case 0x32: untyped_write(); return 1;
    case 0x38: row_read(); return 1;
    case 0x39: row_write(); return 1;
    case 0x3A: normal(); return 1;
    case 0x40: walk_open(); return 1;
    case 0x41: walk(); return 1;
    case 0x48: text_in(); return 1;
    case 0x49: text_out(); return 1;
    case 0x50: guid(); return 1;
    case 0x51: number_read(); return 1;
    case 0x52: guid_read(); return 1;
    case 0x58: capture(); return 1;
    case 0x7E: self_test(); return 1;
    default: return 0;
    }
}

int main(void) {
    uint8_t four[4];
    while (fread(four, 1, 4, stdin) == 4) {
        frame_length = (size_t)four[0] | (size_t)four[1] << 8 | (size_t)four[2] << 16 | (size_t)four[3] << 24;
        if (frame_length > MOST || fread(frame, 1, frame_length, stdin) != frame_length) return 2;
        memcpy(before, frame, frame_length);
        room_length = place = 0;
        fault = NULL;
        memset(room, FILL, sizeof room);
        if (!answer()) return 2;
        if (memcmp(before, frame, frame_length)) fault = "the input changed";
        if (changed(room_length, sizeof room)) fault = "a byte behind the room changed";
        if (fault) printf(" fault: %s", fault);
        printf("\n");
    }
    return ferror(stdin) || fflush(stdout) ? 2 : 0;
}
