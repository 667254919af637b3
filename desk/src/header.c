/* Cases of document 01, called through the header from C11 and from C++11. Each line says what was expected; exits 1 where one differs.
 * PACKAGE_VERSION is that of rust/Cargo.toml. */
#include <stdio.h>
#include <string.h>

#include "strandroost.h"

#ifdef __cplusplus
#define SIZE(name, bytes) static_assert(sizeof(struct strandroost_##name) == bytes, #name)
#else
#define SIZE(name, bytes) _Static_assert(sizeof(struct strandroost_##name) == bytes, #name)
#endif

/* The sizes that the archive has, so that a field too many or too few is an error here. */
SIZE(refused, 24);
SIZE(count, 32);
SIZE(name, 40);
SIZE(flag, 32);
SIZE(reference, 32);
SIZE(pool, 16);
SIZE(pool_answer, 40);
SIZE(take_answer, 48);
SIZE(cell_answer, 32);
SIZE(create_answer, 48);
SIZE(column, 20);
SIZE(column_answer, 48);
SIZE(table, 1296);
SIZE(table_answer, 1320);
SIZE(step_answer, 40);

static int failed;

static void expect(const char *what, int holds)
{
    printf("%s %s\n", holds ? "ok  " : "FAIL", what);
    failed |= !holds;
}

#define COUNT(array) (sizeof(array) / sizeof *(array))
#define ROOMS lengths, COUNT(lengths), counts, COUNT(counts), text, COUNT(text)
#define BYTES(text) (const uint8_t *)text, sizeof text - 1
#define DOTS {'.', '.', '.', '.', '.', '.'}

static int same(const void *bytes, const char *text)
{
    return !memcmp(bytes, text, strlen(text));
}

/* A refusal's number and place. */
static int is(struct strandroost_refused refused, uint32_t number, uint32_t place, size_t row, size_t column)
{
    return refused.number == number && refused.place == place && refused.row == row && refused.column == column;
}

static int no_pool(struct strandroost_pool pool)
{
    return pool.num_strings == 0 && pool.codepage == 0 && !pool.long_string_refs;
}

static void version(void)
{
    char numbers[32];
    snprintf(numbers, sizeof numbers, "%d.%d.%d", STRANDROOST_VERSION_MAJOR, STRANDROOST_VERSION_MINOR, STRANDROOST_VERSION_PATCH);
    expect("the header's version is its numbers, and the package's", !strcmp(numbers, STRANDROOST_VERSION) && !strcmp(numbers, PACKAGE_VERSION));
}

static void names(void)
{
    uint16_t name[] = {'A', 'b'}, out[3] = {9, 9, 9};
    struct strandroost_count encoded = strandroost_encode(name, 2, true, out, 3);
    expect("case a: \"Ab\", table: 4840 414A", encoded.value == 2 && out[0] == 0x4840 && out[1] == 0x414a && out[2] == 9);
    encoded = strandroost_encode(name, 2, true, out, 1);
    expect("an output of one unit: 7", encoded.refused.number == 7 && encoded.value == 0 && out[0] == 0x4840);
    struct strandroost_name decoded = strandroost_decode(out, 2, out + 2, 0);
    expect("an output of no unit: 7", decoded.refused.number == 7);
    expect("\"Ab\" is valid", strandroost_is_valid(name, 2, true).value);
    uint16_t slash[] = {'A', '/'};
    expect("\"A/\" is not", !strandroost_is_valid(slash, 2, true).value);
}

/* Pool k: "Name" twice, a free entry, and "" once. */
static const uint8_t pool_k[] = {0xe4, 4, 0, 0, 4, 0, 2, 0, 0, 0, 0, 0, 0, 0, 1, 0, 0, 0, 0, 0};

static void pool(void)
{
    uint32_t lengths[4] = {7, 7, 7, 7};
    uint16_t counts[5] = {8, 8, 8, 8, 8};
    uint8_t text[6] = DOTS, out[32];
    struct strandroost_pool_answer loaded = strandroost_load(pool_k, sizeof pool_k, BYTES("Name"), ROOMS);
    expect("case k: code page 1252, three entries", loaded.pool.codepage == 1252 && loaded.pool.num_strings == 3);
    expect("the rooms past the pool are untouched", lengths[3] == 7 && counts[3] == 8 && same(text, "Name.."));
    struct strandroost_count shown = strandroost_get(loaded.pool, ROOMS, 1, out, sizeof out);
    expect("number 1 shows \"Name\"", shown.value == 4 && same(out, "Name"));
    expect("it counts 2", strandroost_refcount(loaded.pool, ROOMS, 1).value == 2);
    struct strandroost_take_answer taken = strandroost_incref_first(loaded.pool, ROOMS, BYTES(""));
    expect("case l: a take of \"\" by the old choice answers 2", taken.reference == 2 && counts[1] == 1);
    expect("a drop past the end: 9", strandroost_decref(taken.pool, ROOMS, 4).refused.number == 9);
    expect("number 0: 8", strandroost_string_ref(0).refused.number == 8);
    expect("a code page of 32 bits: 21", strandroost_new(0x80000000u).refused.number == 21);
    expect("showing number 0 is refused with 8", strandroost_get_refusal(taken.pool, ROOMS, 0).number == 8);
    expect("showing number 1 is not refused", strandroost_get_refusal(taken.pool, ROOMS, 1).number == 0);
    expect("the code page is set to 1250", strandroost_set_codepage(taken.pool, ROOMS, 1250).pool.codepage == 1250);
    expect("20 + 4 bytes are written", strandroost_write_pool(taken.pool, ROOMS, out, sizeof out).value == 24);
    expect("4 bytes of texts", strandroost_write_data(taken.pool, ROOMS, out, sizeof out).value == 4);
}

/* What is there is preferred; by document 01's choice, the free entry before it. */
static void choices(void)
{
    uint32_t lengths[3];
    uint16_t counts[3];
    uint8_t text[4];
    struct strandroost_pool pool = strandroost_load(pool_k, sizeof pool_k, BYTES("Name"), ROOMS).pool;
    expect("a take of \"\" answers 3", strandroost_incref(pool, ROOMS, BYTES("")).reference == 3 && counts[1] == 0 && counts[2] == 2);
    struct strandroost_create_answer made = strandroost_create(2, 0, BYTES(""), pool, ROOMS);
    expect("a value made of it is 3", made.kind == 2 && made.number == 3 && counts[1] == 0 && counts[2] == 3);
    made = strandroost_create_first(2, 0, BYTES(""), pool, ROOMS);
    expect("and 2 by the old choice", made.kind == 2 && made.number == 2 && counts[1] == 1 && counts[2] == 3);
}

static void values(void)
{
    uint32_t lengths[2] = {7, 7};
    uint16_t counts[2] = {8, 8};
    uint8_t text[6] = DOTS, out[6] = DOTS;
    struct strandroost_pool empty = strandroost_new(1252).pool;
    struct strandroost_create_answer made = strandroost_create(2, 0, BYTES("Name"), empty, ROOMS);
    expect("a text is created: reference 1", made.kind == 2 && made.number == 1 && made.pool.num_strings == 1);
    expect("the room has it", same(text, "Name..") && lengths[0] == 4 && counts[0] == 1 && counts[1] == 8);
    struct strandroost_create_answer number = strandroost_create(1, 40000, NULL, 0, made.pool, ROOMS);
    expect("an Int leaves the pool as it is", number.kind == 1 && number.number == 40000 && number.pool.num_strings == 1);
    struct strandroost_create_answer full = strandroost_create(2, 0, BYTES("Too"), made.pool, ROOMS);
    expect("a text that has no room: 6", full.refused.number == 6 && full.pool.num_strings == 0 && lengths[1] == 7);
    struct strandroost_cell_answer shown = strandroost_to_value(2, 1, made.pool, ROOMS);
    expect("it is shown as a text", shown.kind == 2 && shown.number == 0 && shown.refused.number == 0);
    expect("number 0 is refused with 8", strandroost_to_value(2, 0, made.pool, ROOMS).refused.number == 8);
    expect("its text is copied", strandroost_to_text(2, 1, made.pool, ROOMS, out, 6).value == 4 && same(out, "Name.."));
    expect("an output of 3 bytes: 7", strandroost_to_text(2, 1, made.pool, ROOMS, out, 3).refused.number == 7);
    expect("an Int has no text", strandroost_to_text(1, 5, made.pool, ROOMS, out, 6).value == 0);
    struct strandroost_pool_answer removed = strandroost_remove(2, 1, made.pool, ROOMS);
    expect("removed, its bytes are 0", removed.pool.num_strings == 1 && counts[0] == 0 && !memcmp(text, "\0\0\0\0..", 6));
    expect("removed again: 10", strandroost_remove(2, 1, removed.pool, ROOMS).refused.number == 10);
}

/* A kind of cell that is unknown. */
static void unknown_kinds(void)
{
    static const uint8_t kinds[] = {4, 255};
    for (size_t i = 0; i < COUNT(kinds); i++) {
        uint8_t kind = kinds[i], text[6] = DOTS, out[6] = DOTS;
        uint32_t lengths[2] = {7, 7};
        uint16_t counts[2] = {8, 8};
        printf("kind %d:\n", kind);
        struct strandroost_pool pool = strandroost_create(2, 0, BYTES("Name"), strandroost_new(1252).pool, ROOMS).pool, unsound = pool;
        struct strandroost_create_answer made = strandroost_create(kind, 9, BYTES("More"), pool, ROOMS);
        expect("create: 16 with no place", is(made.refused, 16, 0, 0, 0) && no_pool(made.pool) && made.kind == 0 && made.number == 0);
        struct strandroost_pool_answer removed = strandroost_remove(kind, 1, pool, ROOMS);
        expect("remove: 16 with no place", is(removed.refused, 16, 0, 0, 0) && no_pool(removed.pool));
        struct strandroost_cell_answer shown = strandroost_to_value(kind, 1, pool, ROOMS);
        expect("to_value: 16 with no place", is(shown.refused, 16, 0, 0, 0) && shown.kind == 0 && shown.number == 0);
        struct strandroost_count copied = strandroost_to_text(kind, 1, pool, ROOMS, out, 0);
        expect("to_text: 16 with no place", is(copied.refused, 16, 0, 0, 0) && copied.value == 0);
        unsound.num_strings = 3;
        expect("create on an unsound state: 24", strandroost_create(kind, 9, NULL, 0, unsound, ROOMS).refused.number == 24);
        expect("remove: 24", strandroost_remove(kind, 1, unsound, ROOMS).refused.number == 24);
        expect("to_value: 24", strandroost_to_value(kind, 1, unsound, ROOMS).refused.number == 24);
        expect("to_text: 24", strandroost_to_text(kind, 1, unsound, ROOMS, out, 6).refused.number == 24);
        expect("the rooms are as they were", same(text, "Name..") && lengths[0] == 4 && lengths[1] == 7 && counts[0] == 1 && counts[1] == 8 && same(out, "......"));
    }
}

static void columns(void)
{
    struct strandroost_column none = strandroost_column_build(), marked;
    expect("a column being made has no mark", !none.is_localizable && !none.is_nullable && !none.is_primary_key && !none.has_range);
    marked = strandroost_column_primary_key(strandroost_column_localizable(strandroost_column_nullable(none)));
    expect("marks one after another", marked.is_localizable && marked.is_nullable && marked.is_primary_key);
    marked = strandroost_column_range(marked, -3, 9);
    marked = strandroost_column_int32(marked);
    expect("an Int32 from -3 to 9", marked.coltype == 1 && marked.has_range && marked.min == -3 && marked.max == 9 && marked.is_nullable);
    expect("Int16, Str 300, Binary", strandroost_column_int16(none).coltype == 0 && strandroost_column_string(none, 300).max_len == 300 && strandroost_column_binary(none).coltype == 3);
    struct strandroost_column_answer made = strandroost_column_from_bitfield(none, 0x2900);
    expect("case h: 0x2900 is Str 0, a key", made.column.coltype == 2 && made.column.max_len == 0 && made.column.is_primary_key);
    expect("case j: 0x503 is 13", strandroost_column_from_bitfield(none, 0x503).refused.number == 13);
    struct strandroost_column text = strandroost_column_string(strandroost_column_nullable(none), 8);
    expect("a nullable Str 8 is 0x1D08", strandroost_column_bitfield(text).value == 0x1d08);
    expect("it allows eight bytes", strandroost_is_valid_value(text, 2, 0, BYTES("ABCDEFGH")).value);
    expect("and not nine", !strandroost_is_valid_value(text, 2, 0, BYTES("ABCDEFGHI")).value);
    text.max_len = 256;
    expect("a maximum of 256: 19 at column 0", is(strandroost_column_bitfield(text).refused, 19, 1, 0, 0));
}

/* A column whose type is unknown, and a value of an unknown kind beside a column. */
static void unknown_types(void)
{
    struct strandroost_column none = strandroost_column_build(), binary = strandroost_column_binary(none), text = strandroost_column_string(none, 256), bad = none;
    bad.coltype = 4;
    struct strandroost_reference bits = strandroost_column_bitfield(bad);
    expect("the bits of a column of type 4: 16 at column 0", is(bits.refused, 16, 1, 0, 0) && bits.value == 0);
    struct strandroost_flag valid = strandroost_is_valid_value(bad, 3, 0, NULL, 0);
    expect("a value beside it: 16 at column 0", is(valid.refused, 16, 1, 0, 0) && !valid.value);
    expect("an unknown kind beside it too", is(strandroost_is_valid_value(bad, 4, 0, NULL, 0).refused, 16, 1, 0, 0));
    expect("kind 255 beside a Binary: 16 at column 0", is(strandroost_is_valid_value(binary, 255, 0, NULL, 0).refused, 16, 1, 0, 0));
    expect("and beside a maximum of 256: 19", is(strandroost_is_valid_value(text, 255, 0, NULL, 0).refused, 19, 1, 0, 0));
    expect("a column being made has no type yet", strandroost_column_nullable(bad).is_nullable && strandroost_column_int32(bad).coltype == 1);
    expect("nor where its bits are read", strandroost_column_from_bitfield(bad, 0x502).refused.number == 0);
}

static void layouts(void)
{
    static const int32_t bits[] = {0x502, 0xd08}, bad[] = {0x502, 0x503};
    struct strandroost_table by_hand;
    memset(&by_hand, 0, sizeof by_hand);
    by_hand.count = 2;
    by_hand.columns[1] = strandroost_column_string(strandroost_column_build(), 256);
    struct strandroost_table_answer made = strandroost_table_new(by_hand);
    expect("a maximum of 256: 19 at column 1", is(made.refused, 19, 1, 0, 1) && made.table.count == 0);
    expect("so in a call on the layout", strandroost_num_rows(by_hand, NULL, 0).refused.number == 19);
    by_hand.columns[1].max_len = 8;
    made = strandroost_table_new(by_hand);
    expect("a maximum of 8 is taken", made.refused.number == 0 && made.table.count == 2 && made.table.columns[1].max_len == 8);
    by_hand.count = 65;
    expect("65 columns: 20", strandroost_table_new(by_hand).refused.number == 20);
    made = strandroost_table_from_bitfields(bits, 2, true);
    expect("bits make the same columns", made.table.count == 2 && made.table.long_string_refs && made.table.columns[1].coltype == 2 && made.table.columns[1].max_len == 8);
    made = strandroost_table_from_bitfields(bad, 2, true);
    expect("0x503: 13 at column 1", is(made.refused, 13, 1, 0, 1) && made.table.count == 0);
}

/* A layout with a column whose type is unknown: column 1, between an Int16 and a Str beyond its maximum. */
static void unknown_layouts(void)
{
    uint8_t kinds[] = {1, 1, 1, 9}, stream[] = {9, 9, 9, 9, 9, 9, 9, 9};
    int32_t numbers[] = {1, 1, 1, 9};
    struct strandroost_table table;
    memset(&table, 0, sizeof table);
    table.count = 3;
    table.long_string_refs = true;
    table.columns[1].coltype = 4;
    table.columns[2] = strandroost_column_string(strandroost_column_build(), 256);
    struct strandroost_table_answer made = strandroost_table_new(table);
    expect("table_new: 16 at column 1", is(made.refused, 16, 1, 0, 1));
    expect("and a layout without columns", made.table.count == 0 && made.table.long_string_refs && made.table.columns[1].coltype == 0);
    expect("num_rows: 16 at column 1", is(strandroost_num_rows(table, stream, 8).refused, 16, 1, 0, 1));
    expect("read_cell, before 15", is(strandroost_read_cell(table, stream, 8, 9, 9).refused, 16, 1, 0, 1));
    expect("read_rows", is(strandroost_read_rows(table, stream, 8, kinds, 4, numbers, 4).refused, 16, 1, 0, 1));
    expect("write_rows", is(strandroost_write_rows(table, 1, kinds, 3, numbers, 3, stream, 8).refused, 16, 1, 0, 1));
    expect("write_rows, before 14 and 23", is(strandroost_write_rows(table, 65537, kinds, 3, numbers, 3, stream, 8).refused, 16, 1, 0, 1));
    struct strandroost_step_answer step = strandroost_rows_next(table, stream, 8, 5);
    expect("rows_next, its place as it was", is(step.refused, 16, 1, 0, 1) && step.at == 5 && !step.found);
    expect("what was lent is as it was", kinds[0] == 1 && kinds[3] == 9 && numbers[0] == 1 && numbers[3] == 9 && stream[0] == 9 && stream[7] == 9);
    table.count = 65;
    expect("65 columns: 20", is(strandroost_num_rows(table, stream, 8).refused, 20, 0, 0, 0));
    table.count = 3;
    table.columns[0] = table.columns[2];
    expect("a maximum of 256 at column 0: 19 there", is(strandroost_num_rows(table, stream, 8).refused, 19, 1, 0, 0));
    table.columns[0].max_len = 8;
    table.count = 1;
    expect("a column past the count is not judged", strandroost_num_rows(table, stream, 8).refused.number == 0);
    made = strandroost_table_new(table);
    expect("and is handed back as it came", made.refused.number == 0 && made.table.columns[1].coltype == 4);
}

static void tables(void)
{
    static const int32_t bits[] = {0x502, 0xd08};
    static const uint8_t expected[] = {0x01, 0x80, 0xff, 0x7f, 3, 0, 0, 0};
    uint8_t kinds[] = {1, 2, 1, 0}, stream[9] = {0}, read[4];
    int32_t numbers[] = {1, 3, -1, 0}, found[4];
    struct strandroost_table table = strandroost_table_from_bitfields(bits, 2, false).table;
    struct strandroost_count written = strandroost_write_rows(table, 2, kinds, 4, numbers, 4, stream, sizeof stream);
    expect("case m: 01 80 FF 7F 03 00 00 00", written.value == 8 && !memcmp(stream, expected, 8));
    expect("a kind fewer than numbers: 23", strandroost_write_rows(table, 2, kinds, 3, numbers, 4, stream, sizeof stream).refused.number == 23);
    expect("a number fewer than kinds: 23", strandroost_write_rows(table, 2, kinds, 4, numbers, 3, stream, sizeof stream).refused.number == 23);
    written = strandroost_read_rows(table, stream, sizeof stream, read, 4, found, 4);
    expect("read again, the ninth byte ignored", written.value == 4 && !memcmp(read, kinds, 4) && !memcmp(found, numbers, sizeof found));
    expect("two rows", strandroost_num_rows(table, stream, sizeof stream).value == 2);
    struct strandroost_cell_answer cell = strandroost_read_cell(table, stream, sizeof stream, 1, 0);
    expect("the cell at row 1, column 0 is -1", cell.kind == 1 && cell.number == -1);
    size_t at = 0, same = 0;
    for (struct strandroost_step_answer step; (step = strandroost_rows_next(table, stream, sizeof stream, at)).found; at = step.at)
        same += step.kind == kinds[at] && step.number == numbers[at];
    expect("the row reader answers the same four cells", same == 4 && at == 4);
    expect("and then none, however often asked", strandroost_rows_next(table, stream, sizeof stream, 4).at == 4);
    numbers[2] = 40000;
    written = strandroost_write_rows(table, 2, kinds, 4, numbers, 4, stream, sizeof stream);
    expect("40,000 in 16 bits: 17 at row 1, column 0", is(written.refused, 17, 2, 1, 0));
    numbers[2] = -32768;
    written = strandroost_write_rows(table, 2, kinds, 4, numbers, 4, stream, sizeof stream);
    expect("-32,768 in 16 bits: 17 at row 1, column 0, and nothing was written", is(written.refused, 17, 2, 1, 0) && !memcmp(stream, expected, 8));
    kinds[1] = 4;
    written = strandroost_write_rows(table, 2, kinds, 4, numbers, 4, stream, sizeof stream);
    expect("column 0 is judged before kind 4 at row 0, column 1", is(written.refused, 17, 2, 1, 0));
    numbers[2] = -1;
    written = strandroost_write_rows(table, 2, kinds, 4, numbers, 4, stream, sizeof stream);
    expect("kind 4: 16 at row 0, column 1", is(written.refused, 16, 2, 0, 1));
}

static void icons(void)
{
    static const int32_t bits[] = {0x1900};
    static const uint8_t before[] = {1, 0, 0, 0, 1, 0};
    uint8_t kinds[3] = {9, 9, 9}, after[6] = {0};
    int32_t numbers[3];
    struct strandroost_table table = strandroost_table_from_bitfields(bits, 1, false).table;
    struct strandroost_count done = strandroost_read_rows(table, before, sizeof before, kinds, 3, numbers, 3);
    expect("a Binary cell of 0 is Null", done.value == 3 && kinds[0] == 3 && kinds[1] == 0 && kinds[2] == 3);
    done = strandroost_write_rows(table, 3, kinds, 3, numbers, 3, after, sizeof after);
    expect("and is written as it was", done.value == 6 && !memcmp(before, after, 6));
}

int main(void)
{
    version();
    names();
    pool();
    choices();
    values();
    unknown_kinds();
    columns();
    unknown_types();
    layouts();
    unknown_layouts();
    tables();
    icons();
    return failed;
}
