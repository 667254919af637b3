/* The port's calls for C and C++: libmsi.a, made by `rt staticlib msi`, for x86-64 Linux. C99 and later, C++11 and later.
 *
 * Every call returns for every input, reads and writes only what it is lent, keeps nothing between calls, and after a refusal
 * has left all lent memory as it was. What each call answers is proved: its contract stands in crates/msi/src, by the
 * definitions in crates/c_types/specs. Numbers of refusals are those of document 01; below, each call has its own in the
 * order in which they are judged.
 *
 * What the caller sees to, since no call can:
 * - Memory is lent as a pointer and a count of elements (units, entries, bytes or cells; never bytes where elements are
 *   wider). Where the count is above 0 the pointer must be aligned and valid for that many elements; where it is 0 it may be
 *   anything aligned, NULL included.
 * - What one argument lends to be written must not overlap what another argument lends. So no call works in place: a name
 *   encoded over itself may come out wrong.
 * - A bool is 0 or 1. Any other byte there is undefined in C, and here.
 * - Calls may run at the same time on several threads, as long as what is lent to one to be written is not lent to another.
 *
 * Kinds of cells (0 Null, 1 Int, 2 Str, 3 Binary) and types of columns (0 Int16, 1 Int32, 2 Str, 3 Binary) are numbers, and
 * any number may be handed over: one that is unknown is refused with 16. */
#ifndef STRANDROOST_H
#define STRANDROOST_H

#ifndef __cplusplus
#include <stdbool.h>
#endif
#include <stddef.h>
#include <stdint.h>

#define STRANDROOST_VERSION_MAJOR 0
#define STRANDROOST_VERSION_MINOR 1
#define STRANDROOST_VERSION_PATCH 0
#define STRANDROOST_VERSION "0.1.0"

#ifdef __cplusplus
extern "C" {
#endif

/* Document 01's number and place. All 0: nothing was refused. Rows and columns are counted from 0. */
struct strandroost_refused {
    uint32_t number;
    uint32_t place; /* 0 none, 1 a column, 2 a cell by row and column */
    size_t row;
    size_t column;
};

/* In every answer below, what was not given is 0. */
struct strandroost_count {
    struct strandroost_refused refused;
    size_t value;
};

struct strandroost_name {
    struct strandroost_refused refused;
    size_t units;
    bool is_table;
};

struct strandroost_flag {
    struct strandroost_refused refused;
    bool value;
};

struct strandroost_reference {
    struct strandroost_refused refused;
    int32_t value;
};

/* A pool's state. Its rooms are lent beside it to each call: the lengths and the counts of its entries, and their texts one
 * after another. The entry room is the shorter of lengths and counts. A state that the rooms do not bear out is refused with
 * 24, so it may be filled by hand; after a refusal the caller keeps the state that it had. */
struct strandroost_pool {
    size_t num_strings;
    uint32_t codepage;
    bool long_string_refs;
};

struct strandroost_pool_answer {
    struct strandroost_refused refused;
    struct strandroost_pool pool;
};

struct strandroost_take_answer {
    struct strandroost_refused refused;
    struct strandroost_pool pool;
    int32_t reference;
};

/* A cell by its kind and number: an Int's own, a Str's reference, 0 for Null and Binary. In a Binary column 0 is stored for Null and
 * 1 for Binary, and any other number reads as Binary. */
struct strandroost_cell_answer {
    struct strandroost_refused refused;
    uint8_t kind;
    int32_t number;
};

struct strandroost_create_answer {
    struct strandroost_refused refused;
    struct strandroost_pool pool;
    uint8_t kind;
    int32_t number;
};

/* A column, or one being made, whose type does not count. max_len is the maximum of a Str, 0 for none; the range counts where
 * has_range is set. */
struct strandroost_column {
    uint32_t coltype;
    uint32_t max_len;
    bool is_localizable;
    bool is_nullable;
    bool is_primary_key;
    bool has_range;
    int32_t min;
    int32_t max;
};

struct strandroost_column_answer {
    struct strandroost_refused refused;
    struct strandroost_column column;
};

/* A layout, handed over whole: the first `count` columns are in use, the others are never looked at. Every call judges it, so
 * it may be filled by hand. */
struct strandroost_table {
    struct strandroost_column columns[64];
    size_t count;
    bool long_string_refs;
};

/* Where it was refused: no columns, every place 0, and long_string_refs as it was handed over. */
struct strandroost_table_answer {
    struct strandroost_refused refused;
    struct strandroost_table table;
};

/* A step of the row reader: the place after it, and a cell where `found` is set. */
struct strandroost_step_answer {
    struct strandroost_refused refused;
    size_t at;
    bool found;
    uint8_t kind;
    int32_t number;
};

/* ---- Stream names, in UTF-16 units. `places` is how many elements an output has room for; a result is written to its front, and
 * what lies past the result stays. */

/* The stored form of a name: how many units were written. units + 1 places suffice.
 * 22: over 65,535 units. 7: the output is too small. */
struct strandroost_count strandroost_encode(const uint16_t *name, size_t units, bool is_table, uint16_t *out, size_t places);

/* The name that a stored form stands for, and whether it is a table's. 2 * units places suffice.
 * 22: over 65,536 units, or a name over 65,535. 7. */
struct strandroost_name strandroost_decode(const uint16_t *stored, size_t units, uint16_t *out, size_t places);

/* Whether a name may be stored: not empty, not with the prefix in front if plain, at most 31 units when stored, and with none of
 * '/', '\\', ':', '!' and no unit from 0x3800 to 0x483F. 22: over 65,535 units. */
struct strandroost_flag strandroost_is_valid(const uint16_t *name, size_t units, bool is_table);

/* ---- The string pool. Every call that is handed a state with its rooms judges first 22, a text room over 268,435,455 bytes, then
 * 24, an unsound state. */

/* The number, where it is a reference. 8: below 1 or above 16,777,215. */
struct strandroost_reference strandroost_string_ref(int32_t number);

/* An empty pool with short references. 21: a code page above 2,147,483,647. */
struct strandroost_pool_answer strandroost_new(uint32_t codepage);

/* The pool of two streams, its entries and texts written to the rooms. An entry takes at least 4 bytes of the pool stream, so
 * (pool_bytes - 4) / 4 entries and data_bytes of text suffice.
 * 22: a stream or the text room over 268,435,455 bytes. 1, 2: the pool stream is under 4 bytes, or ends inside an entry. 3:
 * over 16,777,215 entries. 4: over the entry room. 5: the data stream is shorter than the lengths' sum. 6: the text room is
 * too small. */
struct strandroost_pool_answer strandroost_load(const uint8_t *pool, size_t pool_bytes, const uint8_t *data, size_t data_bytes,
                                                uint32_t *lengths, size_t lengths_len, uint16_t *counts, size_t counts_len,
                                                uint8_t *text, size_t text_len);

/* The pool with another code page. 22, 24, 21. */
struct strandroost_pool_answer strandroost_set_codepage(struct strandroost_pool pool, const uint32_t *lengths, size_t lengths_len,
                                                        const uint16_t *counts, size_t counts_len, const uint8_t *text,
                                                        size_t text_len, uint32_t codepage);

/* The count of a reference, 0 past the last entry. 22, 24, 8. */
struct strandroost_count strandroost_refcount(struct strandroost_pool pool, const uint32_t *lengths, size_t lengths_len,
                                              const uint16_t *counts, size_t counts_len, const uint8_t *text, size_t text_len,
                                              int32_t number);

/* The refusal of showing a reference, or none. 22, 24, 8. */
struct strandroost_refused strandroost_get_refusal(struct strandroost_pool pool, const uint32_t *lengths, size_t lengths_len,
                                                   const uint16_t *counts, size_t counts_len, const uint8_t *text,
                                                   size_t text_len, int32_t number);

/* The text of a reference, copied to `out`, since no exported call hands out a pointer: how many bytes, which is
 * lengths[number - 1] where number is at most num_strings, and 0 past the last entry. 22, 24, 8, 7. */
struct strandroost_count strandroost_get(struct strandroost_pool pool, const uint32_t *lengths, size_t lengths_len,
                                         const uint16_t *counts, size_t counts_len, const uint8_t *text, size_t text_len,
                                         int32_t number, uint8_t *out, size_t places);

/* Takes a text: its reference, and the pool afterwards. The first entry that has this text and a count from 1 to 65,534 counts up,
 * wherever it stands; where there is none, the text goes into the first free entry, and where there is none either, into a new
 * one. Where a free entry stands before the one that counts up, document 01's choice has another number, and is asked for by its
 * name, strandroost_incref_first. One more entry and taken_len more bytes of text suffice.
 * 22: the text taken, too, over 268,435,455 bytes. 24. Where a new entry is wanted, 11: references are short, with 65,535 or
 * more entries; 12: there are 16,777,215; 4: the entry room is full. 6: the text room is too small. None of these four where an
 * entry counts up. */
struct strandroost_take_answer strandroost_incref(struct strandroost_pool pool, uint32_t *lengths, size_t lengths_len,
                                                  uint16_t *counts, size_t counts_len, uint8_t *text, size_t text_len,
                                                  const uint8_t *taken, size_t taken_len);

/* Takes a text by document 01's choice, which is the crate's: the first entry that is free, or has this text and a count below
 * 65,535, so that a text may stand twice. For a caller that replays recorded takes, such as a delta builder: it gets the numbers
 * that were recorded. Refusals as strandroost_incref, by the entry chosen. */
struct strandroost_take_answer strandroost_incref_first(struct strandroost_pool pool, uint32_t *lengths, size_t lengths_len,
                                                        uint16_t *counts, size_t counts_len, uint8_t *text, size_t text_len,
                                                        const uint8_t *taken, size_t taken_len);

/* Drops a reference: the pool afterwards. At a count of 0 the text goes, and the bytes given up become 0.
 * 22, 24, 8. 9: past the last entry. 10: its count is 0. */
struct strandroost_pool_answer strandroost_decref(struct strandroost_pool pool, uint32_t *lengths, size_t lengths_len,
                                                  uint16_t *counts, size_t counts_len, uint8_t *text, size_t text_len,
                                                  int32_t number);

/* The pool stream: how many bytes were written. 4 + 8 * num_strings places suffice. 22, 24, 7. */
struct strandroost_count strandroost_write_pool(struct strandroost_pool pool, const uint32_t *lengths, size_t lengths_len,
                                                const uint16_t *counts, size_t counts_len, const uint8_t *text, size_t text_len,
                                                uint8_t *out, size_t places);

/* The data stream: how many bytes were written, the sum of the lengths in use. 22, 24, 7. */
struct strandroost_count strandroost_write_data(struct strandroost_pool pool, const uint32_t *lengths, size_t lengths_len,
                                                const uint16_t *counts, size_t counts_len, const uint8_t *text, size_t text_len,
                                                uint8_t *out, size_t places);

/* ---- Values and the pool. A value is handed over by kind and number, which counts for an Int and for a reference. An unknown
 * kind is 16, with no place. */

/* A value made: a text (kind 2), which is `taken`, is taken into the pool as by strandroost_incref, and its number is then the
 * reference; any other leaves the pool as it is.
 * 22: `taken`, whatever the kind, or the text room over 268,435,455 bytes. 24, 16. For a text 11, 12, 4, 6, as that take. */
struct strandroost_create_answer strandroost_create(uint8_t kind, int32_t number, const uint8_t *taken, size_t taken_len,
                                                    struct strandroost_pool pool, uint32_t *lengths, size_t lengths_len,
                                                    uint16_t *counts, size_t counts_len, uint8_t *text, size_t text_len);

/* A value made, a text by document 01's choice, as by strandroost_incref_first: for a caller that replays recorded takes. Refusals
 * as strandroost_create, by the entry chosen. */
struct strandroost_create_answer strandroost_create_first(uint8_t kind, int32_t number, const uint8_t *taken, size_t taken_len,
                                                          struct strandroost_pool pool, uint32_t *lengths, size_t lengths_len,
                                                          uint16_t *counts, size_t counts_len, uint8_t *text, size_t text_len);

/* A value removed: a reference (kind 2) is dropped; any other leaves the pool as it is. 22, 24, 16. For a reference 8, 9, 10. */
struct strandroost_pool_answer strandroost_remove(uint8_t kind, int32_t number, struct strandroost_pool pool, uint32_t *lengths,
                                                  size_t lengths_len, uint16_t *counts, size_t counts_len, uint8_t *text,
                                                  size_t text_len);

/* The value that a cell stands for: its kind, and an Int's number; a text's is 0, and strandroost_to_text copies it.
 * 22, 24, 16. For a reference 8. */
struct strandroost_cell_answer strandroost_to_value(uint8_t kind, int32_t number, struct strandroost_pool pool,
                                                    const uint32_t *lengths, size_t lengths_len, const uint16_t *counts,
                                                    size_t counts_len, const uint8_t *text, size_t text_len);

/* The text of a cell that holds a reference, copied to `out`, none of any other: how many bytes, as strandroost_get.
 * 22, 24, 16. For a reference 8, 7. */
struct strandroost_count strandroost_to_text(uint8_t kind, int32_t number, struct strandroost_pool pool, const uint32_t *lengths,
                                             size_t lengths_len, const uint16_t *counts, size_t counts_len, const uint8_t *text,
                                             size_t text_len, uint8_t *out, size_t places);

/* ---- Columns. One being made has marks and a range, set one after another; the type in it is not looked at. A column by
 * itself is column 0 in a refusal. */

/* One being made, without marks or range. Never refused, as the next eight. */
struct strandroost_column strandroost_column_build(void);

/* With the localizable mark. */
struct strandroost_column strandroost_column_localizable(struct strandroost_column builder);

/* With the nullable mark. */
struct strandroost_column strandroost_column_nullable(struct strandroost_column builder);

/* With the primary key mark. */
struct strandroost_column strandroost_column_primary_key(struct strandroost_column builder);

/* With the least and the largest integer allowed. */
struct strandroost_column strandroost_column_range(struct strandroost_column builder, int32_t min, int32_t max);

/* The column of integers of 16 bits. */
struct strandroost_column strandroost_column_int16(struct strandroost_column builder);

/* The column of integers of 32 bits. */
struct strandroost_column strandroost_column_int32(struct strandroost_column builder);

/* The column of texts. A maximum above 255 is refused where the column is used, not here. */
struct strandroost_column strandroost_column_string(struct strandroost_column builder, uint32_t max_len);

/* The column of streams. */
struct strandroost_column strandroost_column_binary(struct strandroost_column builder);

/* The column of the type and marks in the bits; a nullable mark and a range made before stay. 13: an integer of a size other than
 * 1, 2, 4. */
struct strandroost_column_answer strandroost_column_from_bitfield(struct strandroost_column builder, int32_t bits);

/* The bits of a column. 19: a Str maximum above 255; or 16: an unknown type. */
struct strandroost_reference strandroost_column_bitfield(struct strandroost_column column);

/* Whether a value suits a column; `number` counts for an Int alone; `text` stands beside a value of kind 2, and its length counts.
 * 22: the text, whatever the kind, over 268,435,455 bytes. Then the column: 19 or 16. Then the value: 16, at column 0. */
struct strandroost_flag strandroost_is_valid_value(struct strandroost_column column, uint8_t kind, int32_t number,
                                                   const uint8_t *text, size_t text_len);

/* ---- Tables. A bad column is refused at its place: 19, a Str maximum above 255, or 16, an unknown type, whichever the first
 * bad one of those in use has. */

/* The layout handed over, as it came; where it is refused, one without columns. 20: over 64 columns. 19 or 16. */
struct strandroost_table_answer strandroost_table_new(struct strandroost_table table);

/* The layout of the columns that bits name. 20. 13 at the first bad column. */
struct strandroost_table_answer strandroost_table_from_bitfields(const int32_t *bits, size_t columns, bool long_string_refs);

/* The complete rows of a table stream. 22: over 268,435,455 bytes. 20, 19 or 16. 14: over 65,536 rows. */
struct strandroost_count strandroost_num_rows(struct strandroost_table table, const uint8_t *stream, size_t stream_len);

/* The cell at a place. 22, 20, 19 or 16, 14. 15: outside the table. */
struct strandroost_cell_answer strandroost_read_cell(struct strandroost_table table, const uint8_t *stream, size_t stream_len,
                                                     size_t row, size_t column);

/* The cells of a table stream, row by row: how many. Each output needs rows * count places. 22, 20, 19 or 16, 14, 7. */
struct strandroost_count strandroost_read_rows(struct strandroost_table table, const uint8_t *stream, size_t stream_len,
                                               uint8_t *kinds, size_t kinds_len, int32_t *numbers, size_t numbers_len);

/* The table stream of cells handed over row by row: how many bytes were written, rows times the row size; 4 * kinds_len places
 * suffice. 20, 19 or 16, 14. 23: kinds or numbers not rows * count. Then the cells, column by column, each at its place: 16, a
 * kind that is unknown or does not suit the column; 17, an Int outside its width, or the smallest of it, whose cell would read
 * as Null; 8, no reference; 18, one above 65,535 in a short table. 7. */
struct strandroost_count strandroost_write_rows(struct strandroost_table table, size_t rows, const uint8_t *kinds,
                                                size_t kinds_len, const int32_t *numbers, size_t numbers_len, uint8_t *out,
                                                size_t places);

/* A step of the row reader from the place `at`, 0 at first: a cell moves it by one; past the last there is none, however often
 * asked, and that and a refusal leave it. 22, 20, 19 or 16, 14. */
struct strandroost_step_answer strandroost_rows_next(struct strandroost_table table, const uint8_t *stream, size_t stream_len,
                                                     size_t at);

#ifdef __cplusplus
}
#endif

#endif
