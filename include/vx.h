/* Filters over columns: the calls of the proved library vx_c, for C, C++ and what calls C. docs/OTHER_LANGUAGES.md has a worked example, and says what is
 * proved.
 *
 * Each call reads bytes and numbers, and answers a status and bytes:
 *
 * - `*written` is the number of the bytes, also where they have no room;
 * - where `out_length` is at least that, the bytes stand at the front of `out`, what stood behind them is as it was, and the result is the status;
 * - where it is less, `out` is as it was and the result is VX_TOO_SHORT: the same call with as much room as `*written` says answers the bytes;
 * - where there was no memory, the result is VX_NO_MEMORY, `*written` is 0 and `out` is as it was.
 *
 * With the status VX_DONE the bytes are the answer. With any other they are a line of UTF-8, without an end, that tells the refusal: its name, or of a
 * predicate why it isn't taken. A call keeps nothing: it hands out no memory, and what it took is given back when it returns. No call ends the program.
 *
 * What a caller owes, and what nothing checks:
 *
 * - no pointer is null, also where its length is 0, and each leads to memory of that many items, of its type's alignment, until the call returns;
 * - what is read isn't changed meanwhile; `out` and `*written` overlap nothing else of the call, and nothing else reads or writes them meanwhile;
 * - a call isn't made by a signal handler, nor in the forked child of a process with threads. Otherwise any thread may make one at any time, also several
 *   at once;
 * - malloc, realloc and free are of one allocator, and align memory as the C standard asks;
 * - the stack has room for deep predicates, of which nothing is proved: 8 MiB, as a thread has mostly on Linux. 2 MiB were enough for all that was tried; a
 *   chain of 250 comparisons overran 1 MiB.
 */
#ifndef VX_H
#define VX_H

#include <stddef.h>
#include <stdint.h>

#ifdef __cplusplus
extern "C" {
#endif

/* The statuses. */
enum {
    VX_DONE = 0,      /* the bytes are the answer */
    VX_SCHEMA = 3,    /* the schema is refused */
    VX_FILTER = 4,    /* the predicate, or the filter, is refused */
    VX_OVERFLOW = 5,  /* a sum or a difference of the filter has no value of its type at a row */
    VX_NO_MEMORY = 8, /* there was no memory */
    VX_TOO_SHORT = 9, /* the bytes have no room; `*written` says how much they need */
    VX_ARRAYS = 10,   /* the arrays are refused, or there are 2^32 blocks or more */
    VX_BAD_CAST = 11  /* a cast of the filter has no value of its type at a row */
};

/* Schemas. The columns of a table as a text of JSON, as `vx sql` reads one (docs/FORMATS.md, "Requests"), of which the columns alone count:
 *
 *     {"columns":[{"name":"price","type":"i32?"},{"name":"city","type":"utf8"}],"blocks":[]}
 *
 * Refused with VX_SCHEMA: InputTooLong, BadJson, BadRequest and BadTable with their places.
 */

/* The filter that a predicate names: the bytes, in the wire form of docs/FORMATS.md, of the condition that `SELECT * FROM t WHERE ` with the predicate behind
 * it asks (docs/SQL.md). It is of boolean type.
 *
 * Refused with VX_FILTER where the predicate isn't UTF-8 (NotUtf8), the statement isn't taken (its line; places in it count from the statement's first byte,
 * 22 before the predicate's), it has ORDER BY (Ordered) or LIMIT (Limited), or the filter has no bytes (NotSerializable, TooLong). A chain of some 255 terms or
 * more has bytes, which the other calls refuse (TooDeep); a long chain of `=` with OR is written with IN.
 */
uint8_t vx_filter(const uint8_t *schema, size_t schema_length, const uint8_t *predicate, size_t predicate_length,
                  uint8_t *out, size_t out_length, size_t *written);

/* Where a call takes a filter, it is such bytes, whoever wrote them. Refused with VX_FILTER where they are no wire text of an expression (BadWire, TooDeep,
 * TooManyNodes, UnknownExpr, BadMetadata, WrongChildren), or the expression isn't strictly typed over the schema's columns (NotStruct, NullableSelect,
 * UnknownField, DuplicateField, TypeMismatch), or is no boolean (FilterNotBool).
 */

/* The names of the columns that a filter asks, in the schema's order, as a list of texts of JSON: ["price","city"]. On others its answer never hangs. */
uint8_t vx_filter_columns(const uint8_t *schema, size_t schema_length, const uint8_t *filter, size_t filter_length,
                          uint8_t *out, size_t out_length, size_t *written);

/* The statistics that a filter's pruning needs, as a list of objects of JSON: [{"path":["price"],"stat":"max"}]. They stand in the order of the columns, and
 * those of one field as "min", "max", "null_count". The list is empty where no block can be ruled out.
 */
uint8_t vx_filter_statistics(const uint8_t *schema, size_t schema_length, const uint8_t *filter, size_t filter_length,
                             uint8_t *out, size_t out_length, size_t *written);

/* Arrays. Columns in the layout of the columnar format of Apache Arrow, as the body of a record batch holds them: `body` is bytes, and `buffers` two numbers a
 * buffer, its first byte in the body and how many it has. The buffers stand in the order of the columns, with no more and no fewer.
 *
 *     a column of                   has the buffers
 *     bool                          validity, values: a bit a row
 *     u8 to u64, i8 to i64          validity, values: 1 to 8 bytes a row, the least first, signed ones in two's complement
 *     utf8                          validity, offsets: 4 bytes each, one more than rows, and bytes: row i's from offset i up to but without offset i + 1
 *     lists and structs             none: they are refused
 *
 * The bit of row i is bit i % 8, counted from the least, of byte i / 8. The validity of a row is 1 where it isn't null; a validity of no bytes hides nothing.
 * What stands under a null counts for nothing, but for its offsets. A buffer may be longer than its rows need. Without rows a text needs no offsets.
 *
 * Refused with VX_ARRAYS, by the first column that is: NoArray (a list or a struct), WrongBuffers (a number too many or too few, a buffer outside the body or
 * too short, offsets that run backwards or past the bytes), BadText (a text that isn't null isn't UTF-8), NullCell (a null in a column without null). Of
 * vx_rules_out also ManyBlocks, before all these: there are 2^32 blocks or more.
 */

/* Which blocks a filter rules out by their statistics: a bitmap, a bit a block. Where the statistics are honest, the filter is true at no row of such a block.
 *
 * `lengths` are the blocks' numbers of rows. The arrays hold exactly the statistics of vx_filter_statistics, a column each in its order with a cell a block: of
 * the field's type for "min" and "max", u64 for "null_count", null where the block's isn't known.
 */
uint8_t vx_rules_out(const uint8_t *schema, size_t schema_length, const uint8_t *filter, size_t filter_length, const uint32_t *lengths, size_t lengths_length,
                     const uint8_t *body, size_t body_length, const uint64_t *buffers, size_t buffers_length,
                     uint8_t *out, size_t out_length, size_t *written);

/* At which rows a filter is true, neither false nor null: a bitmap, a bit a row. The arrays hold exactly the schema's columns over so many rows; a narrower
 * schema, of the columns that vx_filter_columns tells, needs just theirs. Refused with VX_OVERFLOW or VX_BAD_CAST (Overflow, BadCast) where a sum or a cast of
 * the filter has no value at one of the rows; where there are both, with either.
 */
uint8_t vx_rows(const uint8_t *schema, size_t schema_length, const uint8_t *filter, size_t filter_length, size_t rows,
                const uint8_t *body, size_t body_length, const uint64_t *buffers, size_t buffers_length,
                uint8_t *out, size_t out_length, size_t *written);

/* The program as a call: the words are its arguments, with a byte 0 between two of them, and the input is its standard input; files have no part in it. The
 * status is the exit status (docs/FORMATS.md, "The program"), and the bytes are what it writes.
 */
uint8_t vx_run(const uint8_t *words, size_t words_length, const uint8_t *input, size_t input_length,
               uint8_t *out, size_t out_length, size_t *written);

#ifdef __cplusplus
}
#endif

#endif
