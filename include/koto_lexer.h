/* koto_lexer.h: Koto's lexer, its format options and the string side of its constant pool, for C.
 *
 * The code is Rattle, and each call is proved to meet its contract (docs/PROMISES.md). `tools/archive` writes
 * target/staticlib/libkoto_lexer.a, for x86-64 Linux with 64-bit pointers. KOTO_LEXER_VERSION is the version of this header and of its
 * archive. Before 1.0.0 its second number rises with each change of the calls, and a caller must follow; from 1.0.0 on a later version may
 * add names, and a name that is here keeps its meaning.
 *
 * What every call does
 * - It takes every input and returns. It keeps nothing between calls, allocates nothing, and reads and writes only what it is lent. Of the C
 *   library it needs memcpy and memset.
 * - It returns 0, or the number of a refusal (KOTO_TOO_LONG and so on).
 * - It writes every answer, refused or not. What has no meaning is 0; in koto_options it is KOTO_NONE.
 * - Where it is refused, it changes nothing else of what was lent, unless its text below says so.
 * - Two calls with the same input give the same answers and leave the same words.
 *
 * What the caller owes
 * - A row is a pointer to its first element and its length in elements. The length is true: so many elements may be read, and written where
 *   the pointer is not const. A pointer is aligned and not null, also where the length is 0. No length is too short: a call says so.
 * - What may be written overlaps nothing else that is lent to the same call. Rows that are only read may overlap each other.
 * - Nobody else writes what is lent while the call runs, or reads what the call may write.
 * - There are 64 KiB of stack: koto_read_table checks a table in numbers of its own.
 */
#ifndef KOTO_LEXER_H
#define KOTO_LEXER_H

#include <stddef.h>
#include <stdint.h>

#define KOTO_LEXER_VERSION "0.14.1"

#ifdef __cplusplus
extern "C" {
#endif

/* ---- Refusals: what a call returns ----
 *
 * Each has a place, or a value, which the calls below write under that name; where none is said it is 0.
 *
 *    1 TOO_LONG                    a source over KOTO_SOURCE_MOST bytes, a format string over KOTO_FORMAT_MOST, or a text or a fill over
 *                                  KOTO_TEXT_MOST
 *    2 BAD_TABLE                   a table that is unfit. Place: 0 for a bad count, else the first bad run, from 0, else, where only code
 *                                  points 0 to 127 have other properties than every table must give them, the count
 *    3 BAD_UTF8                    bytes of which the first ill-formed sequence is wrong, whatever may follow. Place: its offset
 *    4 LIST_FULL                   a token is left to read and no record has room (place: the current byte), or a row is too short for a
 *                                  table file's numbers
 *    5 MODES_FULL                  a token would push a 65th mode. Place: the current byte
 *    6 PEEK_TOO_FAR                n is over queued + 1
 *    7 QUEUE_FULL                  a token must be queued, and KOTO_QUEUE_MOST are
 *    8 BAD_STATE                   a cursor or a pool that is unfit, desks that are (see koto_desk_add_string), or a list, another lexer's or an
 *                                  old one, that is shorter than its count
 *    9 BAD_RECORD                  a record that may not be shown: its kind is over 80, it may not have its detail, its depth is over 64, or
 *                                  bits 28 to 31 of its first word are not 0; at half the size bit 28 may be 1, on an Error that is the
 *                                  last record. Place: its index
 *   10 EXPECTED_NUMBER             a precision has no digit. Value: the code point that stands there
 *   11 FORMAT_NUMBER_IS_TOO_LARGE  Value: the first value over 4,294,967,295
 *   12 UNEXPECTED_TOKEN            Value: the code point
 *   13 POOL_FULL                   a string is not in the pool, and no entry or too few bytes are free
 *   14 BAD_FILE                    a table file whose first six bytes or whose length are wrong. Place: the first wrong byte, or the file's
 *                                  length where bytes lack
 *   15 CUT_UTF8                    bytes of which the first ill-formed sequence is a proper beginning of a character that the end stops: what
 *                                  lacks may still arrive. Given where 3 would be, and never with it. Place: its offset
 *   16 BAD_EDIT                    an edit that does not lead from the old source to the new one
 *   17 BAD_EDITION                 a number that is no edition of the cluster rules
 *   18 NO_SUCH_FORMAT              options that no format string has
 *   19 NO_ROOM                     a buffer that is shorter than the result
 *   20 BAD_MARK                    a mark that is no index of a pool, or a translation row shorter than its count of entries
 *   21 NOT_IN_PROFILE              a source with a token that the site profile forbids. Place: the index of the first such record
 */

#define KOTO_NO_REFUSAL 0u
#define KOTO_TOO_LONG 1u
#define KOTO_BAD_TABLE 2u
#define KOTO_BAD_UTF8 3u
#define KOTO_LIST_FULL 4u
#define KOTO_MODES_FULL 5u
#define KOTO_PEEK_TOO_FAR 6u
#define KOTO_QUEUE_FULL 7u
#define KOTO_BAD_STATE 8u
#define KOTO_BAD_RECORD 9u
#define KOTO_EXPECTED_NUMBER 10u
#define KOTO_FORMAT_NUMBER_IS_TOO_LARGE 11u
#define KOTO_UNEXPECTED_TOKEN 12u
#define KOTO_POOL_FULL 13u
#define KOTO_BAD_FILE 14u
#define KOTO_CUT_UTF8 15u
#define KOTO_BAD_EDIT 16u
#define KOTO_BAD_EDITION 17u
#define KOTO_NO_SUCH_FORMAT 18u
#define KOTO_NO_ROOM 19u
#define KOTO_BAD_MARK 20u
#define KOTO_NOT_IN_PROFILE 21u

/* ---- How a scan ends: the status, which a cursor over its list carries ----
 *
 * END: after the last record nothing comes. STUCK: the last record is an Error that advanced nothing, and comes for ever. REFUSED: the scan
 * was refused, and a cursor made of this is refused too (8). END_HALF and STUCK_HALF: END and STUCK of koto_scan_half, so that a cursor
 * carries the layout of its list.
 */

#define KOTO_END 0u
#define KOTO_STUCK 1u
#define KOTO_REFUSED 2u
#define KOTO_END_HALF 3u
#define KOTO_STUCK_HALF 4u

/* ---- Limits: bytes of a source, of a format string, and of a text and a fill; numbers of a table, tokens queued, words of a record in a
 * list, whole and at half the size ---- */

#define KOTO_SOURCE_MOST 1048576u
#define KOTO_FORMAT_MOST 65535u
#define KOTO_TEXT_MOST 65535u
#define KOTO_TABLE_MOST 8000u
#define KOTO_QUEUE_MOST 65535u
#define KOTO_RECORD_WORDS 8u
#define KOTO_HALF_RECORD_WORDS 5u

/* ---- Editions of the cluster rules (UAX #29), which every call with a table takes behind it ----
 *
 * WITHOUT_GB9C: as before Unicode 15.1, for a host with older data; it does not look at a table's InCB. WITH_GB9C: an Indic conjunct is one
 * cluster, as Unicode has it from 15.1 on. A cluster of the first is never longer than one of the second.
 */

#define KOTO_WITHOUT_GB9C 1u
#define KOTO_WITH_GB9C 2u

/* ---- Kinds of token, as a record has them ----
 *
 * A detail is 0, but for KOTO_KIND_STRING_START: 0 in double quotes, 1 in single quotes, 2 + 2h raw in double quotes and 3 + 2h raw in
 * single quotes, with h hashes.
 */

#define KOTO_KIND_ERROR 0u
#define KOTO_KIND_WHITESPACE 1u
#define KOTO_KIND_NEW_LINE 2u
#define KOTO_KIND_COMMENT_SINGLE 3u
#define KOTO_KIND_COMMENT_MULTI 4u
#define KOTO_KIND_NUMBER 5u
#define KOTO_KIND_ID 6u
#define KOTO_KIND_STRING_START 7u
#define KOTO_KIND_STRING_END 8u
#define KOTO_KIND_STRING_LITERAL 9u
#define KOTO_KIND_AT 10u
#define KOTO_KIND_COLON 11u
#define KOTO_KIND_COMMA 12u
#define KOTO_KIND_DOT 13u
#define KOTO_KIND_ELLIPSIS 14u
#define KOTO_KIND_FUNCTION 15u
#define KOTO_KIND_ROUND_OPEN 16u
#define KOTO_KIND_ROUND_CLOSE 17u
#define KOTO_KIND_SQUARE_OPEN 18u
#define KOTO_KIND_SQUARE_CLOSE 19u
#define KOTO_KIND_CURLY_OPEN 20u
#define KOTO_KIND_CURLY_CLOSE 21u
#define KOTO_KIND_RANGE 22u
#define KOTO_KIND_RANGE_INCLUSIVE 23u
#define KOTO_KIND_SEMICOLON 24u
#define KOTO_KIND_UNDERSCORE 25u
#define KOTO_KIND_QUESTION_MARK 26u
#define KOTO_KIND_ADD 27u
#define KOTO_KIND_SUBTRACT 28u
#define KOTO_KIND_MULTIPLY 29u
#define KOTO_KIND_DIVIDE 30u
#define KOTO_KIND_REMAINDER 31u
#define KOTO_KIND_POWER 32u
#define KOTO_KIND_ASSIGN 33u
#define KOTO_KIND_ADD_ASSIGN 34u
#define KOTO_KIND_SUBTRACT_ASSIGN 35u
#define KOTO_KIND_MULTIPLY_ASSIGN 36u
#define KOTO_KIND_DIVIDE_ASSIGN 37u
#define KOTO_KIND_REMAINDER_ASSIGN 38u
#define KOTO_KIND_POWER_ASSIGN 39u
#define KOTO_KIND_EQUAL 40u
#define KOTO_KIND_NOT_EQUAL 41u
#define KOTO_KIND_GREATER 42u
#define KOTO_KIND_GREATER_OR_EQUAL 43u
#define KOTO_KIND_LESS 44u
#define KOTO_KIND_LESS_OR_EQUAL 45u
#define KOTO_KIND_ARROW 46u
#define KOTO_KIND_AS 47u
#define KOTO_KIND_AND 48u
#define KOTO_KIND_BREAK 49u
#define KOTO_KIND_CATCH 50u
#define KOTO_KIND_CONTINUE 51u
#define KOTO_KIND_DEBUG 52u
#define KOTO_KIND_ELSE 53u
#define KOTO_KIND_ELSE_IF 54u
#define KOTO_KIND_EXPORT 55u
#define KOTO_KIND_FALSE 56u
#define KOTO_KIND_FINALLY 57u
#define KOTO_KIND_FOR 58u
#define KOTO_KIND_FROM 59u
#define KOTO_KIND_IF 60u
#define KOTO_KIND_IMPORT 61u
#define KOTO_KIND_IN 62u
#define KOTO_KIND_LOOP 63u
#define KOTO_KIND_MATCH 64u
#define KOTO_KIND_NOT 65u
#define KOTO_KIND_NULL 66u
#define KOTO_KIND_OR 67u
#define KOTO_KIND_RETURN 68u
#define KOTO_KIND_SELF 69u
#define KOTO_KIND_SWITCH 70u
#define KOTO_KIND_THEN 71u
#define KOTO_KIND_THROW 72u
#define KOTO_KIND_TRUE 73u
#define KOTO_KIND_TRY 74u
#define KOTO_KIND_UNTIL 75u
#define KOTO_KIND_WHILE 76u
#define KOTO_KIND_YIELD 77u
#define KOTO_KIND_AWAIT 78u
#define KOTO_KIND_CONST 79u
#define KOTO_KIND_LET 80u

/* ---- Format options: no number, and the numbers of an alignment and of a representation ---- */

#define KOTO_NONE UINT64_MAX

#define KOTO_ALIGNMENT_DEFAULT 0u
#define KOTO_ALIGNMENT_LEFT 1u
#define KOTO_ALIGNMENT_CENTER 2u
#define KOTO_ALIGNMENT_RIGHT 3u

#define KOTO_REPRESENTATION_DEBUG 0u
#define KOTO_REPRESENTATION_HEX_LOWER 1u
#define KOTO_REPRESENTATION_HEX_UPPER 2u
#define KOTO_REPRESENTATION_BINARY 3u
#define KOTO_REPRESENTATION_OCTAL 4u
#define KOTO_REPRESENTATION_EXP_LOWER 5u
#define KOTO_REPRESENTATION_EXP_UPPER 6u

/* ---- The two desks that may share a pool ---- */

#define KOTO_DESK_FIRST 0u
#define KOTO_DESK_SECOND 1u

/* What koto_compact says of an index that is no more. No entry has this index. */
#define KOTO_GONE UINT32_MAX

/* ---- Structs ---- */

/* A token of a scan, as koto_next, koto_peek and koto_look_ahead show it: its kind and detail, its bytes from start to before end, its span (lines
 * and columns from 0), the indent of its line, and its depth: how many modes were open before it, 0 to 64. A string, a template expression, an inline
 * map in one, and format options are a mode each; so the depth is 0 outside strings, 1 in a string's contents and 2 in the code of a template. */
typedef struct koto_record {
    uint32_t kind;
    uint32_t detail;
    uint32_t start;
    uint32_t end;
    uint32_t start_line;
    uint32_t start_column;
    uint32_t end_line;
    uint32_t end_column;
    uint32_t indent;
    uint32_t depth;
} koto_record;

/* The options of a format string. The fill is the part of the format string from byte fill_place on of fill_len bytes, and fill_index is
 * its index in the pool. */
typedef struct koto_options {
    uint64_t alignment;
    uint64_t width;
    uint64_t precision;
    uint64_t representation;
    uint64_t fill_place;
    uint64_t fill_len;
    uint64_t fill_index;
} koto_options;

/* Where a string of a pool starts in the row of bytes, and how many bytes it has. */
typedef struct koto_entry {
    uint32_t start;
    uint32_t len;
} koto_entry;

/* How many entries and how many bytes of a pool are in use. */
typedef struct koto_counts {
    uint32_t entries;
    uint32_t bytes;
} koto_counts;

/* A desk of a pool that two share: what it is guaranteed, which the caller sets once and no call changes, and what it is charged, 0 and 0 in an
 * empty pool. */
typedef struct koto_desk {
    koto_counts guaranteed;
    koto_counts charged;
} koto_desk;

/* Both desks: KOTO_DESK_FIRST and KOTO_DESK_SECOND. */
typedef struct koto_desks {
    koto_desk first;
    koto_desk second;
} koto_desks;

/* ---- Behind calls below: what the archive has in their place, with a row of entries as its numbers, two for each ---- */

uint32_t koto_desk_add_string_flat(uint32_t desk, const uint8_t *string, size_t string_len, uint8_t *bytes, size_t bytes_len,
                                   uint32_t *entries, size_t entries_len, uint8_t *owners, size_t owners_len, koto_counts *counts,
                                   koto_desks *desks, uint32_t *index, size_t *place);

uint32_t koto_desk_parse_flat(uint32_t desk, const uint8_t *format, size_t format_len, const uint32_t *table, size_t table_len,
                              uint32_t edition, uint8_t *bytes, size_t bytes_len, uint32_t *entries, size_t entries_len,
                              uint8_t *owners, size_t owners_len, koto_counts *counts, koto_desks *desks, koto_options *options,
                              uint64_t *value);

uint32_t koto_compact_flat(const uint32_t *first, size_t first_len, const uint32_t *second, size_t second_len, uint8_t *bytes,
                           size_t bytes_len, uint32_t *entries, size_t entries_len, uint8_t *owners, size_t owners_len,
                           koto_counts *counts, koto_desks *desks, uint32_t *moved, size_t moved_len);

/* ---- Calls ---- */

/* Reads the UTF-8 character at byte `at`.
 *
 * in       the bytes; a place, which may be past their end
 * out      code: its code point. len: how many bytes it has, 1 to 4
 * refused  one of these, with code and len 0 (the place is `at`)
 *          3 BAD_UTF8: no character begins with the bytes there
 *          15 CUT_UTF8: the bytes to the end are a beginning of one, or none are left
 */
uint32_t koto_read_char(const uint8_t *bytes, size_t bytes_len, size_t at, uint32_t *code, size_t *len);

/* Checks that all bytes are well-formed UTF-8. No bytes are.
 *
 * in       the bytes
 * out      place: 0
 * refused  3 BAD_UTF8 or 15 CUT_UTF8, with its place
 */
uint32_t koto_check_utf8(const uint8_t *bytes, size_t bytes_len, size_t *place);

/* Checks a property table.
 *
 * A number is a run of code points: divided by 2,048 its first code point, and the rest is its properties: XID_Start 1, XID_Continue 2, the
 * width times 4 (0 to 3), the cluster class times 16 (Other 0, CR 1, LF 2, Control 3, Extend 4, ZWJ 5, Regional_Indicator 6, Prepend 7,
 * SpacingMark 8, L 9, V 10, T 11, LV 12, LVT 13), Extended_Pictographic 256, InCB times 512 (none 0, Consonant 1, Extend 2, Linker 3).
 *
 * in       the table's numbers
 * out      place: 0
 * refused  2 BAD_TABLE, with its place
 */
uint32_t koto_check_table(const uint32_t *table, size_t table_len, size_t *place);

/* Reads a table file into the start of a row. A file is "KPT", a 16-bit version (1), a zero byte, a 16-bit count and the numbers, all
 * little-endian, with nothing after.
 *
 * in       the file's bytes; a row, of which nothing is read
 * out      row: the file's numbers, and behind them what was there. count: how many they are. place: 0
 * refused  in this order, each with count 0, and the whole row stays
 *          14 BAD_FILE, with its place
 *          4 LIST_FULL: the row is shorter than the count. place: 0
 *          2 BAD_TABLE, with its place: the numbers are no fit table
 */
uint32_t koto_read_table(const uint8_t *file, size_t file_len, uint32_t *row, size_t row_len, size_t *count, size_t *place);

/* The first extended grapheme cluster of a source (UAX #29, GB3 to GB9b, GB9c in the edition that has it, and GB11 to GB13, over the table's
 * properties).
 *
 * in       the source; a table; an edition
 * out      len: how many bytes it has; 0 for no bytes. place: 0
 * refused  in this order, each with len 0
 *          1 TOO_LONG. place: 0
 *          17 BAD_EDITION. place: 0
 *          2 BAD_TABLE, with its place
 *          3 BAD_UTF8 or 15 CUT_UTF8, with its place
 */
uint32_t koto_first_cluster(const uint8_t *source, size_t source_len, const uint32_t *table, size_t table_len, uint32_t edition,
                            size_t *len, size_t *place);

/* Scans a source into records. A record is KOTO_RECORD_WORDS words of the list: kind + 128 * detail + 1,048,576 * depth, start, end, start
 * line, start column, end line, end column, indent. Between neighbours the depth changes by at most one, and the first has 0. n bytes have at most n + n / 3 records.
 *
 * in       the source; a table; an edition, by which clusters are read; a list, of which nothing is read
 * out      list: the records from its start on, and behind them what was there. status: KOTO_END or KOTO_STUCK. count: how many records
 *            there are. byte: the current byte, where the last of them ends
 * refused  in this order, each with status KOTO_REFUSED, and its place in byte
 *          1 TOO_LONG. count: 0, byte: 0; the whole list stays
 *          17 BAD_EDITION. count: 0, byte: 0; the whole list stays
 *          2 BAD_TABLE. count: 0; the whole list stays
 *          3 BAD_UTF8 or 15 CUT_UTF8. count: 0; the whole list stays
 *          4 LIST_FULL, 5 MODES_FULL: list and count have the records before the token that is left, and behind them the list stays
 */
uint32_t koto_scan(const uint8_t *source, size_t source_len, const uint32_t *table, size_t table_len, uint32_t edition,
                   uint32_t *list, size_t list_len, uint32_t *status, size_t *count, size_t *byte);

/* Scans as koto_scan does, into records at half the size. A record is KOTO_HALF_RECORD_WORDS words of the list: kind + 128 * detail + 1,048,576 *
 * depth, end, end line, end column, indent. It starts where the record before it ends, the first at zeros. An Error that stands still, the last
 * record at KOTO_STUCK_HALF, has 268,435,456 (bit 28) more in its first word, and starts where the record before it starts. What koto_next,
 * koto_peek and koto_look_ahead show of this list is what they show of the one that koto_scan writes.
 *
 * in       as koto_scan; the list's room is its length by KOTO_HALF_RECORD_WORDS
 * out      as koto_scan, with status KOTO_END_HALF or KOTO_STUCK_HALF
 * refused  as koto_scan
 */
uint32_t koto_scan_half(const uint8_t *source, size_t source_len, const uint32_t *table, size_t table_len, uint32_t edition,
                        uint32_t *list, size_t list_len, uint32_t *status, size_t *count, size_t *byte);

/* Scans as koto_scan does, by a second engine: answer, status, count, byte and every word of the list are the same on every input. It is for whoever
 * reads much text and has room for more code and some more stack; koto_scan is the small engine. bench/README.md has the times and the sizes of
 * both.
 *
 * in       as koto_scan
 * out      as koto_scan
 * refused  as koto_scan
 */
uint32_t koto_scan_fast(const uint8_t *source, size_t source_len, const uint32_t *table, size_t table_len, uint32_t edition,
                        uint32_t *list, size_t list_len, uint32_t *status, size_t *count, size_t *byte);

/* Scans as koto_scan does, and then refuses a source that is not in the site profile: one with a raw string, or with a template inside a
 * template. The token that is forbidden is the start of the raw string, or the "{" that opens the inner template. A "{" that opens a map in a
 * template, or stands in that map, is allowed.
 *
 * in       as koto_scan
 * out      as koto_scan
 * refused  as koto_scan, and then, where it is not refused, with status KOTO_REFUSED
 *          21 NOT_IN_PROFILE. byte: the index of the first record whose token is forbidden; list and count have the whole scan
 */
uint32_t koto_scan_profile(const uint8_t *source, size_t source_len, const uint32_t *table, size_t table_len, uint32_t edition,
                           uint32_t *list, size_t list_len, uint32_t *status, size_t *count, size_t *byte);

/* Scans a source after one edit, into a second list: records before the edited line are taken from the old source's list, and only the rest is
 * read. Where the old list is the old source's, as a scan with this table and edition left it, answers and words are those of koto_scan on the new
 * source. Any other list gives the same answers for the same input too, and may give wrong records.
 *
 * The edit is its place, how many bytes it removed there, and how many it put in. It fits where place + removed is at most the old length, the
 * new source is so many bytes shorter and longer, and all other bytes are the same. The line starts behind the last "\n" before the place, or at
 * 0. Kept are the records of the old list up to and with the first that ends there or behind, if each starts where the one before it ends, the
 * first at zeros, in bytes and in its span, none ends before it starts, and the last ends at the line's start, is a NewLine of depth 0 (its first
 * word is 2) over "\n" or "\r\n" of the new source, and has end column 0 and an end line of at most its end; and else none.
 *
 * in       the old source; its list, with old_count records; the edit; the source; a table; an edition; a list, of which nothing is read
 * out      list: the records from its start on, and behind them what was there. status: KOTO_END or KOTO_STUCK. count: how many records
 *            there are. byte: the current byte, where the last of them ends
 * refused  in this order, each with status KOTO_REFUSED, and its place in byte
 *          1 TOO_LONG, 17 BAD_EDITION, 2 BAD_TABLE, 3 BAD_UTF8 or 15 CUT_UTF8, of the new source, as koto_scan. count: 0; the whole list stays
 *          16 BAD_EDIT. count: 0, byte: 0; the whole list stays
 *          8 BAD_STATE: the old list has no room for old_count records. count: 0, byte: 0; the whole list stays
 *          4 LIST_FULL, 5 MODES_FULL: list and count have the records before the one that is left, kept or read, and behind them the list stays
 */
uint32_t koto_rescan(const uint8_t *old, size_t old_len, const uint32_t *old_list, size_t old_list_len, size_t old_count,
                     size_t edit_place, size_t removed, size_t put_in, const uint8_t *source, size_t source_len,
                     const uint32_t *table, size_t table_len, uint32_t edition, uint32_t *list, size_t list_len,
                     uint32_t *status, size_t *count, size_t *byte);

/* Hands out the next token of a scan, and moves the cursor on.
 *
 * A cursor is the numbers taken, queued, count and status. After a scan it is 0, 0, and the scan's count and status; the status tells whether
 * the list has whole records or records at half the size. It is unfit where the list has no room for count records, taken is over count, more is
 * queued than is left (KOTO_END, KOTO_END_HALF), the last record is taken (KOTO_STUCK, KOTO_STUCK_HALF), over KOTO_QUEUE_MOST are queued, or the
 * status is another number.
 *
 * in       the list that the scan wrote; the cursor
 * out      shown: 1, and record: the token; or 0, where all are taken and the last does not come for ever, and record: zeros. taken,
 *            queued: the cursor after it; a last record that comes for ever is never taken. place: 0
 * refused  in this order, each with shown 0 and record zeros; taken and queued stay
 *          8 BAD_STATE. place: 0
 *          9 BAD_RECORD. place: the record's index
 */
uint32_t koto_next(const uint32_t *list, size_t list_len, size_t *taken, size_t *queued, size_t count, uint32_t status,
                   uint32_t *shown, koto_record *record, size_t *place);

/* Looks ahead. With n at most queued it first queues one more token, if there is one; then it shows queued token n. So a look one past the
 * queue shows nothing.
 *
 * in       the list that the scan wrote; the cursor (see koto_next); n, from 0
 * out      shown: 1, and record: the token; or 0, where no token n is queued, and record: zeros. queued: how many are queued after it.
 *            place: 0
 * refused  in this order, each with shown 0 and record zeros; queued stays
 *          8 BAD_STATE. place: 0
 *          6 PEEK_TOO_FAR. place: 0
 *          7 QUEUE_FULL. place: 0
 *          9 BAD_RECORD. place: the record's index
 */
uint32_t koto_peek(const uint32_t *list, size_t list_len, size_t taken, size_t *queued, size_t count, uint32_t status, size_t n,
                   uint32_t *shown, koto_record *record, size_t *place);

/* Looks ahead, and shows the token that the (n+1)th following koto_next would hand out. It queues only what lacks for that, as far as there are
 * tokens, so that a look at any n may come first. Whatever is looked at, koto_next hands out the same tokens.
 *
 * in       the list that the scan wrote; the cursor (see koto_next); n, from 0
 * out      shown: 1, and record: the token; or 0, where there is none, and record: zeros. queued: how many are queued after it, the larger of
 *            what was and of n + 1, but no more than is left where the last record does not come for ever. place: 0
 * refused  in this order, each with shown 0 and record zeros; queued stays
 *          8 BAD_STATE. place: 0
 *          7 QUEUE_FULL: over KOTO_QUEUE_MOST would be queued. place: 0
 *          9 BAD_RECORD. place: the record's index
 */
uint32_t koto_look_ahead(const uint32_t *list, size_t list_len, size_t taken, size_t *queued, size_t count, uint32_t status, size_t n,
                         uint32_t *shown, koto_record *record, size_t *place);

/* Checks a list that another lexer made: whether it is what koto_scan leaves for this source. No list of one's own is needed.
 *
 * in       the source; a table; an edition; the other's list, its count of records, and its status, which may be any number
 * out      same: 1, where the first list_count records of the list are those of the scan, all KOTO_RECORD_WORDS words of each, list_count is
 *            the scan's count and list_status its status; else 0, and differs: the index of the first record that differs, or the smaller
 *            of the two counts where only they or the status differ. Whatever stands behind list_count records is not looked at. place: 0
 * refused  in this order, each with same 0 and differs 0
 *          1 TOO_LONG. place: 0
 *          17 BAD_EDITION. place: 0
 *          2 BAD_TABLE, with its place
 *          3 BAD_UTF8 or 15 CUT_UTF8, with its place
 *          8 BAD_STATE: the list has no room for list_count records. place: 0
 *          5 MODES_FULL, with its place, where a scan with room gets it, whatever the list has
 */
uint32_t koto_check_list(const uint8_t *source, size_t source_len, const uint32_t *table, size_t table_len, uint32_t edition,
                         const uint32_t *list, size_t list_len, size_t list_count, uint32_t list_status, uint32_t *same,
                         size_t *differs, size_t *place);

/* Adds a string to a pool, or finds it there. Equal strings have equal indices, counted from 0 in the order of their first addition.
 *
 * A pool is a row of bytes, a row of entries, and the counts of what is in use of each. An empty one has counts of 0. It is unfit where a
 * count is over its row, or the entries in use do not run end to end from byte 0 to the byte count.
 *
 * in       the string; the pool
 * out      index: the string's. place: 0. Where it was not there: its bytes and its entry behind those in use, and counts with one entry and
 *            so many bytes more; all else stays
 * refused  in this order, each with index 0; the pool stays
 *          3 BAD_UTF8 or 15 CUT_UTF8, with its place
 *          8 BAD_STATE. place: 0
 *          13 POOL_FULL. place: 0
 */
uint32_t koto_add_string(const uint8_t *string, size_t string_len, uint8_t *bytes, size_t bytes_len, koto_entry *entries,
                         size_t entries_len, koto_counts *counts, uint32_t *index, size_t *place);

/* Parses the format options of a string template, and adds their fill to a pool (see koto_add_string).
 *
 * in       the format string; a table; an edition, by which the fill's cluster is read; the pool
 * out      options: alignment a KOTO_ALIGNMENT; width, precision, representation (a KOTO_REPRESENTATION) and the fill's three, each KOTO_NONE
 *            where the format string has none. value: 0. The pool: with the strings that koto adds as it reads
 * refused  in this order, each with all seven options KOTO_NONE, and its place or value in value
 *          1 TOO_LONG, 17 BAD_EDITION, 2 BAD_TABLE, 3 BAD_UTF8 or 15 CUT_UTF8, 8 BAD_STATE: the pool stays
 *          10 EXPECTED_NUMBER, 11 FORMAT_NUMBER_IS_TOO_LARGE, 12 UNEXPECTED_TOKEN, and 13 POOL_FULL where a string found no room, whatever would
 *            have been found after it: the pool has the strings that were added before
 */
uint32_t koto_parse(const uint8_t *format, size_t format_len, const uint32_t *table, size_t table_len, uint32_t edition,
                    uint8_t *bytes, size_t bytes_len, koto_entry *entries, size_t entries_len, koto_counts *counts,
                    koto_options *options, uint64_t *value);

/* Adds a string for a desk to a pool that two desks share, or finds it there.
 *
 * The pool is that of koto_add_string, with a row of owners: of each entry in use the number of the desk that added it. Each desk has the room
 * that it is guaranteed, whatever the other one adds; the rest is common. A string that is there costs nobody; a new one is charged to the
 * desk that adds it. The state is unfit where koto_add_string calls the pool unfit, the row of owners is shorter than the room for entries, a
 * desk's charges are not the entries and bytes that it owns, the charges do not add up to the counts, the guarantees together exceed the
 * room, or what both desks hold beyond their guarantees exceeds the common room. So after koto_add_string or koto_parse on such a pool, which
 * charge nobody, the next call for a desk is refused with 8.
 *
 * in       the desk; the string; the pool; the owners; the desks
 * out      index: the string's. place: 0. Where it was not there: its bytes, its entry and its owner behind those in use, and counts and the
 *            desk's charges with one entry and so many bytes more; all else stays
 * refused  in this order, each with index 0; pool, owners and desks stay
 *          3 BAD_UTF8 or 15 CUT_UTF8, with its place
 *          8 BAD_STATE: also a number that is no desk. place: 0
 *          13 POOL_FULL: the string is not there, and its entry or its bytes would pass what is left of the common room and of the desk's
 *            guarantee together. place: 0
 */
static inline uint32_t koto_desk_add_string(uint32_t desk, const uint8_t *string, size_t string_len, uint8_t *bytes,
                                            size_t bytes_len, koto_entry *entries, size_t entries_len, uint8_t *owners,
                                            size_t owners_len, koto_counts *counts, koto_desks *desks, uint32_t *index,
                                            size_t *place) {
    return koto_desk_add_string_flat(desk, string, string_len, bytes, bytes_len, (uint32_t *)entries, 2 * entries_len, owners,
                                     owners_len, counts, desks, index, place);
}

/* Parses the format options of a string template, and adds their fill for a desk to a pool that two desks share (see koto_parse and
 * koto_desk_add_string). Each string that it adds is an addition for the desk.
 *
 * in       as koto_parse, with the desk, the owners and the desks
 * out      as koto_parse; the pool, the owners and the desk's charges grow with the strings that are added
 * refused  as koto_parse, with 8 BAD_STATE and 13 POOL_FULL as koto_desk_add_string has them
 */
static inline uint32_t koto_desk_parse(uint32_t desk, const uint8_t *format, size_t format_len, const uint32_t *table,
                                       size_t table_len, uint32_t edition, uint8_t *bytes, size_t bytes_len, koto_entry *entries,
                                       size_t entries_len, uint8_t *owners, size_t owners_len, koto_counts *counts,
                                       koto_desks *desks, koto_options *options, uint64_t *value) {
    return koto_desk_parse_flat(desk, format, format_len, table, table_len, edition, bytes, bytes_len, (uint32_t *)entries,
                                2 * entries_len, owners, owners_len, counts, desks, options, value);
}

/* Takes back the room of every string that neither desk marks, in a pool that two desks share (see koto_desk_add_string).
 *
 * ONE DESK CANNOT COMPACT ALONE: what neither of the two rows marks is gone, also what the other desk added. A mark is an index; marks may come in
 * any order and more than once, and a desk may mark what the other one added. The kept strings move together in order, each charged to the desk that
 * added it first, also where only the other one marks it.
 *
 * in       the marks of the first desk and of the second; the pool; the owners; the desks; a translation row, of which nothing is read
 * out      moved: of each old index the new one, or KOTO_GONE; words past the old count stay. The pool and the owners: the kept strings, with counts
 *            and charges; what stands behind them stays as it was
 * refused  in this order; pool, owners, desks and row stay
 *          8 BAD_STATE
 *          20 BAD_MARK: a mark that is not below the count of entries, or a row shorter than the count
 */
static inline uint32_t koto_compact(const uint32_t *first, size_t first_len, const uint32_t *second, size_t second_len,
                                    uint8_t *bytes, size_t bytes_len, koto_entry *entries, size_t entries_len, uint8_t *owners,
                                    size_t owners_len, koto_counts *counts, koto_desks *desks, uint32_t *moved, size_t moved_len) {
    return koto_compact_flat(first, first_len, second, second_len, bytes, bytes_len, (uint32_t *)entries, 2 * entries_len, owners,
                             owners_len, counts, desks, moved, moved_len);
}

/* Writes the format string for options: the shortest that koto_parse reads back as them, and the first in byte order of those.
 *
 * Read back, with an empty pool that has room, are the same alignment, width, precision and representation and a fill of the same bytes; so
 * equal options give equal bytes, and what koto_parse wrote can be handed on. Some options have no format string: a fill before the default
 * alignment with anything behind it, unless it is "0" before a width; a fill that koto reads as something else, as "e" or a digit alone; a
 * fill that is not one cluster where the sign stands behind it.
 *
 * in       alignment: a KOTO_ALIGNMENT; width, precision: 0 to 4,294,967,295, or KOTO_NONE; representation: a KOTO_REPRESENTATION, or KOTO_NONE;
 *            filled: not 0 where a fill is given; the fill, which is not looked at where none is given; a table; edition: 1, without GB9c, or
 *            2, with it; a buffer, of which nothing is read
 * out      buffer: the format string from its start on, and behind it what was there. len: how many bytes it has. place: 0
 * refused  in this order, each with len 0, and the whole buffer stays
 *          17 BAD_EDITION. place: 0
 *          2 BAD_TABLE, with its place
 *          18 NO_SUCH_FORMAT: no format string is read back so. A number that none of them has, and a fill that is empty, wrong, cut or too
 *            long for a format string, are such. place: 0
 *          19 NO_ROOM: the buffer is shorter than the format string. place: 0
 */
uint32_t koto_write_format(uint64_t alignment, uint64_t width, uint64_t precision, uint64_t representation, uint32_t filled,
                           const uint8_t *fill, size_t fill_len, const uint32_t *table, size_t table_len, uint32_t edition,
                           uint8_t *buffer, size_t buffer_len, size_t *len, size_t *place);

/* Pads a text to a width: as many fills before and behind it as its clusters are too few. This is our rule, and not koto's.
 *
 * Clusters are counted in the text by itself, by all that stands left of each place (see koto_first_cluster for the rules). What a fill and the
 * text become where they meet is not looked at: a fill that is a combining mark stands there as it is. The alignment and the width may be
 * those of koto_options. A text that has the width or more, and one without a width, is copied.
 *
 * in       the text; alignment: a KOTO_ALIGNMENT, where DEFAULT is as LEFT, and CENTER puts the odd fill behind the text; width: 0 to
 *            4,294,967,295, or KOTO_NONE; filled: not 0 where a fill is given; the fill, which is not looked at where none is given: then it
 *            is one space; a table; edition: 1, without GB9c, or 2, with it; a buffer, of which nothing is read
 * out      buffer: the padded text from its start on, and behind it what was there. len: how many bytes it has. place: 0
 * refused  in this order, each with len 0, and the whole buffer stays
 *          1 TOO_LONG: the text, or a fill that is given. place: 0
 *          17 BAD_EDITION. place: 0
 *          2 BAD_TABLE, with its place
 *          3 BAD_UTF8, 15 CUT_UTF8 of the text, with their place
 *          3 BAD_UTF8, 15 CUT_UTF8 of a fill that is given. place: the offset in the fill
 *          18 NO_SUCH_FORMAT: the alignment or the width is another number, or a fill that is given is not exactly one cluster by itself; no
 *            bytes are none. It is told also where no fill is needed. place: 0
 *          19 NO_ROOM: the buffer is shorter than the padded text. place: 0
 */
uint32_t koto_pad(const uint8_t *text, size_t text_len, uint64_t alignment, uint64_t width, uint32_t filled, const uint8_t *fill,
                  size_t fill_len, const uint32_t *table, size_t table_len, uint32_t edition, uint8_t *buffer, size_t buffer_len,
                  size_t *len, size_t *place);

#ifdef __cplusplus
}
#endif

#endif
