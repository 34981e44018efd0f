/* Grackleivy for C: netlists of control cards read, checked, printed, worked out, translated and run.
 *
 * The library is target/staticlib/libgrackleivy.a, for x86-64; `include/library` makes it of the proved crate crates/grackleivy. It keeps
 * nothing from call to call, takes no memory of its own but its stack, and calls nothing.
 *
 * Every slice is lent as a pointer and a length. A slice of length 0 still has a pointer that is not null, and no slice that is written
 * overlaps another one. Nothing else is asked: any content of text, tables, lists and rooms gets its answer.
 *
 * Every answer has `number` 0 where nothing is refused, else the number of the ground and its place:
 *
 *    1  a table or work space below its fixed length   0
 *    2  text too long                                  65,536
 *    3  not UTF-8, or CR without LF                    first bad sequence
 *    4  empty, or the last byte is no LF               length of the text
 *    5  malformed token                                the token
 *    6  number too large                               the token
 *    7  token not allowed there                        the token
 *    8  word unknown, or not taken yet                 the token
 *    9  index or name declared twice                   the declaration
 *   10  metadata reference missing, later, wrong kind  the reference
 *   11  empty name, bad range, short set               the declaration
 *   12  width rule                                     the declaration
 *   13  a limit passed                                 the declaration
 *   14  piece past its cell's width, or no such cell   the piece
 *   15  tables are not good                            0
 *   16  asked row is no ident                          0
 *   18  no I/O row has the asked name                  0
 *   20  ring                                           0
 *   21  more than 8,192 records                        0
 *   22  load list malformed                            first bad record
 *   23  wrong number of input bits, or a byte above 2  0
 *   24  room shorter than the answer                   0
 *
 * A refused read other than 1 leaves the tables zero; every other refusal changes nothing but work space. What lies past an answer, and
 * past the fixed length of a longer slice, stays as it was. docs/LAYOUT.md tells what stands where in the tables.
 */
#ifndef GRACKLEIVY_H
#define GRACKLEIVY_H

#include <stddef.h>
#include <stdint.h>

#ifdef __cplusplus
extern "C" {
#endif

/* The fixed lengths: words of 32 bits for rows and for the work space of reading, evaluating and translating, else bytes. */
#define GRACKLE_ROWS 26307
#define GRACKLE_STRINGS 16384
#define GRACKLE_TRITS 393728
#define GRACKLE_READ_WORK 132608
#define GRACKLE_LOGIC_WORK 8192
#define GRACKLE_RUN_WORK 8192

/* No answer is longer: bits of all inputs or outputs, and bytes of a load list (8,192 records of 8). */
#define GRACKLE_BITS 4096
#define GRACKLE_LIST 65536

/* X, in every byte that is a bit: 0, 1 or this. */
#define GRACKLE_X 2

struct grackle_told { uint32_t number; uint64_t place; };
struct grackle_counted { uint64_t tokens; uint32_t number; uint64_t place; };
struct grackle_wrote { uint64_t length; uint32_t number; uint64_t place; };
struct grackle_pad_row { uint64_t row; uint32_t width; uint32_t number; uint64_t place; };
struct grackle_gave { uint64_t count; uint32_t number; uint64_t place; };

/* The whole text: 2, 3 or 4. */
struct grackle_told grackle_whole(const uint8_t *text, size_t text_length);

/* How many tokens a text has, line ends counted: 2 to 6. */
struct grackle_counted grackle_tokens(const uint8_t *text, size_t text_length);

/* A text into tables: 1 to 14. Tables and work space may hold anything before; the work space is zero afterwards. */
struct grackle_told grackle_read(
    const uint8_t *text, size_t text_length,
    uint32_t *rows, size_t rows_length,
    uint8_t *strings, size_t strings_length,
    uint8_t *trits, size_t trits_length,
    uint32_t *work, size_t work_length);

/* Whether tables are good: 1 or 15. */
struct grackle_told grackle_check(
    const uint32_t *rows, size_t rows_length,
    const uint8_t *strings, size_t strings_length,
    const uint8_t *trits, size_t trits_length);

/* The canonical text into a room; its length: 1, 15 or 24. */
struct grackle_wrote grackle_print(
    const uint32_t *rows, size_t rows_length,
    const uint8_t *strings, size_t strings_length,
    const uint8_t *trits, size_t trits_length,
    uint8_t *room, size_t room_length);

/* The full name of an ident, by its metadata row, into a room; its length: 1, 15, 16 or 24. */
struct grackle_wrote grackle_name(
    const uint32_t *rows, size_t rows_length,
    const uint8_t *strings, size_t strings_length,
    const uint8_t *trits, size_t trits_length,
    size_t row,
    uint8_t *room, size_t room_length);

/* The first I/O row of a name, and its width: 1, 15 or 18. */
struct grackle_pad_row grackle_pad(
    const uint32_t *rows, size_t rows_length,
    const uint8_t *strings, size_t strings_length,
    const uint8_t *trits, size_t trits_length,
    const uint8_t *name, size_t name_length);

/* The output bits for input bits, a byte a bit, by row and from bit 0 up; how many: 1, 15, 20, 23 or 24. The work space is zero afterwards. */
struct grackle_gave grackle_evaluate(
    const uint32_t *rows, size_t rows_length,
    const uint8_t *strings, size_t strings_length,
    const uint8_t *trits, size_t trits_length,
    const uint8_t *ins, size_t ins_length,
    uint8_t *outs, size_t outs_length,
    uint32_t *work, size_t work_length);

/* The load list, 8 bytes a record; how many records: 1, 15, 20, 21 or 24. The work space is zero afterwards. */
struct grackle_gave grackle_translate(
    const uint32_t *rows, size_t rows_length,
    const uint8_t *strings, size_t strings_length,
    const uint8_t *trits, size_t trits_length,
    uint8_t *list, size_t list_length,
    uint32_t *work, size_t work_length);

/* The output bits of running a list; how many: 1, 22, 23 or 24. The work space then holds the slots, a byte each, and zeros. */
struct grackle_gave grackle_run(
    const uint8_t *list, size_t list_length,
    const uint8_t *ins, size_t ins_length,
    uint8_t *outs, size_t outs_length,
    uint8_t *work, size_t work_length);

#ifdef __cplusplus
}
#endif

#endif
