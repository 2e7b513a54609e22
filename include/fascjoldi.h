/*
 * Fascjoldi: packs, unpacks and looks up blocks of 1,024 unsigned numbers, and reads and writes column files of them.
 *
 * What is proved. Behind each function stands a call of Fascjoldi whose outcome is proved for every input: its number, its place,
 * what else it gives, and every element of each buffer afterwards. The function is proved to hand that on. It asks nothing of the
 * numbers and lengths that it is given: a width that is too high or a length that does not fit is refused, and nothing is read or
 * written past a length.
 * What is not proved is what the program alone can see to. The proof takes for granted that each pointer is not null, also where
 * its length is 0, is aligned for its type, and points to as many elements as its length says, all of which were written before;
 * that nothing which a call writes, buffer or lent number, overlaps anything else that the same call is lent; and that no other
 * thread touches what is lent while the call runs. Nor is this header proved: tools/header writes it from the text of the functions,
 * and the tests fail where the two differ. Nor are the compiler that made the archive, which is for Linux on x86-64, and how much
 * stack a call takes. The package for Python and the extension for SQLite (bindings/python, bindings/sqlite) see to what the program
 * has to see to, by code that is tested and not proved; what else stands between is said at their heads.
 *
 * What a call gives. The result is the number of its answer, from the list below; where a function says or gives something else,
 * its sentence has it. *place is the place that goes with the number, and 0 where the list names none. The lent numbers, as
 * *place, *value, *words and *length, are written by every call, also when it is refused. A buffer, which is a pointer with a
 * length, is written only where the number is FASCJOLDI_DONE, or as its function says: a refused call leaves each buffer as it
 * was. Where several numbers apply to a call on blocks the lowest is given; a call on a file goes through its tests in the order
 * of docs/FORMAT.md, and then through those that are its own, 18 to 22 of a renumbering before FASCJOLDI_ROOM. The functions keep nothing between calls, so several threads may call them at once, each with buffers of its
 * own.
 *
 * T stands for the bits of an element, 8, 16, 32 or 64, and LANES for 1024 / T. A packed block has LANES times its width elements.
 */
#ifndef FASCJOLDI_H
#define FASCJOLDI_H

#include <stddef.h>
#include <stdint.h>

#ifdef __cplusplus
extern "C" {
#define FASCJOLDI_BOOL bool
#else
#define FASCJOLDI_BOOL _Bool
#endif

/* The numbers. Where the meaning names the lowest place, entry, block or row, that is *place. */
enum fascjoldi_number {
    FASCJOLDI_DONE = 0, /* the call is done */
    FASCJOLDI_WIDTH = 1, /* the width is above T; of chunks: the width is above 64 */
    FASCJOLDI_BLOCK = 2, /* a buffer for a block is not 1,024 long; of a file: a block or the room for places that is lent is not
        1,024 long, or the numbers to be written are no whole blocks or more than 256 of them; of chunks: the output is not 1,024
        long */
    FASCJOLDI_PACKED = 3, /* the packed length is not LANES times the width */
    FASCJOLDI_BASE = 4, /* the base is not LANES long */
    FASCJOLDI_LISTS = 5, /* an index list and its output differ in length */
    FASCJOLDI_INDEX = 6, /* an index is 1,024 or more; the lowest such place of the list, 0 for single access */
    FASCJOLDI_DICTIONARY = 7, /* a dictionary index is at or beyond the dictionary's length; the lowest such place */
    FASCJOLDI_CUT = 8, /* of a file: the file is cut short: in its first four bytes, in the entries or in the bodies */
    FASCJOLDI_EDITION = 9, /* of a file: the edition is neither 1 nor 2, or there are more than 256 blocks; of the canonical check
        also a readable file of edition 1 */
    FASCJOLDI_BAD_ENTRY = 10, /* of a file: an entry is not as laid out, or is of kind 3 in edition 2, or its smallest value is
        above its largest; the lowest such entry */
    FASCJOLDI_OVER = 11, /* of a file: there are bytes after the last body */
    FASCJOLDI_BEYOND = 12, /* of a file: there is no block, or no row, with this number */
    FASCJOLDI_RUNS = 13, /* of a file: a run index is out of range; the lowest block that has one */
    FASCJOLDI_ROOM = 14, /* of a file: the output, or the room for rows, is too short for what is to be written there */
    FASCJOLDI_RANGE = 15, /* of a file: a smallest or largest value is not the body's true one; the lowest block that has one */
    FASCJOLDI_EARLY = 16, /* of chunks: the values are asked for too early; the bytes held so far */
    FASCJOLDI_FOREIGN = 17, /* of a file: a block is not as our writer would write it; the lowest such block */
    FASCJOLDI_LENGTHS = 18, /* of a renumbering: the three lists are not of one length */
    FASCJOLDI_UNRISING = 19, /* of a renumbering: an old number is not above the one before it; the lowest such place */
    FASCJOLDI_DISORDERED = 20, /* of a renumbering: a place of the order says no pair, or one that does not come behind the pair
        before it; the lowest such place */
    FASCJOLDI_TWICE = 21, /* of a renumbering: a new number stands at another place too; the lowest such place */
    FASCJOLDI_TAKEN = 22, /* of a renumbering: a number that is not listed stands among the new numbers; the lowest row that has
        one */
};

/* What stands for a count of packed words where there is none. */
#define FASCJOLDI_NO_COUNT 0xFFFFFFFFFFFFFFFFu

/* The numbers of the wishes of the machine that lists what two files differ in, of the two files and of the buffers of each. */
enum fascjoldi_wish {
    FASCJOLDI_WISH_DONE = 0,
    FASCJOLDI_WISH_READ = 1,
    FASCJOLDI_WISH_WRITE = 2,
};
enum fascjoldi_side {
    FASCJOLDI_LEFT = 0,
    FASCJOLDI_RIGHT = 1,
};
enum fascjoldi_part {
    FASCJOLDI_FRONT = 0,
    FASCJOLDI_BODY = 1,
};
#define FASCJOLDI_FRONT_ROOM 8196u
#define FASCJOLDI_BODY_ROOM 10240u
#define FASCJOLDI_OUTPUT_ROOM 65536u

/* ---- The calls on blocks, at four element sizes. */

/* Packs 1,024 values at `width` bits each; what a value has above them is cut off. */
size_t fascjoldi_pack_u8(size_t width, const uint8_t *values, size_t values_length, uint8_t *packed, size_t packed_length,
    size_t *place);
size_t fascjoldi_pack_u16(size_t width, const uint16_t *values, size_t values_length, uint16_t *packed, size_t packed_length,
    size_t *place);
size_t fascjoldi_pack_u32(size_t width, const uint32_t *values, size_t values_length, uint32_t *packed, size_t packed_length,
    size_t *place);
size_t fascjoldi_pack_u64(size_t width, const uint64_t *values, size_t values_length, uint64_t *packed, size_t packed_length,
    size_t *place);

/* Unpacks 1,024 values of `width` bits each. */
size_t fascjoldi_unpack_u8(size_t width, const uint8_t *packed, size_t packed_length, uint8_t *values, size_t values_length,
    size_t *place);
size_t fascjoldi_unpack_u16(size_t width, const uint16_t *packed, size_t packed_length, uint16_t *values, size_t values_length,
    size_t *place);
size_t fascjoldi_unpack_u32(size_t width, const uint32_t *packed, size_t packed_length, uint32_t *values, size_t values_length,
    size_t *place);
size_t fascjoldi_unpack_u64(size_t width, const uint64_t *packed, size_t packed_length, uint64_t *values, size_t values_length,
    size_t *place);

/* Unpacks the value at one place of a packed block, and says in how many packed words it stands; refused, the value is 0 and the
   words 2^64 - 1. */
size_t fascjoldi_unpack_single_u8(size_t width, const uint8_t *packed, size_t packed_length, size_t index, uint8_t *value,
    uint64_t *words, size_t *place);
size_t fascjoldi_unpack_single_u16(size_t width, const uint16_t *packed, size_t packed_length, size_t index, uint16_t *value,
    uint64_t *words, size_t *place);
size_t fascjoldi_unpack_single_u32(size_t width, const uint32_t *packed, size_t packed_length, size_t index, uint32_t *value,
    uint64_t *words, size_t *place);
size_t fascjoldi_unpack_single_u64(size_t width, const uint64_t *packed, size_t packed_length, size_t index, uint64_t *value,
    uint64_t *words, size_t *place);

/* Says in how many packed words the value at a place stands; 2^64 - 1 where there is no such width or no such place. */
uint64_t fascjoldi_words_at_u8(size_t width, size_t index);
uint64_t fascjoldi_words_at_u16(size_t width, size_t index);
uint64_t fascjoldi_words_at_u32(size_t width, size_t index);
uint64_t fascjoldi_words_at_u64(size_t width, size_t index);

/* Unpacks the values at a list of places, and says how many packed words they stand in, counted for each; refused, the words are
   0. */
size_t fascjoldi_unpack_indices_u8(size_t width, const uint8_t *packed, size_t packed_length, const size_t *indices,
    size_t indices_length, uint8_t *output, size_t output_length, uint64_t *words, size_t *place);
size_t fascjoldi_unpack_indices_u16(size_t width, const uint16_t *packed, size_t packed_length, const size_t *indices,
    size_t indices_length, uint16_t *output, size_t output_length, uint64_t *words, size_t *place);
size_t fascjoldi_unpack_indices_u32(size_t width, const uint32_t *packed, size_t packed_length, const size_t *indices,
    size_t indices_length, uint32_t *output, size_t output_length, uint64_t *words, size_t *place);
size_t fascjoldi_unpack_indices_u64(size_t width, const uint64_t *packed, size_t packed_length, const size_t *indices,
    size_t indices_length, uint64_t *output, size_t output_length, uint64_t *words, size_t *place);

/* Unpacks the values at the first places of a list, as many as the budget of words is enough for, and says how many these are and
   how many words they stand in; refused, both are 0. The outputs behind these stay as they were. */
size_t fascjoldi_unpack_within_u8(size_t width, const uint8_t *packed, size_t packed_length, const size_t *indices,
    size_t indices_length, uint64_t budget, uint8_t *output, size_t output_length, size_t *answered, uint64_t *words,
    size_t *place);
size_t fascjoldi_unpack_within_u16(size_t width, const uint16_t *packed, size_t packed_length, const size_t *indices,
    size_t indices_length, uint64_t budget, uint16_t *output, size_t output_length, size_t *answered, uint64_t *words,
    size_t *place);
size_t fascjoldi_unpack_within_u32(size_t width, const uint32_t *packed, size_t packed_length, const size_t *indices,
    size_t indices_length, uint64_t budget, uint32_t *output, size_t output_length, size_t *answered, uint64_t *words,
    size_t *place);
size_t fascjoldi_unpack_within_u64(size_t width, const uint64_t *packed, size_t packed_length, const size_t *indices,
    size_t indices_length, uint64_t budget, uint64_t *output, size_t output_length, size_t *answered, uint64_t *words,
    size_t *place);

/* Stores at each place its value minus the value of the row before in its lane, at row 0 minus the lane's base. */
size_t fascjoldi_delta_u8(const uint8_t *input, size_t input_length, const uint8_t *base, size_t base_length, uint8_t *output,
    size_t output_length, size_t *place);
size_t fascjoldi_delta_u16(const uint16_t *input, size_t input_length, const uint16_t *base, size_t base_length, uint16_t *output,
    size_t output_length, size_t *place);
size_t fascjoldi_delta_u32(const uint32_t *input, size_t input_length, const uint32_t *base, size_t base_length, uint32_t *output,
    size_t output_length, size_t *place);
size_t fascjoldi_delta_u64(const uint64_t *input, size_t input_length, const uint64_t *base, size_t base_length, uint64_t *output,
    size_t output_length, size_t *place);

/* Sums along each lane by rows, from the lane's base: undoes delta. */
size_t fascjoldi_undelta_u8(const uint8_t *input, size_t input_length, const uint8_t *base, size_t base_length, uint8_t *output,
    size_t output_length, size_t *place);
size_t fascjoldi_undelta_u16(const uint16_t *input, size_t input_length, const uint16_t *base, size_t base_length,
    uint16_t *output, size_t output_length, size_t *place);
size_t fascjoldi_undelta_u32(const uint32_t *input, size_t input_length, const uint32_t *base, size_t base_length,
    uint32_t *output, size_t output_length, size_t *place);
size_t fascjoldi_undelta_u64(const uint64_t *input, size_t input_length, const uint64_t *base, size_t base_length,
    uint64_t *output, size_t output_length, size_t *place);

/* Unpacks differences of `width` bits each, and sums them along each lane by rows, from the lane's base. */
size_t fascjoldi_undelta_pack_u8(size_t width, const uint8_t *packed, size_t packed_length, const uint8_t *base,
    size_t base_length, uint8_t *values, size_t values_length, size_t *place);
size_t fascjoldi_undelta_pack_u16(size_t width, const uint16_t *packed, size_t packed_length, const uint16_t *base,
    size_t base_length, uint16_t *values, size_t values_length, size_t *place);
size_t fascjoldi_undelta_pack_u32(size_t width, const uint32_t *packed, size_t packed_length, const uint32_t *base,
    size_t base_length, uint32_t *values, size_t values_length, size_t *place);
size_t fascjoldi_undelta_pack_u64(size_t width, const uint64_t *packed, size_t packed_length, const uint64_t *base,
    size_t base_length, uint64_t *values, size_t values_length, size_t *place);

/* Packs each value minus the reference at `width` bits. */
size_t fascjoldi_for_pack_u8(size_t width, const uint8_t *values, size_t values_length, uint8_t reference, uint8_t *packed,
    size_t packed_length, size_t *place);
size_t fascjoldi_for_pack_u16(size_t width, const uint16_t *values, size_t values_length, uint16_t reference, uint16_t *packed,
    size_t packed_length, size_t *place);
size_t fascjoldi_for_pack_u32(size_t width, const uint32_t *values, size_t values_length, uint32_t reference, uint32_t *packed,
    size_t packed_length, size_t *place);
size_t fascjoldi_for_pack_u64(size_t width, const uint64_t *values, size_t values_length, uint64_t reference, uint64_t *packed,
    size_t packed_length, size_t *place);

/* Unpacks 1,024 values of `width` bits each, and adds the reference to each. */
size_t fascjoldi_unfor_pack_u8(size_t width, const uint8_t *packed, size_t packed_length, uint8_t reference, uint8_t *values,
    size_t values_length, size_t *place);
size_t fascjoldi_unfor_pack_u16(size_t width, const uint16_t *packed, size_t packed_length, uint16_t reference, uint16_t *values,
    size_t values_length, size_t *place);
size_t fascjoldi_unfor_pack_u32(size_t width, const uint32_t *packed, size_t packed_length, uint32_t reference, uint32_t *values,
    size_t values_length, size_t *place);
size_t fascjoldi_unfor_pack_u64(size_t width, const uint64_t *packed, size_t packed_length, uint64_t reference, uint64_t *values,
    size_t values_length, size_t *place);

/* Unpacks so many blocks of one width that stand one after another: 2 where there are more than 256 or the values are not 1,024
   for each, and 3 where the packed length is not that of so many blocks. */
size_t fascjoldi_unpack_blocks_u8(size_t width, size_t blocks, const uint8_t *packed, size_t packed_length, uint8_t *values,
    size_t values_length, size_t *place);
size_t fascjoldi_unpack_blocks_u16(size_t width, size_t blocks, const uint16_t *packed, size_t packed_length, uint16_t *values,
    size_t values_length, size_t *place);
size_t fascjoldi_unpack_blocks_u32(size_t width, size_t blocks, const uint32_t *packed, size_t packed_length, uint32_t *values,
    size_t values_length, size_t *place);
size_t fascjoldi_unpack_blocks_u64(size_t width, size_t blocks, const uint64_t *packed, size_t packed_length, uint64_t *values,
    size_t values_length, size_t *place);

/* Packs so many blocks, each value minus the one reference, at one width. 2 and 3 are as in unpack_blocks. */
size_t fascjoldi_for_pack_blocks_u8(size_t width, size_t blocks, const uint8_t *values, size_t values_length, uint8_t reference,
    uint8_t *packed, size_t packed_length, size_t *place);
size_t fascjoldi_for_pack_blocks_u16(size_t width, size_t blocks, const uint16_t *values, size_t values_length, uint16_t reference,
    uint16_t *packed, size_t packed_length, size_t *place);
size_t fascjoldi_for_pack_blocks_u32(size_t width, size_t blocks, const uint32_t *values, size_t values_length, uint32_t reference,
    uint32_t *packed, size_t packed_length, size_t *place);
size_t fascjoldi_for_pack_blocks_u64(size_t width, size_t blocks, const uint64_t *values, size_t values_length, uint64_t reference,
    uint64_t *packed, size_t packed_length, size_t *place);

/* Writes at each place the dictionary's value at that place's index. */
size_t fascjoldi_decode_u8(const uint8_t *dictionary, size_t dictionary_length, const uint16_t *indices, size_t indices_length,
    uint8_t *output, size_t output_length, size_t *place);
size_t fascjoldi_decode_u16(const uint16_t *dictionary, size_t dictionary_length, const uint16_t *indices, size_t indices_length,
    uint16_t *output, size_t output_length, size_t *place);
size_t fascjoldi_decode_u32(const uint32_t *dictionary, size_t dictionary_length, const uint16_t *indices, size_t indices_length,
    uint32_t *output, size_t output_length, size_t *place);
size_t fascjoldi_decode_u64(const uint64_t *dictionary, size_t dictionary_length, const uint16_t *indices, size_t indices_length,
    uint64_t *output, size_t output_length, size_t *place);

/* Puts at each place the value found at its source in the plain order. */
size_t fascjoldi_transpose_u8(const uint8_t *input, size_t input_length, uint8_t *output, size_t output_length, size_t *place);
size_t fascjoldi_transpose_u16(const uint16_t *input, size_t input_length, uint16_t *output, size_t output_length, size_t *place);
size_t fascjoldi_transpose_u32(const uint32_t *input, size_t input_length, uint32_t *output, size_t output_length, size_t *place);
size_t fascjoldi_transpose_u64(const uint64_t *input, size_t input_length, uint64_t *output, size_t output_length, size_t *place);

/* Puts the value of each place back at its source: undoes transpose. */
size_t fascjoldi_untranspose_u8(const uint8_t *input, size_t input_length, uint8_t *output, size_t output_length, size_t *place);
size_t fascjoldi_untranspose_u16(const uint16_t *input, size_t input_length, uint16_t *output, size_t output_length, size_t *place);
size_t fascjoldi_untranspose_u32(const uint32_t *input, size_t input_length, uint32_t *output, size_t output_length, size_t *place);
size_t fascjoldi_untranspose_u64(const uint64_t *input, size_t input_length, uint64_t *output, size_t output_length, size_t *place);

/* Moves bit l * T + r of a block of 1,024 bits to the place of row r in lane l; always answers. */
void fascjoldi_transpose_bits_u8(const uint64_t input[16], uint64_t output[16]);
void fascjoldi_transpose_bits_u16(const uint64_t input[16], uint64_t output[16]);
void fascjoldi_transpose_bits_u32(const uint64_t input[16], uint64_t output[16]);
void fascjoldi_transpose_bits_u64(const uint64_t input[16], uint64_t output[16]);

/* ---- The call on blocks of bits that is there for T 64 alone. */

/* Moves the bits of a block that was transposed for u64 back to where they came from; always answers. */
void fascjoldi_untranspose_bits_u64(const uint64_t input[16], uint64_t output[16]);

/* ---- The calls on column files, which hold uint64_t numbers. */

/* Checks a column file, whole. */
size_t fascjoldi_file_check(const uint8_t *file, size_t file_length, size_t *place);

/* Checks a column file, and says whether its bytes are what our writer would have written. */
size_t fascjoldi_file_check_canonical(const uint8_t *file, size_t file_length, size_t *place);

/* Checks a column file, and lays down the 1,024 numbers of one of its blocks. */
size_t fascjoldi_file_block_out(const uint8_t *file, size_t file_length, size_t block, uint64_t *output, size_t output_length,
    size_t *place);

/* Checks a column file, and gives the number at one row and in how many packed words it stands, 2^64 - 1 where there is no such
   count; refused, the value is 0. */
size_t fascjoldi_file_row_at(const uint8_t *file, size_t file_length, size_t row, uint64_t *value, uint64_t *words, size_t *place);

/* Writes a column file of whole blocks of numbers, and says how many bytes it has; refused, the length is 0. The output behind
   the file stays as it was. */
size_t fascjoldi_file_write(const uint64_t *values, size_t values_length, uint8_t *output, size_t output_length, size_t *length,
    size_t *place);

/* Writes the rows of any readable column file as our writer would, and says how many bytes the new file has; refused, the length
   is 0. The output behind the new file stays as it was. */
size_t fascjoldi_file_rewrite(const uint8_t *file, size_t file_length, uint8_t *output, size_t output_length, size_t *length,
    size_t *place);

/* Gives the rows of any readable column file new numbers and writes them as our writer would: a row whose number is the old
   number of a pair gets the new number at the same place, and every other row stays. The old numbers have to rise, no new number
   may stand twice, and the order has the places of the pairs by rising new number. A number of the file that is no old number may
   not be a new one: so no two numbers become one. Says how many bytes the new file has and how many rows changed; refused, both
   are 0. The output behind the new file stays as it was. */
size_t fascjoldi_file_renumber(const uint8_t *file, size_t file_length, const uint64_t *olds, size_t olds_length,
    const uint64_t *news, size_t news_length, const uint64_t *order, size_t order_length, uint8_t *output, size_t output_length,
    size_t *length, size_t *changed, size_t *place);

/* Lists the rows whose number lies between two bounds, both included, and says how many they are and how many blocks were opened;
   refused, both are 0. The room behind the rows stays as it was. */
size_t fascjoldi_file_search(const uint8_t *file, size_t file_length, uint64_t low, uint64_t high, uint64_t *rows,
    size_t rows_length, size_t *found, size_t *opened, size_t *place);

/* Says how many bytes of a file are its front, by its first four: the front is the head and the contents, and the bodies stand
   behind it. It is 4 where the head is shorter than that, or says contents of more than 8,196 bytes. */
size_t fascjoldi_front_length(const uint8_t *head, size_t head_length);

/* Checks the contents of a file of so many bytes; the bodies are not looked at. */
size_t fascjoldi_front_check(const uint8_t *front, size_t front_length, size_t size, size_t *place);

/* Says the edition of a file, by its front; 0 where that is too short. */
size_t fascjoldi_front_edition(const uint8_t *front, size_t front_length);

/* Says how many blocks a file has, by its front; 0 where that is too short. */
size_t fascjoldi_front_count(const uint8_t *front, size_t front_length);

/* Says how many rows a file has, by its front; 0 where that is too short. */
uint64_t fascjoldi_front_row_count(const uint8_t *front, size_t front_length);

/* Says where the first body of a file begins, by its front. */
size_t fascjoldi_front_contents_length(const uint8_t *front, size_t front_length);

/* Gives what the contents say of a block: its kind, its width, the two bytes that are to be 0, the bytes of its body, and its
   reference. Where the front that is lent ends before the end of such an entry the kind is 255 and all else 0. */
void fascjoldi_front_entry(const uint8_t *front, size_t front_length, size_t block, uint8_t *kind, uint8_t *width, uint16_t *zero,
    uint32_t *length, uint64_t *reference);

/* Gives the smallest and the largest number that the contents say of a block; 0 and 2^64 - 1 where they say none: in an edition
   that is not 2, and where the front that is lent has no such entry. */
void fascjoldi_front_range(const uint8_t *front, size_t front_length, size_t block, uint64_t *smallest, uint64_t *largest);

/* Says whether the fronts of two files say the same of the smallest and the largest number of a block; no where their editions
   differ. */
FASCJOLDI_BOOL fascjoldi_front_same_range(const uint8_t *left, size_t left_length, const uint8_t *right, size_t right_length,
    size_t block);

/* Says how many blocks are in both of two files, by their fronts. */
uint16_t fascjoldi_front_blocks_in_both(const uint8_t *left, size_t left_length, const uint8_t *right, size_t right_length);

/* Checks one body against the contents, and lays down its 1,024 numbers. Of 8 and 11 it is the body that is cut short or too
   long; 10, also where the front has no such entry, and 13 have the block as place. */
size_t fascjoldi_body_block_out(const uint8_t *front, size_t front_length, size_t block, const uint8_t *body, size_t body_length,
    uint64_t *output, size_t output_length, size_t *place);

/* Checks the smallest and the largest of a block's numbers, which were laid down, against what the contents say: 10 with the
   block where its entry is not right, then 15 with the block; edition 1 says no smallest and largest number, so there 15 is not
   given. Any length of values is taken. */
size_t fascjoldi_body_check_range(const uint8_t *front, size_t front_length, size_t block, const uint64_t *values,
    size_t values_length, size_t *place);

/* Gives the first body of a file, by its front: its number, which is 0, where it begins, and how many bytes its entry says. The
   length is 0 where the front that is lent has no such entry, as that of a file of no blocks has none. */
void fascjoldi_body_first(const uint8_t *front, size_t front_length, size_t *number, size_t *start, uint32_t *length);

/* Goes on from a body of a file, whose number and beginning are lent, to the body behind it, by the front of the file. Where the
   contents are right, the number behind the last body is the count of blocks, and the beginning is where the file ends; the
   length is 0 there, since the front has no such entry. Where more than the front is lent, as the whole file, it is read from
   what stands behind the front, and says nothing. A body without an entry counts as one of no bytes. */
void fascjoldi_body_next(const uint8_t *front, size_t front_length, size_t *number, size_t *start, uint32_t *length);

/* Gives the number at one row of a column file out of the body with that number, which begins at that start, and in how many
   packed words it stands, 2^64 - 1 where there is no such count; refused, the value is 0. The file is not checked: of a file that
   was, and of a body that fascjoldi_body_first and fascjoldi_body_next gave, the answer is that of fascjoldi_file_row_at. 8 where
   the body does not all stand in the file, then 10 with its number where its entry is not right, 12 where the row is not of its
   block, and 13 with its number where one of its run indices is out of range. */
size_t fascjoldi_file_row_from(const uint8_t *file, size_t file_length, size_t number, size_t start, size_t row, uint64_t *value,
    uint64_t *words, size_t *place);

/* Says whether a search between two bounds opens a block, by the front of the file: the bodies of the other blocks need not be
   read. In edition 1 every block is opened, and a block that the front has no entry of is where the lower bound is not above the
   upper one. */
FASCJOLDI_BOOL fascjoldi_search_opens(const uint8_t *front, size_t front_length, size_t block, uint64_t low, uint64_t high);

/* Lists the rows of a block, whose 1,024 numbers were laid down, that lie between two bounds, both included, and says how many
   they are, and that one block was opened; refused, both are 0. Values that are not 1,024 long are refused with 2, a block that
   no file has, 256 or higher, with 12, and room that is too short with 14. The room behind the rows stays as it was. */
size_t fascjoldi_search_rows(const uint64_t *values, size_t values_length, size_t block, uint64_t low, uint64_t high,
    uint64_t *rows, size_t rows_length, size_t *found, size_t *opened, size_t *place);

/* Lists the places at which two blocks of 1,024 numbers differ, rising, and gives how many they are; refused, the count is 0. The
   places behind these stay as they were. A block or room for places that is not 1,024 long is refused with 2. */
size_t fascjoldi_block_differing(const uint64_t *left, size_t left_length, const uint64_t *right, size_t right_length,
    uint16_t *places, size_t places_length, size_t *count, size_t *place);

/* ---- The calls on a packed uint64_t body that comes in chunks. The program keeps the state, which is *width, *held and room,
   and lends it to each call as the call before left it. A start writes all of it, also when it is refused. */

/* Begins a body of the width that is asked for, with nothing held; refused, the state is that of width 0. */
size_t fascjoldi_trickle_start(size_t asked, size_t *width, size_t *held, uint8_t room[8192], size_t *place);

/* Feeds a chunk to a state, and gives how many of its bytes were taken: all, or what the body still lacked. A state that no call
   has left, of a width above 64 or with more bytes held than its body has, counts as that of width 0, and is left so. */
size_t fascjoldi_trickle_feed(size_t *width, size_t *held, uint8_t room[8192], const uint8_t *chunk, size_t chunk_length);

/* Lays down the 1,024 values of a state when the bytes of its body are all there. */
size_t fascjoldi_trickle_ask(size_t width, size_t held, const uint8_t room[8192], uint64_t *output, size_t output_length,
    size_t *place);

/* ---- The calls of the machine that lists what two column files differ in. It reads and writes nothing: each call gives a wish,
   and the program grants it. The program keeps the state, and lends it to each call as the call before left it; any numbers are a
   state. It has two buffers for each file, of FASCJOLDI_FRONT_ROOM and FASCJOLDI_BODY_ROOM bytes, and an output of
   FASCJOLDI_OUTPUT_ROOM. The result says what is wished for:
   FASCJOLDI_WISH_READ: read *length bytes of the file of *side from *start on, or as many as it has there, to the front of that
   file's buffer *part, and lend the bytes that were read with the next call.
   FASCJOLDI_WISH_WRITE: write the first *length bytes of the output.
   FASCJOLDI_WISH_DONE: nothing more; the bytes of all writes are the list.
   What a wish does not name is 0 there. The output is written by a call that wishes for a write, and by no other. The program
   bindings/c/changes.c does all this. */

/* Begins the list for files of these sizes in bytes, and gives the first wish. */
size_t fascjoldi_listing_start(size_t left_size, size_t right_size, uint64_t state[8], size_t *side, size_t *part, size_t *start,
    size_t *length);

/* Gives the next wish, after the last one was granted. The four buffers are what the last read into each gave, cut short where
   the file has fewer bytes, and of no bytes where nothing was read into it yet. The output is lent to each call as the call
   before left it; one that is shorter than 65,536 bytes ends the list. */
size_t fascjoldi_listing_next(uint64_t state[8], const uint8_t *left_front, size_t left_front_length, const uint8_t *right_front,
    size_t right_front_length, const uint8_t *left_body, size_t left_body_length, const uint8_t *right_body,
    size_t right_body_length, uint8_t *output, size_t output_length, size_t *side, size_t *part, size_t *start, size_t *length);

/* Says after how many wishes every list has ended. */
size_t fascjoldi_listing_turns(void);

/* ---- Numbers in decimal, and what is said of a block to a person. */

/* Reads a text of decimal digits as a number; zeros at the front are taken. The result is 0 and the value is the number; or it is
   1 for a text of no bytes, 2 for one with a byte that is no digit, with the lowest such place, or 3 for a number of 2^64 or
   more, and the value is 0. */
size_t fascjoldi_decimal_parse(const uint8_t *text, size_t text_length, uint64_t *value, size_t *place);

/* Lays the decimal digits of a number at the front of the output, and gives how many bytes they are, from 1 to 20; 0, and nothing
   is laid, where they do not fit. */
size_t fascjoldi_decimal_lay(uint64_t value, uint8_t *output, size_t output_length);

/* Gives what is said of a block, whose numbers were laid down: its kind, its width, the bytes of its body and its reference, as
   the front of the file says, and the smallest and the largest of the numbers. */
void fascjoldi_summary_of_block(const uint8_t *front, size_t front_length, size_t block, const uint64_t *values,
    size_t values_length, uint8_t *kind, uint8_t *width, uint32_t *length, uint64_t *reference, uint64_t *smallest,
    uint64_t *largest);

/* Says how many thousandths of a byte a row takes, where so many rows take so many bytes, rounded down; 0 for no rows. */
uint64_t fascjoldi_summary_thousandths(uint32_t bytes, uint32_t rows);

/* Says how many marks the bar of a width has: one for each four bits that are begun. */
size_t fascjoldi_summary_marks(uint8_t width);

/* Says at which place of a block a row stands: 0 where it stands in a block before it, and 1,024 where it stands in one behind
   it. */
size_t fascjoldi_summary_place_in(uint64_t row, size_t block);

#ifdef __cplusplus
}
#endif

#endif
