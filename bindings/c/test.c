/*
 * Calls the archive from C. What is expected comes from the rules: the cases P5 to P9 and P11 (R150), a refusal for each number of the
 * table (R143), and the worked files (R88, R123), each written, checked, read, searched and compared. Prints a line for each thing that is
 * not as expected, and then how many were looked at.
 */
#include "fascjoldi.h"
#include "out.h"

static uint64_t looked_at, wrong;

static void expect(const char *what, uint64_t got, uint64_t expected)
{
    looked_at++;
    if (got != expected) {
        wrong++;
        put_text(what);
        put_text(": got ");
        put_number(got);
        put_line(", expected ", expected);
    }
}

/* Every byte of a buffer holds this. */
static void expect_bytes(const char *what, const void *buffer, size_t count, uint8_t byte)
{
    size_t i = 0;
    while (i < count && ((const uint8_t *)buffer)[i] == byte) {
        i++;
    }
    expect(what, i, count);
}

/* The place of row r of lane l (R16). */
static size_t place_of(size_t r, size_t l)
{
    static const uint8_t order[8] = {0, 4, 2, 6, 1, 5, 3, 7};
    return order[r / 8] * 16u + r % 8 * 128 + l;
}

static uint8_t values8[1024], packed8[1024], out8[1024], base8[128];
static uint64_t values64[2048], out64[1024];
static uint16_t values16[1024], out16[1024], places16[1024];
static size_t place;

/* P6, P7: T 8, W 3, rows of lane 0 holding 0 to 7; here each lane holds the same. */
static void packs(void)
{
    uint8_t value = 77;
    uint64_t words = 77;
    for (size_t r = 0; r < 8; r++) {
        for (size_t l = 0; l < 128; l++) {
            values8[place_of(r, l)] = (uint8_t)r;
        }
    }
    expect("P6 number", fascjoldi_pack_u8(3, values8, 1024, packed8, 384, &place), FASCJOLDI_DONE);
    expect("P6 place", place, 0);
    expect("P6 word at 0", packed8[0], 136);
    expect("P6 word at 128", packed8[128], 198);
    expect("P6 word at 256", packed8[256], 250);
    expect("P7 number", fascjoldi_unpack_single_u8(3, packed8, 384, 256, &value, &words, &place), FASCJOLDI_DONE);
    expect("P7 value", value, 2);
    expect("P7 words", words, 2);
    expect("P7 words by place", fascjoldi_words_at_u8(3, 256), 2);
    expect("P6 unpacked", fascjoldi_unpack_u8(3, packed8, 384, out8, 1024, &place), FASCJOLDI_DONE);
    expect("P6 values restored", (uint64_t)memcmp(out8, values8, 1024), 0);
}

/* P8: T 8, value 3, reference 250: difference 9. Restored at W 4. At W 3 the result is 251. */
static void frames(void)
{
    memset(values8, 3, 1024);
    expect("P8 at 8", fascjoldi_for_pack_u8(8, values8, 1024, 250, packed8, 1024, &place), FASCJOLDI_DONE);
    expect_bytes("P8 difference", packed8, 1024, 9);
    expect("P8 at 4", fascjoldi_for_pack_u8(4, values8, 1024, 250, packed8, 512, &place), FASCJOLDI_DONE);
    expect("P8 at 4 back", fascjoldi_unfor_pack_u8(4, packed8, 512, 250, out8, 1024, &place), FASCJOLDI_DONE);
    expect_bytes("P8 restored at 4", out8, 1024, 3);
    expect("P8 at 3", fascjoldi_for_pack_u8(3, values8, 1024, 250, packed8, 384, &place), FASCJOLDI_DONE);
    expect("P8 at 3 back", fascjoldi_unfor_pack_u8(3, packed8, 384, 250, out8, 1024, &place), FASCJOLDI_DONE);
    expect_bytes("P8 at 3 it is 251", out8, 1024, 251);
}

/* P9: T 8, base 5, rows 5, 7, 6: differences 0, 2, 255. */
static void differences(void)
{
    memset(base8, 5, 128);
    memset(values8, 6, 1024);
    for (size_t l = 0; l < 128; l++) {
        values8[place_of(0, l)] = 5;
        values8[place_of(1, l)] = 7;
    }
    expect("P9 number", fascjoldi_delta_u8(values8, 1024, base8, 128, packed8, 1024, &place), FASCJOLDI_DONE);
    expect("P9 row 0", packed8[place_of(0, 0)], 0);
    expect("P9 row 1", packed8[place_of(1, 127)], 2);
    expect("P9 row 2", packed8[place_of(2, 64)], 255);
    expect("P9 back", fascjoldi_undelta_u8(packed8, 1024, base8, 128, out8, 1024, &place), FASCJOLDI_DONE);
    expect("P9 restored", (uint64_t)memcmp(out8, values8, 1024), 0);
    expect("P9 packed at 8", fascjoldi_undelta_pack_u8(8, packed8, 1024, base8, 128, out8, 1024, &place), FASCJOLDI_DONE);
    expect("P9 restored from packed", (uint64_t)memcmp(out8, values8, 1024), 0);
}

/* P5: transpose sources: 1 has 64, 64 has 8, 197 has 329, 1023 has 1023. P11: T 16, input bit 56 moves to 67; T 64, bit 64 to 1. */
static void transposes(void)
{
    uint64_t bits[16] = {0}, moved[16], back[16];
    for (uint16_t i = 0; i < 1024; i++) {
        values16[i] = i;
    }
    expect("P5 number", fascjoldi_transpose_u16(values16, 1024, out16, 1024, &place), FASCJOLDI_DONE);
    expect("P5 source of 1", out16[1], 64);
    expect("P5 source of 64", out16[64], 8);
    expect("P5 source of 197", out16[197], 329);
    expect("P5 source of 1023", out16[1023], 1023);
    expect("P5 back", fascjoldi_untranspose_u16(out16, 1024, places16, 1024, &place), FASCJOLDI_DONE);
    expect("P5 restored", (uint64_t)memcmp(places16, values16, 2048), 0);
    bits[0] = (uint64_t)1 << 56;
    fascjoldi_transpose_bits_u16(bits, moved);
    expect("P11 bit 56 at T 16", moved[1], (uint64_t)1 << 3);
    bits[0] = 0;
    bits[1] = 1;
    fascjoldi_transpose_bits_u64(bits, moved);
    expect("P11 bit 64 at T 64", moved[0], 2);
    fascjoldi_untranspose_bits_u64(moved, back);
    expect("P11 back", back[1], 1);
}

/* A refused call on a block: its number and its place, and its output is as it was. */
static void expect_refused(const char *what, size_t number, size_t expected, size_t at)
{
    expect(what, number, expected);
    expect(what, place, at);
    expect_bytes(what, out8, 1024, 77);
}

/* Numbers 1 to 7 of the table (R143). */
static void refusals(void)
{
    size_t indices[3] = {0, 1023, 1024};
    uint16_t entries[1024] = {0};
    uint8_t value = 77;
    uint64_t words = 77;
    memset(out8, 77, 1024);
    place = 77;
    expect_refused("1", fascjoldi_pack_u8(9, values8, 1024, out8, 1024, &place), FASCJOLDI_WIDTH, 0);
    expect_refused("2", fascjoldi_pack_u8(3, values8, 1023, out8, 384, &place), FASCJOLDI_BLOCK, 0);
    expect_refused("3", fascjoldi_pack_u8(3, values8, 1024, out8, 383, &place), FASCJOLDI_PACKED, 0);
    expect_refused("4", fascjoldi_delta_u8(values8, 1024, base8, 127, out8, 1024, &place), FASCJOLDI_BASE, 0);
    expect_refused("5", fascjoldi_unpack_indices_u8(8, packed8, 1024, indices, 2, out8, 1, &words, &place), FASCJOLDI_LISTS, 0);
    expect("5 words", words, 0);
    expect_refused("6", fascjoldi_unpack_indices_u8(8, packed8, 1024, indices, 3, out8, 3, &words, &place), FASCJOLDI_INDEX, 2);
    expect_refused("6 alone", fascjoldi_unpack_single_u8(8, packed8, 1024, 1024, &value, &words, &place), FASCJOLDI_INDEX, 0);
    expect("6 value", value, 0);
    expect("6 words", words, FASCJOLDI_NO_COUNT);
    entries[5] = 3;
    expect_refused("7", fascjoldi_decode_u8(values8, 3, entries, 1024, out8, 1024, &place), FASCJOLDI_DICTIONARY, 5);
    expect_refused("7 empty", fascjoldi_decode_u8(values8, 0, entries, 1024, out8, 1024, &place), FASCJOLDI_DICTIONARY, 0);
}

/* The worked files of R88: one block of sevens, as a frame of width 0, in edition 1 and in edition 2. */
static const uint8_t sevens1[20] = {1, 0, 1, 0, 1, 0, 0, 0, 0, 0, 0, 0, 7, 0, 0, 0, 0, 0, 0, 0};
static const uint8_t sevens2[36] = {2, 0, 1, 0, 1, 0, 0, 0, 0, 0, 0, 0, 7, 0, 0, 0, 0, 0, 0, 0, 7, 0, 0, 0, 0, 0, 0, 0, 7, 0, 0, 0, 0, 0, 0, 0};
static uint8_t file[8192], nine[8192], chunk_room[8192];

/* The example of R123: 7 in each row, against the same but for a 9 in row 3. Written, checked, read, searched, compared. */
static void files(void)
{
    size_t length = 77, found = 77, opened = 77;
    uint64_t value = 77, words = 77;
    for (size_t i = 0; i < 1024; i++) {
        values64[i] = 7;
    }
    memset(file, 77, sizeof file);
    expect("sevens written", fascjoldi_file_write(values64, 1024, file, sizeof file, &length, &place), FASCJOLDI_DONE);
    expect("sevens length", length, 36);
    expect("sevens bytes", (uint64_t)memcmp(file, sevens2, 36), 0);
    expect_bytes("behind the file", file + 36, sizeof file - 36, 77);
    expect("sevens checked", fascjoldi_file_check(sevens1, 20, &place), FASCJOLDI_DONE);
    /* The least width that restores 9 over the reference 7 is 2: 4 + 32 + 128 · 2 bytes. */
    values64[3] = 9;
    expect("nine written", fascjoldi_file_write(values64, 1024, nine, sizeof nine, &length, &place), FASCJOLDI_DONE);
    expect("nine length", length, 292);
    expect("nine checked", fascjoldi_file_check(nine, 292, &place), FASCJOLDI_DONE);
    expect("nine is ours", fascjoldi_file_check_canonical(nine, 292, &place), FASCJOLDI_DONE);
    expect("nine's row 3", fascjoldi_file_row_at(nine, 292, 3, &value, &words, &place), FASCJOLDI_DONE);
    expect("nine's row 3 value", value, 9);
    expect("nine's row 3 words", words, 1);
    expect("nine read", fascjoldi_file_block_out(nine, 292, 0, out64, 1024, &place), FASCJOLDI_DONE);
    expect("nine read back", (uint64_t)memcmp(out64, values64, 8192), 0);
    expect("searched", fascjoldi_file_search(nine, 292, 8, 10, values64 + 1024, 1024, &found, &opened, &place), FASCJOLDI_DONE);
    expect("rows found", found, 1);
    expect("row found", values64[1024], 3);
    expect("blocks opened", opened, 1);
    expect("sevens read", fascjoldi_file_block_out(sevens1, 20, 0, values64, 1024, &place), FASCJOLDI_DONE);
    expect("compared", fascjoldi_block_differing(values64, 1024, out64, 1024, places16, 1024, &found, &place), FASCJOLDI_DONE);
    expect("places that differ", found, 1);
    expect("the place", places16[0], 3);
    expect("left", values64[3], 7);
    expect("right", out64[3], 9);
    expect("sevens rewritten", fascjoldi_file_rewrite(sevens1, 20, file, 36, &length, &place), FASCJOLDI_DONE);
    expect("sevens rewritten length", length, 36);
    expect("sevens rewritten bytes", (uint64_t)memcmp(file, sevens2, 36), 0);
}

/* The file of sevens becomes one of nines, and the list turned round gives it back. */
static void renumbered(void)
{
    static const uint64_t seven[1] = {7}, nines[1] = {9}, first[1] = {0};
    static uint8_t renamed[64], back[64];
    size_t length = 77, changed = 77, place = 77;
    uint64_t value = 77, words = 77;
    expect("sevens renumbered",
        fascjoldi_file_renumber(sevens2, 36, seven, 1, nines, 1, first, 1, renamed, 64, &length, &changed, &place), FASCJOLDI_DONE);
    expect("its length", length, 36);
    expect("its rows that changed", changed, 1024);
    expect("its last row", fascjoldi_file_row_at(renamed, 36, 1023, &value, &words, &place), FASCJOLDI_DONE);
    expect("its last row's number", value, 9);
    expect("renumbered back",
        fascjoldi_file_renumber(renamed, 36, nines, 1, seven, 1, first, 1, back, 64, &length, &changed, &place), FASCJOLDI_DONE);
    expect("back, its bytes", (uint64_t)memcmp(back, sevens2, 36), 0);
    expect("lists of two lengths",
        fascjoldi_file_renumber(sevens2, 36, seven, 1, nines, 0, first, 1, back, 64, &length, &changed, &place), FASCJOLDI_LENGTHS);
    expect("lists of two lengths, a length", length, 0);
    expect("a new number that a row has",
        fascjoldi_file_renumber(nine, 292, nines, 1, seven, 1, first, 1, back, 64, &length, &changed, &place), FASCJOLDI_TAKEN);
    expect("a new number that a row has, the row", place, 0);
}

/* The walk over the bodies of that file, of which there is one, and a search of it by its front and its one block: the numbers from 8 to 9 are those that
   a search of the whole file lists. */
static void walk(void)
{
    static uint64_t listed[1024], rows[1024];
    size_t number = 77, start = 77, found = 77, opened = 77, whole = 77;
    uint32_t length = 77;
    fascjoldi_body_first(nine, 36, &number, &start, &length);
    expect("first body", number, 0);
    expect("first body begins", start, 36);
    expect("first body's bytes", length, 256);
    fascjoldi_body_next(nine, 36, &number, &start, &length);
    expect("behind the last body", number, 1);
    expect("the file ends", start, 292);
    expect("no bytes behind the last body", length, 0);
    expect("a block without an entry is opened", fascjoldi_search_opens(nine, 36, 1, 10, 100), 1);
    expect("but not for bounds that are exchanged", fascjoldi_search_opens(nine, 36, 1, 100, 10), 0);
    expect("opened at the upper end", fascjoldi_search_opens(nine, 36, 0, 9, 100), 1);
    expect("not opened above", fascjoldi_search_opens(nine, 36, 0, 10, 100), 0);
    expect("searched", fascjoldi_file_search(nine, 292, 8, 9, listed, 1024, &whole, &opened, &place), FASCJOLDI_DONE);
    memset(rows, 77, sizeof rows);
    expect("rows of a block", fascjoldi_search_rows(values64, 1024, 0, 8, 9, rows, 1024, &found, &opened, &place), FASCJOLDI_DONE);
    expect("as many", found, whole);
    expect("one block", opened, 1);
    expect("the same rows", (uint64_t)memcmp(rows, listed, 8 * whole), 0);
    expect("rows of block 3", fascjoldi_search_rows(values64, 1024, 3, 8, 9, rows, 1024, &found, &opened, &place), FASCJOLDI_DONE);
    expect("first row of block 3", rows[0], 3072 + listed[0]);
    expect("short block", fascjoldi_search_rows(values64, 1023, 0, 8, 9, rows, 1024, &found, &opened, &place), FASCJOLDI_BLOCK);
    expect("short block, rows", found, 0);
    expect("block 256", fascjoldi_search_rows(values64, 1024, 256, 8, 9, rows, 1024, &found, &opened, &place), FASCJOLDI_BEYOND);
    expect("no room", fascjoldi_search_rows(values64, 1024, 0, 8, 9, rows, whole - 1, &found, &opened, &place), FASCJOLDI_ROOM);
    expect("no room, blocks", opened, 0);
}

/* Rows of a file of two blocks by their bodies: 9 at row 3, else seven. Then a file of one body of runs, with one run value. */
static void rows_by_body(void)
{
    static uint64_t two[2048];
    size_t number = 77, start = 77, written = 77;
    uint64_t value = 77, words = 77;
    uint32_t length = 77;
    for (size_t i = 0; i < 2048; i++) {
        two[i] = i == 3 ? 9 : 7;
    }
    expect("two blocks written", fascjoldi_file_write(two, 2048, file, sizeof file, &written, &place), FASCJOLDI_DONE);
    expect("two blocks' length", written, 324);
    fascjoldi_body_first(file, written, &number, &start, &length);
    expect("row 3 by its body", fascjoldi_file_row_from(file, 324, number, start, 3, &value, &words, &place), FASCJOLDI_DONE);
    expect("row 3 by its body, value", value, 9);
    expect("row 3 by its body, words", words, 1);
    expect("a row of the next block", fascjoldi_file_row_from(file, 324, number, start, 1027, &value, &words, &place), FASCJOLDI_BEYOND);
    expect("a row of the next block, value", value, 0);
    expect("a row of the next block, words", words, FASCJOLDI_NO_COUNT);
    expect("a body behind the end", fascjoldi_file_row_from(file, 324, number, start + 1, 3, &value, &words, &place), FASCJOLDI_CUT);
    expect("no such entry", fascjoldi_file_row_from(file, 324, 11, start, 3, &value, &words, &place), FASCJOLDI_BAD_ENTRY);
    expect("no such entry, place", place, 11);
    fascjoldi_body_next(file, written, &number, &start, &length);
    expect("row 1027", fascjoldi_file_row_from(file, 324, number, start, 1027, &value, &words, &place), FASCJOLDI_DONE);
    expect("row 1027, value", value, 7);
    expect("row 1027, words", words, 0);
    file[52] = 8;
    expect("smallest above largest", fascjoldi_file_row_from(file, 324, number, start, 1027, &value, &words, &place), FASCJOLDI_BAD_ENTRY);
    expect("smallest above largest, place", place, 1);
    memset(file, 0, 2076);
    file[0] = 1, file[2] = 1, file[4] = 3, file[8] = 8, file[9] = 8, file[2068] = 5;
    expect("a row of runs", fascjoldi_file_row_from(file, 2076, 0, 20, 1023, &value, &words, &place), FASCJOLDI_DONE);
    expect("a row of runs, value", value, 5);
    expect("a row of runs, words", words, FASCJOLDI_NO_COUNT);
    file[1420] = 1;
    expect("another run index", fascjoldi_file_row_from(file, 2076, 0, 20, 1023, &value, &words, &place), FASCJOLDI_RUNS);
    expect("another run index, place", place, 0);
}

/* The same file by its front and its one body, as a program asks that never holds a whole file. */
static void fronts(void)
{
    uint8_t kind = 77, width = 77;
    uint16_t zero = 77;
    uint32_t length = 77;
    uint64_t reference = 77, smallest = 77, largest = 77;
    expect("front length", fascjoldi_front_length(nine, 4), 36);
    expect("front checked", fascjoldi_front_check(nine, 36, 292, &place), FASCJOLDI_DONE);
    expect("edition", fascjoldi_front_edition(nine, 36), 2);
    expect("blocks", fascjoldi_front_count(nine, 36), 1);
    expect("rows", fascjoldi_front_row_count(nine, 36), 1024);
    expect("first body at", fascjoldi_front_contents_length(nine, 36), 36);
    fascjoldi_front_entry(nine, 36, 0, &kind, &width, &zero, &length, &reference);
    expect("kind", kind, 1);
    expect("width", width, 2);
    expect("zero", zero, 0);
    expect("body length", length, 256);
    expect("reference", reference, 7);
    fascjoldi_front_range(nine, 36, 0, &smallest, &largest);
    expect("smallest", smallest, 7);
    expect("largest", largest, 9);
    expect("same range as sevens", fascjoldi_front_same_range(nine, 36, sevens2, 36, 0), 0);
    expect("same range as itself", fascjoldi_front_same_range(nine, 36, nine, 36, 0), 1);
    expect("blocks in both", fascjoldi_front_blocks_in_both(nine, 36, sevens1, 20), 1);
    expect("body read", fascjoldi_body_block_out(nine, 36, 0, nine + 36, 256, values64, 1024, &place), FASCJOLDI_DONE);
    expect("body's numbers", (uint64_t)memcmp(values64, out64, 8192), 0);
    expect("range checked", fascjoldi_body_check_range(nine, 36, 0, values64, 1024, &place), FASCJOLDI_DONE);
    renumbered();
    walk();
    rows_by_body();
    values64[5] = 10;
    expect("range refused", fascjoldi_body_check_range(nine, 36, 0, values64, 1024, &place), FASCJOLDI_RANGE);
}

static void expect_body(const char *what, const uint8_t *front, size_t length, size_t block, size_t number)
{
    expect(what, fascjoldi_body_block_out(front, length, block, nine, 2056, out64, 1024, &place), number);
    expect(what, place, number ? block : 0);
    expect(what, fascjoldi_body_check_range(front, length, block, out64, 1024, &place), number);
    expect(what, place, number ? block : 0);
}

/* What one body and one pair of blocks are refused with. The second of two entries is of kind 3, with one run value, a seven: right in edition 1, and
   not in edition 2, where its range is from 7 to 7. */
static void body_refusals(void)
{
    size_t count = 77;
    static const uint8_t runs[16] = {3, 0, 0, 0, 2056 % 256, 2056 / 256};
    memset(nine, 0, 2056);
    nine[2048] = 7;
    memcpy(file, sevens1, 20);
    memcpy(file + 20, runs, 16);
    file[2] = 2;
    expect_body("kind 3 in edition 1", file, 36, 1, FASCJOLDI_DONE);
    expect("kind 3 in edition 1, last value", out64[1023], 7);
    memset(out64, 77, 8192);
    memcpy(file, sevens2, 36);
    memcpy(file + 36, runs, 16);
    memcpy(file + 52, sevens2 + 20, 16);
    file[2] = 2;
    expect_body("kind 3 in edition 2", file, 68, 1, FASCJOLDI_BAD_ENTRY);
    expect_body("no entry", file, 68, 2, FASCJOLDI_BAD_ENTRY);
    memcpy(file + 36, sevens2 + 4, 32);
    file[60] = 6;
    expect_body("smallest above largest", file, 68, 1, FASCJOLDI_BAD_ENTRY);
    file[60] = 7;
    file[36] = 4;
    expect_body("kind 4", file, 68, 1, FASCJOLDI_BAD_ENTRY);
    expect_bytes("refused bodies' output", out64, 8192, 77);
    memset(places16, 77, sizeof places16);
    expect("left short", fascjoldi_block_differing(values64, 1023, out64, 1024, places16, 1024, &count, &place), FASCJOLDI_BLOCK);
    expect("left short, count", count, 0);
    count = 77;
    expect("right long", fascjoldi_block_differing(out64, 1024, values64, 1025, places16, 1024, &count, &place), FASCJOLDI_BLOCK);
    expect("right long, count", count, 0);
    count = 77;
    expect("room short", fascjoldi_block_differing(out64, 1024, values64, 1024, places16, 1023, &count, &place), FASCJOLDI_BLOCK);
    expect("room short, count", count, 0);
    count = 77;
    expect("equal", fascjoldi_block_differing(out64, 1024, out64, 1024, places16, 1024, &count, &place), FASCJOLDI_DONE);
    expect("equal, count", count, 0);
    expect_bytes("refused and equal blocks' places", places16, sizeof places16, 77);
}

static void expect_file(const char *what, size_t length, size_t number, size_t at)
{
    expect(what, fascjoldi_file_check(file, length, &place), number);
    expect(what, place, at);
}

/* Two blocks of sevens in edition 1: the contents have 4 + 2 · 16 bytes, and there are no bodies. */
static void two_blocks(void)
{
    memcpy(file, sevens1, 20);
    memcpy(file + 20, sevens1 + 4, 16);
    file[2] = 2;
}

/* Numbers 8 to 17 of the table (R143). */
static void file_refusals(void)
{
    size_t length = 77, width = 77, held = 77;
    expect("two blocks", (two_blocks(), fascjoldi_file_check(file, 36, &place)), FASCJOLDI_DONE);
    expect_file("8", 3, FASCJOLDI_CUT, 0);
    expect_file("8 in the entries", 35, FASCJOLDI_CUT, 0);
    expect_file("11", 37, FASCJOLDI_OVER, 0);
    file[0] = 3;
    expect_file("9", 36, FASCJOLDI_EDITION, 0);
    two_blocks();
    file[20] = 4;
    expect_file("10", 36, FASCJOLDI_BAD_ENTRY, 1);
    two_blocks();
    memset(out64, 77, 8192);
    expect("12", fascjoldi_file_block_out(file, 36, 2, out64, 1024, &place), FASCJOLDI_BEYOND);
    expect("12 place", place, 0);
    expect_bytes("12 output", out64, 8192, 77);
    /* The second block as runs of one value: 1,024 indices, of which that of place 9 is out of range. */
    memset(file + 20, 0, 16 + 2056);
    file[20] = 3;
    file[24] = 2056 % 256;
    file[25] = 2056 / 256;
    expect_file("runs", 36 + 2056, FASCJOLDI_DONE, 0);
    file[36 + 18] = 1;
    expect_file("13", 36 + 2056, FASCJOLDI_RUNS, 1);
    for (size_t i = 0; i < 1024; i++) {
        values64[i] = 7;
    }
    memset(file, 77, sizeof file);
    expect("14", fascjoldi_file_write(values64, 1024, file, 35, &length, &place), FASCJOLDI_ROOM);
    expect("14 place", place, 0);
    expect("14 length", length, 0);
    expect_bytes("14 output", file, sizeof file, 77);
    expect("2 of a file", fascjoldi_file_write(values64, 1023, file, sizeof file, &length, &place), FASCJOLDI_BLOCK);
    memcpy(file, sevens2, 36);
    file[28] = 8;
    expect_file("15", 36, FASCJOLDI_RANGE, 0);
    /* The sevens packed at width 3: every bit of the body is 1. Readable, and not what the writer would write. */
    memcpy(file, sevens2, 36);
    memset(file + 36, 255, 384);
    file[4] = 0;
    file[5] = 3;
    file[8] = 384 % 256;
    file[9] = 384 / 256;
    file[12] = 0;
    expect_file("sevens packed", 420, FASCJOLDI_DONE, 0);
    expect("17", fascjoldi_file_check_canonical(file, 420, &place), FASCJOLDI_FOREIGN);
    expect("17 place", place, 0);
    /* A body of width 1 that lacks one byte of its 128. */
    memset(out64, 77, 8192);
    expect("start", fascjoldi_trickle_start(1, &width, &held, chunk_room, &place), FASCJOLDI_DONE);
    expect("fed", fascjoldi_trickle_feed(&width, &held, chunk_room, file + 36, 127), 127);
    expect("16", fascjoldi_trickle_ask(width, held, chunk_room, out64, 1024, &place), FASCJOLDI_EARLY);
    expect("16 place", place, 127);
    expect_bytes("16 output", out64, 8192, 77);
    expect("fed all", fascjoldi_trickle_feed(&width, &held, chunk_room, file + 36, 10), 1);
    expect("asked", fascjoldi_trickle_ask(width, held, chunk_room, out64, 1024, &place), FASCJOLDI_DONE);
    expect("first value", out64[0], 1);
    expect("last value", out64[1023], 1);
    expect("1 of chunks", fascjoldi_trickle_start(65, &width, &held, chunk_room, &place), FASCJOLDI_WIDTH);
    expect("width of a refused start", width, 0);
}

/* Grants the wishes of the machine from memory. What it writes has to be this text. */
static void expect_list(const char *what, const uint8_t *left, size_t left_size, const uint8_t *right, size_t right_size, const char *text)
{
    static uint8_t room[2][2][FASCJOLDI_BODY_ROOM], output[FASCJOLDI_OUTPUT_ROOM], written[256];
    const uint8_t *const bytes[2] = {left, right};
    const size_t sizes[2] = {left_size, right_size};
    size_t held[2][2] = {{0, 0}, {0, 0}}, side = 77, part = 77, start = 77, length = 77, n = 0, turns = 0, expected = 0;
    uint64_t state[8];
    size_t wish = fascjoldi_listing_start(left_size, right_size, state, &side, &part, &start, &length);
    while (wish != FASCJOLDI_WISH_DONE && turns < fascjoldi_listing_turns()) {
        if (wish == FASCJOLDI_WISH_READ) {
            size_t there = start < sizes[side] ? sizes[side] - start : 0;
            held[side][part] = length < there ? length : there;
            memcpy(room[side][part], bytes[side] + (there ? start : 0), held[side][part]);
        } else {
            memcpy(written + n, output, length);
            n += length;
        }
        wish = fascjoldi_listing_next(state, room[0][0], held[0][0], room[1][0], held[1][0], room[0][1], held[0][1], room[1][1],
            held[1][1], output, sizeof output, &side, &part, &start, &length);
        turns++;
    }
    while (text[expected] != 0) {
        expected++;
    }
    expect(what, n, expected);
    expect(what, (uint64_t)memcmp(written, text, n < expected ? n : expected), 0);
    expect(what, wish, FASCJOLDI_WISH_DONE);
}

/* The machine that lists what two files differ in, on the files of the example (R123), and on any numbers for its state. */
static void lists(void)
{
    static uint8_t output[FASCJOLDI_OUTPUT_ROOM];
    uint64_t state[8], any[8] = {99, 98, 97, 96, 95, 94, 93, 92};
    size_t side = 77, part = 77, start = 77, length = 77;
    expect("turns", fascjoldi_listing_turns(), 1300);
    expect("first wish", fascjoldi_listing_start(20, 292, state, &side, &part, &start, &length), FASCJOLDI_WISH_READ);
    expect("first wish, file", side, FASCJOLDI_LEFT);
    expect("first wish, buffer", part, FASCJOLDI_FRONT);
    expect("first wish, start", start, 0);
    expect("first wish, length", length, 4);
    expect("second wish", fascjoldi_listing_next(state, sevens1, 4, sevens1, 0, sevens1, 0, sevens1, 0, output, sizeof output, &side,
        &part, &start, &length), FASCJOLDI_WISH_READ);
    expect("second wish, length", length, 20);
    expect("short output", fascjoldi_listing_next(state, sevens1, 20, sevens1, 0, sevens1, 0, sevens1, 0, output, 65535, &side, &part,
        &start, &length), FASCJOLDI_WISH_DONE);
    expect("short output, length", length, 0);
    expect("left body next", fascjoldi_listing_next(state, sevens1, 20, sevens1, 0, sevens1, 0, sevens1, 0, output, sizeof output,
        &side, &part, &start, &length), FASCJOLDI_WISH_READ);
    expect("left body next, length", length, 0);
    expect("any numbers", fascjoldi_listing_next(any, sevens1, 4, sevens1, 0, sevens1, 0, sevens1, 0, output, sizeof output, &side,
        &part, &start, &length), FASCJOLDI_WISH_DONE);
    expect("any numbers, stage", any[0], 6);
    expect("any numbers, side", any[1], 0);
    expect("any numbers, the last", any[7], 92);
    expect_list("sevens and nine", sevens1, 20, nine, 292, "3 7 9\ndifferences 1\n");
    expect_list("nine and sevens", nine, 292, sevens2, 36, "3 9 7\ndifferences 1\n");
    expect_list("two editions", sevens1, 20, sevens2, 36, "differences 0\n");
    expect_list("cut short", nine, 292, nine, 291, "refused right 8 0\n");
    expect_list("both bad", nine, 3, nine, 293, "refused left 8 0\n");
    expect_list("too long", nine, 292, nine, 293, "refused right 11 0\n");
}

/* Numbers in decimal, and what is said of the block of that file. */
static void texts(void)
{
    static const uint8_t most[] = "18446744073709551615", more[] = "18446744073709551616", other[] = "12a4";
    uint8_t output[20], kind = 77, width = 77;
    uint32_t length = 77;
    uint64_t value = 77, reference = 77, smallest = 77, largest = 77;
    place = 77;
    expect("parsed", fascjoldi_decimal_parse(most, 20, &value, &place), 0);
    expect("parsed value", value, 18446744073709551615u);
    expect("parsed place", place, 0);
    expect("too large", fascjoldi_decimal_parse(more, 20, &value, &place), 3);
    expect("too large, value", value, 0);
    expect("no text", fascjoldi_decimal_parse(most, 0, &value, &place), 1);
    expect("no digit", fascjoldi_decimal_parse(other, 4, &value, &place), 2);
    expect("no digit, place", place, 2);
    memset(output, 77, sizeof output);
    expect("laid", fascjoldi_decimal_lay(1204, output, 20), 4);
    expect("laid digits", (uint64_t)memcmp(output, "1204", 4), 0);
    expect_bytes("behind the digits", output + 4, 16, 77);
    expect("no room for digits", fascjoldi_decimal_lay(120488, output, 5), 0);
    expect("all digits", fascjoldi_decimal_lay(18446744073709551615u, output, 20), 20);
    expect("the digits", (uint64_t)memcmp(output, most, 20), 0);
    fascjoldi_summary_of_block(nine, 36, 0, out64, 1024, &kind, &width, &length, &reference, &smallest, &largest);
    expect("summary, kind", kind, 1);
    expect("summary, width", width, 2);
    expect("summary, bytes", length, 256);
    expect("summary, reference", reference, 7);
    expect("summary, smallest", smallest, 7);
    expect("summary, largest", largest, 9);
    expect("thousandths", fascjoldi_summary_thousandths(292, 1024), 285);
    expect("of no rows", fascjoldi_summary_thousandths(4, 0), 0);
    expect("marks", fascjoldi_summary_marks(5), 2);
    expect("place in a block", fascjoldi_summary_place_in(1030, 1), 6);
    expect("before the block", fascjoldi_summary_place_in(1023, 1), 0);
    expect("behind the block", fascjoldi_summary_place_in(2048, 1), 1024);
}

/* A drawer of two blocks, and a list under a budget, beside the calls that they are made of (R48, R66). */
static void many(void)
{
    size_t indices[3] = {0, 256, 0}, answered = 77;
    uint64_t words = 77;
    static uint8_t both[2048], both_packed[768];
    for (size_t i = 0; i < 2048; i++) {
        both[i] = (uint8_t)(i % 1024 / 128);
    }
    expect("drawer", fascjoldi_for_pack_blocks_u8(3, 2, both, 2048, 0, both_packed, 768, &place), FASCJOLDI_DONE);
    expect("drawer of 257", fascjoldi_for_pack_blocks_u8(3, 257, both, 2048, 0, both_packed, 768, &place), FASCJOLDI_BLOCK);
    expect("drawer short", fascjoldi_unpack_blocks_u8(3, 2, both_packed, 768, both, 1024, &place), FASCJOLDI_BLOCK);
    expect("drawer packed short", fascjoldi_unpack_blocks_u8(3, 2, both_packed, 384, both, 2048, &place), FASCJOLDI_PACKED);
    expect("drawer's word at 384 + 256", both_packed[640], 250);
    memset(both, 77, 2048);
    expect("drawer back", fascjoldi_unpack_blocks_u8(3, 2, both_packed, 768, both, 2048, &place), FASCJOLDI_DONE);
    expect("drawer's value at 1024 + 256", both[1280], 2);
    memset(out8, 77, 1024);
    expect("within", fascjoldi_unpack_within_u8(3, both_packed, 384, indices, 3, 2, out8, 3, &answered, &words, &place), FASCJOLDI_DONE);
    expect("answered", answered, 1);
    expect("words", words, 1);
    expect("first output", out8[0], 0);
    expect("second output", out8[1], 77);
}

int main(void)
{
    packs();
    frames();
    differences();
    transposes();
    refusals();
    files();
    fronts();
    lists();
    texts();
    body_refusals();
    file_refusals();
    many();
    put_number(looked_at);
    put_line(" looked at from C, not as expected: ", wrong);
    return wrong != 0;
}
