/*
 * Calls every function of the library with lengths, widths and bytes that are thrown. Each buffer ends, or begins, where a page that
 * nobody may touch is, so that a read or a write past a length ends the program; the library itself is compiled without a sanitizer,
 * which would not see it. A refused call has to leave each buffer as it was, and a call that is done has to have been lent what it
 * asks for. It is built by the machine's cc, with AddressSanitizer where that is there (tools/sqlite_test).
 *
 *     lengths SEED TURNS     says how many calls were made, and how many of them were done
 *     lengths beyond         touches such a page, and has to be ended for it
 */
#include "fascjoldi.h"
#include <stdbool.h>
#include <stdio.h>
#include <stdlib.h>
#include <string.h>
#include <sys/mman.h>
#include <unistd.h>

enum { BUFFERS = 6, ROOM = 2200000, BLOCK = 1024, NUMBERS_MOST = 22 };

/* ---- what is thrown */

static uint64_t state;

static uint64_t thrown(void)
{
    state ^= state << 13;
    state ^= state >> 7;
    state ^= state << 17;
    return state * 2685821657736338717u;
}

static size_t below(size_t n)
{
    return (size_t)(thrown() >> 11) % n;
}

/* A length: mostly the right one, else one near it or a short one. */
static size_t some_length(size_t right, size_t most)
{
    size_t length = right;
    switch (below(8)) {
    case 0: length = right + 1; break;
    case 1: length = right == 0 ? 0 : right - 1; break;
    case 2: length = below(40); break;
    case 3: length = below(right + 9); break;
    default: break;
    }
    return length < most ? length : most;
}

static size_t some_width(size_t bits)
{
    switch (below(8)) {
    case 0: return bits + below(4);
    case 1: return (size_t)thrown();
    case 2: return 0;
    default: return below(bits + 1);
    }
}

/* ---- the buffers */

struct buffer {
    uint8_t *pages;
    size_t size;   /* of what may be touched */
    uint8_t *at;
    size_t bytes;  /* that are lent */
    uint8_t *copy; /* of these, as they were */
};

static struct buffer buffers[BUFFERS];
static size_t used;

static void make_buffers(void)
{
    size_t page = (size_t)sysconf(_SC_PAGESIZE), size = (ROOM + page - 1) / page * page;
    for (size_t i = 0; i < BUFFERS; i++) {
        uint8_t *all = mmap(NULL, size + 2 * page, PROT_NONE, MAP_PRIVATE | MAP_ANONYMOUS, -1, 0);
        buffers[i] = (struct buffer){.pages = all + page, .size = size, .copy = malloc(size)};
        if (all == MAP_FAILED || mprotect(all + page, size, PROT_READ | PROT_WRITE) != 0 || buffers[i].copy == NULL) {
            fputs("lengths: no memory\n", stderr);
            exit(2);
        }
    }
}

/* A buffer of so many bytes, filled with what is thrown; it stands at one end of its pages. A multiple of eight bytes from either end
   is aligned for every type. */
static void *lent(size_t count, size_t each)
{
    struct buffer *buffer = &buffers[used++];
    buffer->bytes = count * each;
    buffer->at = below(2) == 0 ? buffer->pages : buffer->pages + buffer->size - buffer->bytes;
    for (size_t i = 0; i < buffer->bytes; i++)
        buffer->at[i] = (uint8_t)(thrown() >> 32);
    return buffer->at;
}

static void keep(void)
{
    for (size_t i = 0; i < used; i++)
        memcpy(buffers[i].copy, buffers[i].at, buffers[i].bytes);
}

static bool are_kept(void)
{
    for (size_t i = 0; i < used; i++)
        if (memcmp(buffers[i].copy, buffers[i].at, buffers[i].bytes) != 0)
            return false;
    return true;
}

/* ---- the counting */

static uint64_t calls, done, wrong;
static const char *name;

static void expect(bool good, const char *what)
{
    if (good)
        return;
    wrong++;
    printf("lengths: %s: %s\n", name, what);
}

/* After a call with an answer: it was done, and what it asks for was right; or it was refused, and nothing is changed. */
static void answered(size_t number, bool right)
{
    calls++;
    done += number == FASCJOLDI_DONE;
    expect(number <= NUMBERS_MOST, "there is no such number");
    if (number == FASCJOLDI_DONE)
        expect(right, "done, and a length is not right");
    else
        expect(are_kept(), "refused, and a buffer is changed");
    used = 0;
}

/* After a call that gives something else, and writes to no buffer. */
static void given(void)
{
    calls++;
    done++;
    expect(are_kept(), "a buffer is changed");
    used = 0;
}

/* ---- the calls on blocks */

#define ON_BLOCKS(T, type)                                                                                                       \
    static void on_blocks_##T(unsigned which)                                                                                    \
    {                                                                                                                            \
        size_t width = some_width(T), lanes = BLOCK / T, place, answer, blocks = 1 + below(3);                                   \
        size_t right = width > T ? lanes * T : lanes * width;                                                                    \
        size_t v = some_length(BLOCK, 4000), p = some_length(right, 9000), b = some_length(lanes, 2000), o, n, i;                \
        type *values, *packed, *base, *output, value;                                                                            \
        size_t *places;                                                                                                          \
        uint16_t *indices;                                                                                                       \
        uint64_t words;                                                                                                          \
        switch (which) {                                                                                                         \
        case 0:                                                                                                                  \
            name = "pack_u" #T;                                                                                                  \
            values = lent(v, sizeof(type)), packed = lent(p, sizeof(type)), keep();                                              \
            answer = fascjoldi_pack_u##T(width, values, v, packed, p, &place);                                                   \
            answered(answer, width <= T && v == BLOCK && p == right);                                                            \
            break;                                                                                                               \
        case 1:                                                                                                                  \
            name = "unpack_u" #T;                                                                                                \
            packed = lent(p, sizeof(type)), values = lent(v, sizeof(type)), keep();                                              \
            answer = fascjoldi_unpack_u##T(width, packed, p, values, v, &place);                                                 \
            answered(answer, width <= T && v == BLOCK && p == right);                                                            \
            break;                                                                                                               \
        case 2:                                                                                                                  \
            name = "unpack_single_u" #T;                                                                                         \
            packed = lent(p, sizeof(type)), i = some_length(1023, 1 << 20), keep();                                              \
            answer = fascjoldi_unpack_single_u##T(width, packed, p, i, &value, &words, &place);                                  \
            answered(answer, width <= T && p == right && i < BLOCK);                                                             \
            break;                                                                                                               \
        case 3:                                                                                                                  \
        case 4:                                                                                                                  \
            n = below(1200), o = some_length(n, 2000);                                                                           \
            packed = lent(p, sizeof(type)), places = lent(n, sizeof(size_t)), output = lent(o, sizeof(type));                    \
            for (i = 0; i < n; i++)                                                                                              \
                places[i] %= below(2000) == 0 ? 1025 : BLOCK;                                                                    \
            keep();                                                                                                              \
            if (which == 3) {                                                                                                    \
                name = "unpack_indices_u" #T;                                                                                    \
                answer = fascjoldi_unpack_indices_u##T(width, packed, p, places, n, output, o, &words, &place);                  \
            } else {                                                                                                             \
                name = "unpack_within_u" #T;                                                                                     \
                size_t so_many;                                                                                                  \
                answer =                                                                                                         \
                    fascjoldi_unpack_within_u##T(width, packed, p, places, n, below(900), output, o, &so_many, &words, &place);  \
                expect(so_many <= n, "more are answered than there are");                                                        \
            }                                                                                                                    \
            answered(answer, width <= T && p == right && n == o);                                                                \
            break;                                                                                                               \
        case 5:                                                                                                                  \
        case 6:                                                                                                                  \
            n = some_length(BLOCK, 4000);                                                                                        \
            values = lent(n, sizeof(type)), base = lent(b, sizeof(type)), output = lent(v, sizeof(type)), keep();                \
            name = which == 5 ? "delta_u" #T : "undelta_u" #T;                                                                   \
            answer = which == 5 ? fascjoldi_delta_u##T(values, n, base, b, output, v, &place)                                    \
                                : fascjoldi_undelta_u##T(values, n, base, b, output, v, &place);                                 \
            answered(answer, n == BLOCK && b == lanes && v == BLOCK);                                                            \
            break;                                                                                                               \
        case 7:                                                                                                                  \
            name = "undelta_pack_u" #T;                                                                                          \
            packed = lent(p, sizeof(type)), base = lent(b, sizeof(type)), values = lent(v, sizeof(type)), keep();                \
            answer = fascjoldi_undelta_pack_u##T(width, packed, p, base, b, values, v, &place);                                  \
            answered(answer, width <= T && p == right && b == lanes && v == BLOCK);                                              \
            break;                                                                                                               \
        case 8:                                                                                                                  \
            name = "for_pack_u" #T;                                                                                              \
            values = lent(v, sizeof(type)), packed = lent(p, sizeof(type)), keep();                                              \
            answer = fascjoldi_for_pack_u##T(width, values, v, (type)thrown(), packed, p, &place);                               \
            answered(answer, width <= T && v == BLOCK && p == right);                                                            \
            break;                                                                                                               \
        case 9:                                                                                                                  \
            name = "unfor_pack_u" #T;                                                                                            \
            packed = lent(p, sizeof(type)), values = lent(v, sizeof(type)), keep();                                              \
            answer = fascjoldi_unfor_pack_u##T(width, packed, p, (type)thrown(), values, v, &place);                             \
            answered(answer, width <= T && v == BLOCK && p == right);                                                            \
            break;                                                                                                               \
        case 10:                                                                                                                 \
        case 11:                                                                                                                 \
            v = some_length(blocks * BLOCK, 9000), p = some_length(blocks * right, 27000);                                       \
            n = below(20) == 0 ? (size_t)thrown() : blocks;                                                                      \
            packed = lent(p, sizeof(type)), values = lent(v, sizeof(type)), keep();                                              \
            name = which == 10 ? "unpack_blocks_u" #T : "for_pack_blocks_u" #T;                                                  \
            answer = which == 10 ? fascjoldi_unpack_blocks_u##T(width, n, packed, p, values, v, &place)                          \
                                 : fascjoldi_for_pack_blocks_u##T(width, n, values, v, (type)thrown(), packed, p, &place);       \
            answered(answer, width <= T && n == blocks && v == n * BLOCK && p == n * right);                                     \
            break;                                                                                                               \
        case 12:                                                                                                                 \
            name = "decode_u" #T;                                                                                                \
            n = 1 + below(300), o = some_length(BLOCK, 4000);                                                                    \
            values = lent(n, sizeof(type)), indices = lent(o, sizeof(uint16_t)), output = lent(v, sizeof(type));                 \
            for (i = 0; i < o; i++)                                                                                              \
                indices[i] = (uint16_t)(indices[i] % (below(3000) == 0 ? n + 1 : n));                                            \
            keep();                                                                                                              \
            answer = fascjoldi_decode_u##T(values, n, indices, o, output, v, &place);                                            \
            answered(answer, o == BLOCK && v == BLOCK);                                                                          \
            break;                                                                                                               \
        case 13:                                                                                                                 \
        case 14:                                                                                                                 \
            o = some_length(BLOCK, 4000);                                                                                        \
            values = lent(v, sizeof(type)), output = lent(o, sizeof(type)), keep();                                              \
            name = which == 13 ? "transpose_u" #T : "untranspose_u" #T;                                                          \
            answer = which == 13 ? fascjoldi_transpose_u##T(values, v, output, o, &place)                                        \
                                 : fascjoldi_untranspose_u##T(values, v, output, o, &place);                                     \
            answered(answer, v == BLOCK && o == BLOCK);                                                                          \
            break;                                                                                                               \
        default:                                                                                                                 \
            name = "transpose_bits_u" #T;                                                                                        \
            fascjoldi_transpose_bits_u##T(lent(16, 8), lent(16, 8));                                                             \
            fascjoldi_untranspose_bits_u64(lent(16, 8), lent(16, 8));                                                            \
            fascjoldi_words_at_u##T(width, some_length(1023, 1 << 20));                                                          \
            used = 0, calls += 3, done += 3;                                                                                     \
        }                                                                                                                        \
    }
enum { ON_BLOCKS_MOST = 16 };

ON_BLOCKS(8, uint8_t)
ON_BLOCKS(16, uint16_t)
ON_BLOCKS(32, uint32_t)
ON_BLOCKS(64, uint64_t)

/* ---- the calls on files */

/* Numbers of a few blocks, narrow or wide, rising or not. */
static void some_numbers(uint64_t *values, size_t count)
{
    uint64_t from = below(2) == 0 ? 0 : thrown(), mask = ((uint64_t)2 << below(64)) - 1;
    bool rises = below(2) == 0;
    for (size_t i = 0; i < count; i++)
        values[i] = from + (rises ? i * (mask & 7) : thrown() & mask);
}

/* A file in a lent buffer: mostly one that was written, then often with a byte changed, cut or made longer; else just bytes. */
static uint8_t *some_file(size_t *length)
{
    static uint64_t values[5 * BLOCK];
    static uint8_t made[4 + 5 * 8224 + 64];
    size_t blocks = below(6), place;
    if (below(10) == 0) {
        *length = below(300);
        return lent(*length, 1);
    }
    some_numbers(values, blocks * BLOCK);
    fascjoldi_file_write(values, blocks * BLOCK, made, sizeof(made), length, &place);
    size_t written = *length;
    switch (below(4)) {
    case 0: *length = below(written + 1); break;
    case 1: *length = written + 1 + below(60); break;
    case 2: made[below(2) == 0 ? below(written) : below(written < 40 ? written : 40)] = (uint8_t)thrown(); break;
    default: break;
    }
    uint8_t *file = lent(*length, 1);
    memcpy(file, made, *length < written ? *length : written);
    return file;
}

static void on_files(unsigned which)
{
    size_t length, place, answer, out = some_length(BLOCK, 4000), found, opened, number, start, so_long, a, b;
    uint64_t *numbers, value, words, smallest, largest;
    uint8_t *file, *output, *other, kind, width;
    uint16_t zero, *places;
    uint32_t body;
    switch (which) {
    case 0:
        name = "file_write";
        length = some_length(below(5) * BLOCK, 6000);
        out = some_length(4 + length / BLOCK * 8224, ROOM);
        numbers = lent(length, 8), output = lent(out, 1);
        some_numbers(numbers, length), keep();
        answer = fascjoldi_file_write(numbers, length, output, out, &so_long, &place);
        answered(answer, length % BLOCK == 0 && so_long <= out);
        break;
    case 1:
        name = "file_check";
        file = some_file(&length), keep();
        answered(fascjoldi_file_check(file, length, &place), true);
        break;
    case 2:
        name = "file_check_canonical";
        file = some_file(&length), keep();
        answered(fascjoldi_file_check_canonical(file, length, &place), true);
        break;
    case 3:
        name = "file_block_out";
        file = some_file(&length), numbers = lent(out, 8), keep();
        answered(fascjoldi_file_block_out(file, length, below(7), numbers, out, &place), out == BLOCK);
        break;
    case 4:
        name = "file_row_at";
        file = some_file(&length), keep();
        answered(fascjoldi_file_row_at(file, length, below(8) == 0 ? (size_t)thrown() : below(6000), &value, &words, &place), true);
        break;
    case 5:
        name = "file_rewrite";
        out = below(2) == 0 ? 4 + 5 * 8224 : below(3000);
        file = some_file(&length), output = lent(out, 1), keep();
        answer = fascjoldi_file_rewrite(file, length, output, out, &so_long, &place);
        answered(answer, so_long <= out);
        break;
    case 6:
        name = "file_search";
        out = below(2) == 0 ? 5 * BLOCK : below(40);
        file = some_file(&length), numbers = lent(out, 8), keep();
        answer = fascjoldi_file_search(file, length, thrown() >> below(64), thrown() >> below(64), numbers, out, &found, &opened, &place);
        answered(answer, found <= out);
        break;
    case 7:
        name = "front";
        file = some_file(&length), keep();
        number = below(7);
        fascjoldi_front_length(file, length);
        fascjoldi_front_edition(file, length);
        fascjoldi_front_count(file, length);
        fascjoldi_front_row_count(file, length);
        fascjoldi_front_contents_length(file, length);
        fascjoldi_front_entry(file, length, number, &kind, &width, &zero, &body, &value);
        fascjoldi_front_range(file, length, number, &smallest, &largest);
        fascjoldi_body_first(file, length, &number, &start, &body);
        for (unsigned i = 0; i < 7; i++)
            fascjoldi_body_next(file, length, &number, &start, &body);
        fascjoldi_search_opens(file, length, below(300), thrown(), thrown());
        given();
        break;
    case 8:
        name = "front_check";
        file = some_file(&length), keep();
        answered(fascjoldi_front_check(file, length, below(2) == 0 ? length : (size_t)thrown() >> below(64), &place), true);
        break;
    case 9:
        name = "two fronts";
        file = some_file(&length), other = some_file(&so_long), keep();
        fascjoldi_front_same_range(file, length, other, so_long, below(7));
        fascjoldi_front_blocks_in_both(file, length, other, so_long);
        given();
        break;
    case 10:
        name = "body_block_out";
        file = some_file(&length);
        number = below(6);
        fascjoldi_front_entry(file, length, number, &kind, &width, &zero, &body, &value);
        so_long = some_length(body < 20000 ? body : 20000, 20000);
        output = lent(so_long, 1), numbers = lent(out, 8), keep();
        answered(fascjoldi_body_block_out(file, length, number, output, so_long, numbers, out, &place), out == BLOCK);
        break;
    case 11:
        name = "body_check_range";
        file = some_file(&length), numbers = lent(out, 8), keep();
        answered(fascjoldi_body_check_range(file, length, below(6), numbers, out, &place), true);
        break;
    case 12:
        name = "search_rows";
        so_long = below(2) == 0 ? BLOCK : below(1100);
        numbers = lent(out, 8);
        some_numbers(numbers, out);
        uint64_t *rows = lent(so_long, 8);
        keep();
        answer = fascjoldi_search_rows(
            numbers, out, below(300), thrown() >> below(64), thrown() >> below(64), rows, so_long, &found, &opened, &place);
        answered(answer, out == BLOCK && found <= so_long);
        break;
    case 13:
        name = "block_differing";
        a = some_length(BLOCK, 4000), b = some_length(BLOCK, 4000);
        numbers = lent(a, 8), places = lent(out, 2);
        uint64_t *right = lent(b, 8);
        keep();
        answered(fascjoldi_block_differing(numbers, a, right, b, places, out, &found, &place), a == BLOCK && b == BLOCK && out == BLOCK);
        break;
    case 14:
        name = "trickle";
        a = some_width(64), b = some_length(128 * (a <= 64 ? a : 64), 9000);
        uint8_t *room = lent(8192, 1), *chunk = lent(some_length(b, 9000), 1);
        so_long = buffers[used - 1].bytes, numbers = lent(out, 8), keep();
        size_t wide, held;
        answer = fascjoldi_trickle_start(a, &wide, &held, room, &place);
        expect(answer == FASCJOLDI_DONE || a > 64, "a start is refused");
        /* Sometimes a state that no call has left. */
        if (below(4) == 0)
            wide = some_width(64), held = below(9000);
        expect(fascjoldi_trickle_feed(&wide, &held, room, chunk, so_long) <= so_long, "more is taken than is fed");
        keep();
        answered(fascjoldi_trickle_ask(wide, held, room, numbers, out, &place), out == BLOCK);
        break;
    case 15:
        name = "decimal";
        a = below(30);
        output = lent(a, 1);
        for (size_t i = 0; i < a && below(5) != 0; i++)
            output[i] = (uint8_t)('0' + output[i] % 10);
        keep();
        fascjoldi_decimal_parse(output, a, &value, &place);
        given();
        b = below(25);
        output = lent(b, 1);
        expect(fascjoldi_decimal_lay(thrown() >> below(64), output, b) <= b, "more digits than there is room");
        used = 0;
        break;
    case 16:
        name = "summary";
        file = some_file(&length), numbers = lent(out, 8), keep();
        fascjoldi_summary_of_block(file, length, below(6), numbers, out, &kind, &width, &body, &value, &smallest, &largest);
        fascjoldi_summary_thousandths((uint32_t)thrown(), (uint32_t)below(5));
        fascjoldi_summary_marks((uint8_t)thrown());
        fascjoldi_summary_place_in(thrown() >> below(64), below(300));
        given();
        break;
    case 17:
        name = "file_row_from";
        file = some_file(&length), keep();
        fascjoldi_body_first(file, fascjoldi_front_length(file, length) < length ? fascjoldi_front_length(file, length) : length, &number,
            &start, &body);
        a = below(4) == 0 ? below(7) : number, b = below(4) == 0 ? (size_t)thrown() >> below(64) : start;
        answered(fascjoldi_file_row_from(file, length, a, b, below(4) == 0 ? (size_t)thrown() : below(1100), &value, &words, &place), true);
        break;
    case 18:
        name = "file_renumber";
        a = below(40), b = some_length(a, 60), so_long = some_length(a, 60);
        out = below(2) == 0 ? 4 + 5 * 8224 : below(3000);
        file = some_file(&length);
        uint64_t *olds = lent(a, 8), *news = lent(b, 8), *order = lent(so_long, 8);
        output = lent(out, 1);
        /* Mostly lists that rise, so that the call looks at the rows. */
        for (size_t i = 0; i < a && below(100) != 0; i++)
            olds[i] = i == 0 ? below(50) : olds[i - 1] + 1 + below(9);
        for (size_t i = 0; i < b && below(100) != 0; i++)
            news[i] = ((uint64_t)1 << 40) + 3 * i + below(2);
        for (size_t i = 0; i < so_long && below(100) != 0; i++)
            order[i] = i;
        keep();
        number = a == b && b == so_long;
        answer = fascjoldi_file_renumber(
            file, length, olds, a, news, b, order, so_long, output, out, &found, &opened, &place);
        answered(answer, number == 1 && found <= out);
        break;
    default:
        name = "listing";
        uint64_t *machine = lent(8, 8);
        size_t side, part;
        if (below(2) == 0)
            fascjoldi_listing_start(below(9000), below(9000), machine, &side, &part, &start, &so_long);
        uint8_t *left = some_file(&length);
        uint8_t *second = some_file(&a);
        output = lent(below(3) == 0 ? below(70000) : FASCJOLDI_OUTPUT_ROOM, 1);
        for (unsigned i = 0; i < 6; i++)
            fascjoldi_listing_next(machine, left, length < 8196 ? length : 8196, second, a < 8196 ? a : 8196, left,
                length < 10240 ? length : 10240, second, a < 10240 ? a : 10240, output, buffers[used - 1].bytes, &side, &part, &start,
                &so_long);
        used = 0, calls += 6, done += 6;
    }
}
enum { ON_FILES_MOST = 20 };

int main(int count, char **words)
{
    make_buffers();
    if (count == 2 && strcmp(words[1], "beyond") == 0) {
        uint8_t *at = lent(100, 1);
        volatile uint8_t *beyond = at == buffers[0].pages ? at - 1 : at + 100;
        return *beyond == 7 ? 3 : 4;
    }
    if (count != 3)
        return 2;
    state = strtoull(words[1], NULL, 10) * 2654435761u + 88172645463325252u;
    for (long turns = strtol(words[2], NULL, 10); turns > 0; turns--) {
        unsigned which = (unsigned)below(ON_BLOCKS_MOST);
        switch (below(5)) {
        case 0: on_blocks_8(which); break;
        case 1: on_blocks_16(which); break;
        case 2: on_blocks_32(which); break;
        case 3: on_blocks_64(which); break;
        default: on_files((unsigned)below(ON_FILES_MOST));
        }
    }
    printf("lengths: %llu calls, %llu done, %llu wrong\n", (unsigned long long)calls, (unsigned long long)done, (unsigned long long)wrong);
    return wrong != 0;
}
