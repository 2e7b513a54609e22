/*
 * Makes calls of the archive again and again, so that tools/cost can count the instructions of one.
 *
 * On standard input stand requests, each of eight numbers of two bytes, the lowest byte first. For each the call is made once and then
 * `turns` times more, between two calls of `mark`, where a counter can take the count; what the call needs is laid down before. Then a
 * line is printed, `answers A`: 0 where every call was done, and gave what is known of it here.
 *
 * The calls are numbered as in docs/CASES.md. Further numbers are listed below: whole jobs, steps on one body, and a turn that makes no
 * call.
 */
#include "fascjoldi.h"
#include "out.h"

struct request {
    uint16_t op;
    uint16_t t;       /* the element size, for the calls that are there at four */
    uint16_t width;   /* the width; of a block of kind 3 how many run values there are */
    uint16_t kind;    /* of a file: the kind of its blocks */
    uint16_t edition; /* of a file */
    uint16_t blocks;  /* of a file and of a drawer; all blocks are the same */
    uint16_t chunk;   /* the bytes of a feed; 0 asks for the values of a body that is all there */
    uint16_t turns;
};

enum {
    FRONT_CHECK = 200, /* the contents checked */
    PASS = 201,        /* the file checked, and then each block laid down by its body */
    RECALL = 202,      /* the last row of a file that was checked before, out of its block laid down by its body */
    ROW = 203,         /* one row after another of the last block of a file that was checked before, looked up in its body */
    FIND_ALL = 204,    /* a search that finds every row of the file */
    FIND_HALF = 205,   /* a search that finds about half of the rows of each block */
    APART = 206,       /* a renumbering by pairs that no block's range meets */
    MET = 207,         /* one by pairs that every block's range meets and no row has, so that every row is looked up */
    CHANGED = 208,     /* one that changes every row */
    NO_CALL = 255,
    BLOCK = 1024,
    DRAWER = 16,
    MOST = 256,
    PAIRS = 1000,
    SPREAD = 131072, /* a block of kind 0 or 1 has numbers from its smallest on, less than so many */
    APART_BY = 130,  /* from one pair to the next, so that 1,000 are below the block's largest */
    FIRST = 5, /* the first value of a block, and the reference */
    STEP = 37  /* from each value to the next, modulo 256 */
};

/* The calls at one element size, on values that are filled here. A place of a single access is another at each turn. */
static size_t places[BLOCK];
static uint16_t entries[BLOCK];

#define AT_SIZE(u, element, T)                                                                                              \
    static element in_##u[DRAWER * BLOCK], out_##u[DRAWER * BLOCK];                                                         \
    static void fill_##u(void)                                                                                              \
    {                                                                                                                       \
        for (size_t i = 0; i < DRAWER * BLOCK; i++) {                                                                       \
            in_##u[i] = (uint8_t)(FIRST + STEP * i);                                                                        \
        }                                                                                                                   \
    }                                                                                                                       \
    static size_t call_##u(const struct request *r, size_t turn)                                                            \
    {                                                                                                                       \
        enum { LANES = BLOCK / T };                                                                                         \
        const size_t width = r->width, words = LANES * width, blocks = r->blocks;                                           \
        size_t place, answered;                                                                                             \
        uint64_t count;                                                                                                     \
        switch (r->op) {                                                                                                    \
        case 0: return fascjoldi_pack_##u(width, in_##u, BLOCK, out_##u, words, &place);                                    \
        case 1: return fascjoldi_unpack_##u(width, in_##u, words, out_##u, BLOCK, &place);                                  \
        case 2: return fascjoldi_unpack_single_##u(width, in_##u, words, turn % BLOCK, out_##u, &count, &place);            \
        case 3:                                                                                                             \
            return fascjoldi_unpack_indices_##u(width, in_##u, words, places, BLOCK, out_##u, BLOCK, &count, &place);       \
        case 4: return fascjoldi_delta_##u(in_##u, BLOCK, in_##u, LANES, out_##u, BLOCK, &place);                           \
        case 5: return fascjoldi_undelta_##u(in_##u, BLOCK, in_##u, LANES, out_##u, BLOCK, &place);                         \
        case 6: return fascjoldi_undelta_pack_##u(width, in_##u, words, in_##u, LANES, out_##u, BLOCK, &place);             \
        case 7: return fascjoldi_for_pack_##u(width, in_##u, BLOCK, FIRST, out_##u, words, &place);                         \
        case 8: return fascjoldi_unfor_pack_##u(width, in_##u, words, FIRST, out_##u, BLOCK, &place);                       \
        case 10: return fascjoldi_decode_##u(in_##u, BLOCK, entries, BLOCK, out_##u, BLOCK, &place);                        \
        case 11: return fascjoldi_transpose_##u(in_##u, BLOCK, out_##u, BLOCK, &place);                                     \
        case 12: return fascjoldi_untranspose_##u(in_##u, BLOCK, out_##u, BLOCK, &place);                                   \
        case 13: fascjoldi_transpose_bits_##u(in_u64, out_u64); return 0;                                                   \
        case 14: fascjoldi_untranspose_bits_u64(in_u64, out_u64); return 0;                                                 \
        case 23:                                                                                                            \
            return fascjoldi_unpack_within_##u(                                                                             \
                width, in_##u, words, places, BLOCK, 2 * BLOCK, out_##u, BLOCK, &answered, &count, &place);                 \
        case 24:                                                                                                            \
            return fascjoldi_unpack_blocks_##u(width, blocks, in_##u, blocks * words, out_##u, blocks * BLOCK, &place);     \
        case 25:                                                                                                            \
            return fascjoldi_for_pack_blocks_##u(                                                                           \
                width, blocks, in_##u, blocks * BLOCK, FIRST, out_##u, blocks * words, &place);                             \
        case NO_CALL: return 0;                                                                                             \
        default: return 1;                                                                                                  \
        }                                                                                                                   \
    }

AT_SIZE(u64, uint64_t, 64)
AT_SIZE(u32, uint32_t, 32)
AT_SIZE(u16, uint16_t, 16)
AT_SIZE(u8, uint8_t, 8)

/* A column file, the values that it holds, and room for what is made of it; and where its last body begins, and its first row. */
static uint64_t values[MOST * BLOCK], rows[MOST * BLOCK];
static uint8_t file[MOST * 2400 + 8196], made[sizeof file];
static size_t file_length, front_length, last_start, last_row;

/* A block for which the writer chooses the kind, at width 17: numbers that go up and down, with 0 among them; the same numbers far above
   0; or lanes that rise by one and the same number. */
static void fill_block(const struct request *r)
{
    size_t place;
    for (size_t i = 0; i < BLOCK; i++) {
        values[i] = r->kind == 2 ? 100000 : (r->kind == 1 ? 0x10000000000 : 0) + (r->width == 0 ? 0 : 40503 * i % 131072);
        out_u64[i] = 0;
    }
    if (r->kind == 2) {
        fascjoldi_undelta_u64(values, BLOCK, out_u64, 16, rows, BLOCK, &place);
        memcpy(values, rows, BLOCK * sizeof rows[0]);
    }
}

/* Lays down the file of one block: as it is written, or in edition 1 without its smallest and largest number; of kind 3 by hand, all
   of zeros but its entry. Gives its length, 0 where it is not the file that was asked for. */
static size_t file_of_one(const struct request *r)
{
    size_t length = 0, place, body = 2 * BLOCK + 8 * (size_t)r->width;
    memset(made, 0, sizeof made);
    if (r->kind == 3) {
        made[0] = 1, made[2] = 1, made[4] = 3;
        made[8] = (uint8_t)body, made[9] = (uint8_t)(body >> 8);
        return 20 + body;
    }
    fill_block(r);
    if (fascjoldi_file_write(values, BLOCK, made, sizeof made, &length, &place) != 0 || made[4] != r->kind || made[5] != r->width) {
        return 0;
    }
    if (r->edition == 1) {
        length -= 16;
        for (size_t i = 20; i < length; i++) {
            made[i] = made[i + 16];
        }
        made[0] = 1;
    }
    return length;
}

/* The pairs of a renumbering, rising by the old and by the new number, so that the order is that of the places. */
static uint64_t old_numbers[BLOCK], new_numbers[BLOCK], order[BLOCK];
static size_t pairs;

/* The lowest number from `at` on that no row of the block has; `is_held` says which those are, counted from its smallest. */
static size_t next_free(const uint8_t *is_held, size_t at)
{
    while (is_held[at % SPREAD]) {
        at++;
    }
    return at;
}

/* Chooses the pairs: far above every row; between the smallest and the largest of a block; or every number of a block, with a new one far above. */
static void choose_pairs(const struct request *r)
{
    static uint8_t is_held[SPREAD];
    const uint64_t smallest = values[0], above = (uint64_t)1 << 62;
    memset(is_held, 0, sizeof is_held);
    for (size_t i = 0; i < BLOCK; i++) {
        is_held[(values[i] - smallest) % SPREAD] = 1;
        order[i] = i;
    }
    pairs = r->op == CHANGED ? 0 : PAIRS;
    for (size_t i = 0; i < pairs; i++) {
        const size_t at = i * APART_BY;
        old_numbers[i] = r->op == APART ? above + i : smallest + next_free(is_held, at);
        new_numbers[i] = r->op == APART ? above + PAIRS + i : smallest + next_free(is_held, at + APART_BY / 2);
    }
    for (size_t at = 0; r->op == CHANGED && at < SPREAD; at++) {
        if (is_held[at]) {
            old_numbers[pairs] = smallest + at, new_numbers[pairs] = above + at, pairs++;
        }
    }
}

/* Lays down the file of so many such blocks. */
static int fill_file(const struct request *r)
{
    const size_t entry = r->edition == 1 ? 16 : 32, blocks = r->blocks, one = file_of_one(r);
    if (one == 0) {
        return 0;
    }
    const size_t body = one - entry - 4;
    file[0] = (uint8_t)r->edition, file[1] = 0, file[2] = (uint8_t)blocks, file[3] = (uint8_t)(blocks >> 8);
    for (size_t i = 0; i < blocks; i++) {
        memcpy(file + 4 + i * entry, made + 4, entry);
        memcpy(file + 4 + blocks * entry + i * body, made + 4 + entry, body);
        if (i != 0) {
            memcpy(values + i * BLOCK, values, BLOCK * sizeof values[0]);
        }
    }
    choose_pairs(r);
    front_length = 4 + blocks * entry;
    file_length = front_length + blocks * body;
    last_start = file_length - (blocks == 0 ? 0 : body), last_row = (blocks == 0 ? 0 : blocks - 1) * BLOCK;
    return 1;
}

/* The block by its body, which begins at `start`. */
static size_t by_body(size_t block, size_t start, size_t length)
{
    size_t place;
    return fascjoldi_body_block_out(file, front_length, block, file + start, length, out_u64, BLOCK, &place);
}

static size_t pass(void)
{
    size_t number, start, place, answers = fascjoldi_file_check(file, file_length, &place);
    const size_t blocks = fascjoldi_front_count(file, front_length);
    uint32_t length;
    fascjoldi_body_first(file, front_length, &number, &start, &length);
    while (number < blocks) {
        answers += by_body(number, start, length);
        fascjoldi_body_next(file, front_length, &number, &start, &length);
    }
    return answers;
}

/* A search between two numbers, which finds at least so many rows. */
static size_t find(uint64_t low, uint64_t high, size_t least)
{
    size_t found, opened, place;
    size_t answer = fascjoldi_file_search(file, file_length, low, high, rows, MOST * BLOCK, &found, &opened, &place);
    return answer + (found < least);
}

/* A renumbering by these pairs. */
static size_t renumber(const struct request *r)
{
    size_t length, changed, place, answer;
    answer = fascjoldi_file_renumber(
        file, file_length, old_numbers, pairs, new_numbers, pairs, order, pairs, made, sizeof made, &length, &changed, &place);
    return answer + (changed != (r->op == CHANGED ? (size_t)r->blocks * BLOCK : 0));
}

/* The calls on a file. A search is for all numbers, and finds the rows of the one block; where there are none or more, it is for a number that
   no block has. What is known of a result is held to it: 1 is added to the answer where it differs. */
static size_t call_file(const struct request *r, size_t turn)
{
    const size_t blocks = r->blocks, body = blocks == 0 ? 0 : (file_length - front_length) / blocks;
    const uint64_t high = blocks == 1 ? ~(uint64_t)0 : 0;
    size_t place, found, opened, answer;
    uint64_t value, count;
    (void)turn;
    switch (r->op) {
    case FRONT_CHECK: return fascjoldi_front_check(file, front_length, file_length, &place);
    case 16: return fascjoldi_file_check(file, file_length, &place);
    case 17: return fascjoldi_file_block_out(file, file_length, blocks - 1, out_u64, BLOCK, &place);
    case 18: return fascjoldi_file_row_at(file, file_length, blocks * BLOCK - 1, &value, &count, &place);
    case 19:
        answer = fascjoldi_file_write(values, blocks * BLOCK, made, file_length, &found, &place);
        return answer + (found != file_length);
    case 20:
        answer = fascjoldi_file_search(file, file_length, 0, high, rows, BLOCK, &found, &opened, &place);
        return answer + (found != (blocks == 1 ? BLOCK : 0));
    case 21: return fascjoldi_file_rewrite(file, file_length, made, sizeof made, &found, &place);
    case 22: return fascjoldi_file_check_canonical(file, file_length, &place);
    case APART:
    case MET:
    case CHANGED: return renumber(r);
    case PASS: return pass();
    case FIND_ALL: return find(0, ~(uint64_t)0, blocks * BLOCK);
    case FIND_HALF: return find(values[0] + 32768, values[0] + 98303, blocks * BLOCK / 3);
    case RECALL: return by_body(blocks - 1, file_length - body, body) + (out_u64[BLOCK - 1] != values[BLOCK - 1]);
    default: return 1;
    }
}

/* A row of the last block, another at each turn, by its body. */
static size_t call_row(const struct request *r, size_t turn)
{
    const size_t at = turn % BLOCK;
    uint64_t value, count;
    size_t place;
    const size_t answer = fascjoldi_file_row_from(file, file_length, r->blocks - 1u, last_start, last_row + at, &value, &count, &place);
    return answer + (value != values[at]);
}

/* The calls on a body that comes in chunks: a feed of zeros, or an ask. */
static size_t chunk_width, held;
static uint8_t room[8192], zeros[8192];

static int fill_room(const struct request *r)
{
    size_t place;
    return fascjoldi_trickle_start(r->width, &chunk_width, &held, room, &place) == 0
        && (r->chunk != 0 || fascjoldi_trickle_feed(&chunk_width, &held, room, zeros, sizeof zeros) == 128 * (size_t)r->width);
}

static size_t call_chunks(const struct request *r, size_t turn)
{
    size_t place;
    (void)turn;
    if (r->chunk == 0) {
        return fascjoldi_trickle_ask(chunk_width, held, room, out_u64, BLOCK, &place);
    }
    return fascjoldi_trickle_feed(&chunk_width, &held, room, zeros, r->chunk) != r->chunk;
}

typedef size_t turn_of(const struct request *, size_t);

/* What makes the calls of a request. */
static turn_of *choose(const struct request *r)
{
    if (r->op == ROW) {
        return call_row;
    }
    if (r->edition != 0) {
        return call_file;
    }
    if (r->op == 26) {
        return call_chunks;
    }
    return r->t == 8 ? call_u8 : r->t == 16 ? call_u16 : r->t == 32 ? call_u32 : call_u64;
}

/* Lays down what they need: 1 where that went well. */
static int prepare(const struct request *r)
{
    return r->edition != 0 ? fill_file(r) : r->op == 26 ? fill_room(r) : 1;
}

/* Where a counter takes the count. */
void mark(void);
__attribute__((noinline)) void mark(void)
{
    __asm__ volatile("" ::: "memory");
}

int main(void)
{
    struct request r;
    fill_u8();
    fill_u16();
    fill_u32();
    fill_u64();
    for (size_t i = 0; i < BLOCK; i++) {
        places[i] = (FIRST + 389 * i) % BLOCK;
        entries[i] = in_u8[i];
    }
    while (read(0, &r, sizeof r) == (long)sizeof r) {
        size_t answers = !prepare(&r), turns = r.turns;
        turn_of *const call = choose(&r);
        mark();
        for (size_t turn = 0; turn <= turns; turn++) {
            answers += call(&r, turn);
        }
        mark();
        put_line("answers ", answers);
    }
    return 0;
}
