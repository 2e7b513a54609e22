/*
 * Replays a case stream through the C interface: reads it on standard input, makes each call, compares number, place, value and every
 * byte of each lent buffer with what the stream expects, and prints how many cases differ. docs/CASES.md has the format, and what is
 * printed. It takes the streams that the program replay takes.
 *
 * Calls 27 to 29 ask the plain engine, which the archive does not have. By R77 it answers as the main one does, so they are asked of that.
 * Each output stands between guards, which no call may touch.
 */
#include "fascjoldi.h"
#include "out.h"

enum { MOST = 2200000, GUARD = 64 };

/* A buffer of a case, with a guard on each side. */
struct buffer {
    uint64_t before[GUARD / 8];
    uint64_t elements[MOST / 8];
    uint64_t after[GUARD / 8];
};

static struct buffer a, b, c, c_exit, d, d_exit;

struct head {
    uint8_t op, t;
    uint16_t width;
    uint8_t number;
    uint64_t place, value, reference, index;
    size_t n_a, n_b, n_c, n_d;
};

/* What a call gave. */
struct reply {
    size_t number, place;
    uint64_t value, reference, index;
};

/* Reads so many bytes; how many there were. */
static size_t take(void *to, size_t count)
{
    size_t have = 0;
    while (have < count) {
        long got = read(0, (uint8_t *)to + have, count - have);
        if (got <= 0) {
            break;
        }
        have += (size_t)got;
    }
    return have;
}

static uint64_t little(const uint8_t *bytes, size_t count)
{
    uint64_t x = 0;
    while (count > 0) {
        count--;
        x = x << 8 | bytes[count];
    }
    return x;
}

static struct head head_of(const uint8_t *bytes)
{
    struct head h;
    h.op = bytes[0];
    h.t = bytes[1];
    h.width = (uint16_t)little(bytes + 2, 2);
    h.number = bytes[4];
    h.place = little(bytes + 8, 8);
    h.value = little(bytes + 16, 8);
    h.reference = little(bytes + 24, 8);
    h.index = little(bytes + 32, 8);
    h.n_a = little(bytes + 40, 4);
    h.n_b = little(bytes + 44, 4);
    h.n_c = little(bytes + 48, 4);
    h.n_d = little(bytes + 52, 4);
    return h;
}

/* The bytes of an element of a, of b and of c: t / 8, but where docs/CASES.md says otherwise. */
static size_t size_a(struct head h)
{
    switch (h.op) {
    case 13: case 14: return 8;
    case 16: case 17: case 18: case 20: case 21: case 22: case 26: case 30: case 31: return 1;
    default: return h.t / 8;
    }
}

static size_t size_b(struct head h)
{
    switch (h.op) {
    case 3: case 20: case 23: case 26: case 30: case 31: return 8;
    case 10: return 2;
    default: return h.t / 8;
    }
}

static size_t size_c(struct head h)
{
    switch (h.op) {
    case 13: case 14: return 8;
    case 19: case 21: case 31: return 1;
    default: return h.t / 8;
    }
}

static int read_buffer(struct buffer *to, size_t count, size_t size)
{
    memset(to->before, 0xA5, GUARD);
    if (count > MOST / size) {
        return 0;
    }
    memset((uint8_t *)to->elements + count * size, 0xA5, GUARD);
    return take(to->elements, count * size) == count * size;
}

/* Whether the output is as expected, and what stands around it as it was. */
static int same_buffers(const struct buffer *left, const struct buffer *right, size_t bytes)
{
    uint8_t guard[GUARD];
    memset(guard, 0xA5, GUARD);
    return memcmp(left->elements, right->elements, bytes) == 0 && memcmp(left->before, guard, GUARD) == 0
        && memcmp((const uint8_t *)left->elements + bytes, guard, GUARD) == 0;
}

/* The calls on blocks at one element size; 0 where there is no such call. */
#define AT_SIZE(u, element)                                                                                                             \
    static int call_##u(struct head h, struct reply *r)                                                                                 \
    {                                                                                                                                   \
        const element *in = (const element *)a.elements;                                                                                \
        const element *base = (const element *)b.elements;                                                                              \
        const size_t *places = (const size_t *)b.elements;                                                                              \
        const uint16_t *entries = (const uint16_t *)b.elements;                                                                         \
        element *out = (element *)c.elements;                                                                                           \
        element reference = (element)h.reference, value = 77;                                                                           \
        switch (h.op) {                                                                                                                 \
        case 0: case 27:                                                                                                                \
            r->number = fascjoldi_pack_##u(h.width, in, h.n_a, out, h.n_c, &r->place);                                                  \
            return 1;                                                                                                                   \
        case 1: case 28:                                                                                                                \
            r->number = fascjoldi_unpack_##u(h.width, in, h.n_a, out, h.n_c, &r->place);                                                \
            return 1;                                                                                                                   \
        case 2: case 29:                                                                                                                \
            r->number = fascjoldi_unpack_single_##u(h.width, in, h.n_a, h.index, &value, &r->reference, &r->place);                     \
            r->value = value;                                                                                                           \
            /* What is said of the place alone has to be the same; no stream expects this number. */                                    \
            if (r->number == 0 && r->reference != fascjoldi_words_at_##u(h.width, h.index)) {                                           \
                r->number = 99;                                                                                                         \
            }                                                                                                                           \
            return 1;                                                                                                                   \
        case 3:                                                                                                                         \
            r->number = fascjoldi_unpack_indices_##u(h.width, in, h.n_a, places, h.n_b, out, h.n_c, &r->value, &r->place);              \
            return 1;                                                                                                                   \
        case 4:                                                                                                                         \
            r->number = fascjoldi_delta_##u(in, h.n_a, base, h.n_b, out, h.n_c, &r->place);                                             \
            return 1;                                                                                                                   \
        case 5:                                                                                                                         \
            r->number = fascjoldi_undelta_##u(in, h.n_a, base, h.n_b, out, h.n_c, &r->place);                                           \
            return 1;                                                                                                                   \
        case 6:                                                                                                                         \
            r->number = fascjoldi_undelta_pack_##u(h.width, in, h.n_a, base, h.n_b, out, h.n_c, &r->place);                             \
            return 1;                                                                                                                   \
        case 7:                                                                                                                         \
            r->number = fascjoldi_for_pack_##u(h.width, in, h.n_a, reference, out, h.n_c, &r->place);                                   \
            return 1;                                                                                                                   \
        case 8:                                                                                                                         \
            r->number = fascjoldi_unfor_pack_##u(h.width, in, h.n_a, reference, out, h.n_c, &r->place);                                 \
            return 1;                                                                                                                   \
        case 10:                                                                                                                        \
            r->number = fascjoldi_decode_##u(in, h.n_a, entries, h.n_b, out, h.n_c, &r->place);                                         \
            return 1;                                                                                                                   \
        case 11:                                                                                                                        \
            r->number = fascjoldi_transpose_##u(in, h.n_a, out, h.n_c, &r->place);                                                      \
            return 1;                                                                                                                   \
        case 12:                                                                                                                        \
            r->number = fascjoldi_untranspose_##u(in, h.n_a, out, h.n_c, &r->place);                                                    \
            return 1;                                                                                                                   \
        case 13:                                                                                                                        \
            if (h.n_a != 16 || h.n_c != 16) {                                                                                           \
                return 0;                                                                                                               \
            }                                                                                                                           \
            r->number = r->place = 0;                                                                                                   \
            fascjoldi_transpose_bits_##u(a.elements, c.elements);                                                                       \
            return 1;                                                                                                                   \
        case 23:                                                                                                                        \
            r->number = fascjoldi_unpack_within_##u(                                                                                    \
                h.width, in, h.n_a, places, h.n_b, h.reference, out, h.n_c, &r->value, &r->index, &r->place);                           \
            return 1;                                                                                                                   \
        case 24:                                                                                                                        \
            r->number = fascjoldi_unpack_blocks_##u(h.width, h.index, in, h.n_a, out, h.n_c, &r->place);                                \
            return 1;                                                                                                                   \
        case 25:                                                                                                                        \
            r->number = fascjoldi_for_pack_blocks_##u(h.width, h.index, in, h.n_a, reference, out, h.n_c, &r->place);                   \
            return 1;                                                                                                                   \
        default:                                                                                                                        \
            return 0;                                                                                                                   \
        }                                                                                                                               \
    }

AT_SIZE(u8, uint8_t)
AT_SIZE(u16, uint16_t)
AT_SIZE(u32, uint32_t)
AT_SIZE(u64, uint64_t)

/* Feeds the bytes of a from a place on, in chunks of the lengths that b has, and asks; a chunk ends where the bytes end. */
static void fed(struct head h, size_t at, size_t width, size_t held, uint8_t room[8192], struct reply *r)
{
    const uint8_t *bytes = (const uint8_t *)a.elements;
    for (size_t i = 0; i < h.n_b; i++) {
        size_t count = b.elements[i] < h.n_a - at ? b.elements[i] : h.n_a - at;
        r->value += fascjoldi_trickle_feed(&width, &held, room, bytes + at, count);
        at += count;
    }
    r->number = fascjoldi_trickle_ask(width, held, room, c.elements, h.n_c, &r->place);
}

/* A body that comes in chunks: from its start, or from a state that is handed in. */
static int call_chunks(struct head h, struct reply *r)
{
    static uint8_t room[8192];
    size_t width = 77, held = 77;
    if (h.op == 30 && h.reference == 0) {
        if (h.n_a < sizeof room) {
            return 0;
        }
        memcpy(room, a.elements, sizeof room);
        fed(h, sizeof room, h.width, h.index, room, r);
        return 1;
    }
    r->number = fascjoldi_trickle_start(h.width, &width, &held, room, &r->place);
    if (h.op == 30 || r->number == 0) {
        fed(h, 0, width, held, room, r);
    }
    return 1;
}

/* A renumbering: b has the old numbers, the new ones and the order, one after another. */
static int call_renumber(struct head h, struct reply *r)
{
    size_t length = 77, changed = 77;
    if (h.t != 64 || h.reference > h.n_b || h.index > h.n_b - h.reference) {
        return 0;
    }
    const uint64_t *olds = b.elements;
    const uint64_t *news = olds + h.reference;
    const uint64_t *order = news + h.index;
    r->number = fascjoldi_file_renumber((const uint8_t *)a.elements, h.n_a, olds, h.reference, news, h.index, order,
        h.n_b - h.reference - h.index, (uint8_t *)c.elements, h.n_c, &length, &changed, &r->place);
    r->value = (uint64_t)length << 32 | changed;
    return 1;
}

/* The calls that are there for u64 alone, and those of every size; 0 where there is no such call. */
static int call(struct head h, struct reply *r)
{
    const uint8_t *file = (const uint8_t *)a.elements;
    uint8_t *bytes = (uint8_t *)c.elements;
    size_t opened = 77;
    switch (h.op) {
    case 14:
        if (h.t != 64 || h.n_a != 16 || h.n_c != 16) {
            return 0;
        }
        r->number = r->place = 0;
        fascjoldi_untranspose_bits_u64(a.elements, c.elements);
        return 1;
    case 16:
        r->number = fascjoldi_file_check(file, h.n_a, &r->place);
        return 1;
    case 17:
        r->number = fascjoldi_file_block_out(file, h.n_a, h.index, c.elements, h.n_c, &r->place);
        return 1;
    case 18:
        r->number = fascjoldi_file_row_at(file, h.n_a, h.index, &r->value, &r->reference, &r->place);
        return 1;
    case 19:
        r->number = fascjoldi_file_write(a.elements, h.n_a, bytes, h.n_c, &r->value, &r->place);
        return 1;
    case 20:
        if (h.n_b != 2) {
            return 0;
        }
        r->number = fascjoldi_file_search(file, h.n_a, b.elements[0], b.elements[1], c.elements, h.n_c, &r->value, &opened, &r->place);
        return 1;
    case 21:
        r->number = fascjoldi_file_rewrite(file, h.n_a, bytes, h.n_c, &r->value, &r->place);
        return 1;
    case 22:
        r->number = fascjoldi_file_check_canonical(file, h.n_a, &r->place);
        return 1;
    case 26: case 30:
        return call_chunks(h, r);
    case 31:
        return call_renumber(h, r);
    default:
        return h.t == 8 ? call_u8(h, r) : h.t == 16 ? call_u16(h, r) : h.t == 32 ? call_u32(h, r) : h.t == 64 ? call_u64(h, r) : 0;
    }
}

/* Makes the call of one case. Gives 0 where it is as expected, 1 where it differs, and 2 where the stream is bad. */
static int case_of(struct head h)
{
    struct reply r = {77, 77, 0, h.reference, h.index};
    if ((h.t != 8 && h.t != 16 && h.t != 32 && h.t != 64) || !read_buffer(&a, h.n_a, size_a(h)) || !read_buffer(&b, h.n_b, size_b(h))
        || !read_buffer(&c, h.n_c, size_c(h)) || !read_buffer(&c_exit, h.n_c, size_c(h)) || !read_buffer(&d, h.n_d, h.t / 8)
        || !read_buffer(&d_exit, h.n_d, h.t / 8)) {
        return 2;
    }
    if (!call(h, &r)) {
        return 2;
    }
    return !(r.number == h.number && r.place == h.place && r.value == h.value && r.reference == h.reference && r.index == h.index
        && same_buffers(&c, &c_exit, h.n_c * size_c(h)) && same_buffers(&d, &d_exit, h.n_d * (h.t / 8)));
}

int main(void)
{
    uint8_t bytes[56];
    uint64_t cases = 0, differ = 0, first = 0;
    struct head first_head = {0};
    for (;;) {
        size_t have = take(bytes, sizeof bytes);
        if (have == 0) {
            break;
        }
        struct head h = head_of(bytes);
        int outcome = have == sizeof bytes ? case_of(h) : 2;
        if (outcome == 2) {
            put_line("bad stream at ", cases);
            return 2;
        }
        if (outcome == 1 && differ == 0) {
            first = cases;
            first_head = h;
        }
        differ += (uint64_t)outcome;
        cases++;
    }
    put_line("cases ", cases);
    put_line("differ ", differ);
    if (differ != 0) {
        put_text("first ");
        put_number(first);
        put_text(" op ");
        put_number(first_head.op);
        put_text(" t ");
        put_number(first_head.t);
        put_line(" width ", first_head.width);
    }
    return differ != 0;
}
