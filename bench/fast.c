/* The machine of docs/FORMATS.md in C with decoded rows, as a yardstick of speed: one program at a time over the store of `try`.

   fast FRAMES BEGINS TURNS LIMIT [R2 R3 R4 R5] < LISTING

   LISTING is what `romp801 list` prints of one program. The program is begun BEGINS times, each time with TURNS turns of
   at most LIMIT rows; the report is printed as `romp801 try` prints it, a line by one write. The registers as they stand
   at the end go to standard error. */

#include <stdbool.h>
#include <stdint.h>
#include <stdio.h>
#include <stdlib.h>
#include <string.h>

enum { PRIVATE = 16384, PAGE = 2048, LINE = 128, PAGES = 6, LINES = 16 * PAGES, STORE = PAGES * PAGE, BANK = 65536 };

/* How a row went, beside the codes of program checks, which are 1 to 8. */
enum { WENT = 0, COMMIT = 16, JOURNAL = 17 };

struct window {
    uint32_t start, bytes; /* no bytes where there is no window */
    bool write;
};

struct entry {
    uint32_t owner;
    bool write;
    uint16_t lines;
};

/* A decoded row: what does it, its fields and its operand. One stands for each halfword of private storage. */
struct op {
    const void *go;
    uint32_t i;
    uint8_t b, c, k, pad;
};

/* Where the bytes under a segment register lie, and by line whether they may be loaded and stored now. */
struct view {
    uint8_t *host;
    uint8_t *loads, *stores;
    uint32_t bytes;
};

enum { ROWS = PRIVATE / 2, FAR = ROWS + 2 };

struct machine {
    struct op code[ROWS + 4];
    struct view views[16];
    const void *undecoded;
    uint8_t may_load[LINES + 16], may_store[LINES + 16], none[LINES + 2048];
    uint8_t private_loads[PRIVATE / LINE], private_stores[PRIVATE / LINE]; /* a line with decoded rows isn't stored to at once */
    uint8_t changed[PRIVATE / LINE];                                     /* stored to where rows had been decoded */
    uint32_t far;                                                        /* an address outside private storage */
    uint32_t r[32]; /* r[16] is zero: the base register of a field 0 */
    uint8_t cond[8]; /* by the number of the condition; pz is always 0 */
    uint32_t iar;
    struct window windows[16];
    uint32_t runner;
    bool resident[PAGES];
    struct entry entries[PAGES];
    uint8_t private[PRIVATE], store[STORE];

    /* What is looked at only when an access is served, or at a begin or a commit. */
    unsigned frames, count;
    uint8_t order[PAGES]; /* the resident pages as they came */
    uint16_t reads[PAGES], writes[PAGES];
    unsigned written, pages, locks;
    uint32_t rows;
    uint8_t image[PRIVATE];
    uint32_t entry, bytes;
    uint8_t committed[STORE], bank[BANK];
    uint32_t used;
    uint64_t number;
    uint16_t printed;
    uint8_t out[4096];
};

enum { LT = 1, EQ = 2, GT = 3, C0 = 4, OV = 5 };

static inline uint32_t half_at(const uint8_t *p) { return p[0] << 8 | p[1]; }

static inline uint32_t word_at(const uint8_t *p) {
    return (uint32_t)p[0] << 24 | p[1] << 16 | p[2] << 8 | p[3];
}

static inline void put_half(uint8_t *p, uint32_t v) {
    p[0] = v >> 8;
    p[1] = v;
}

static inline void put_word(uint8_t *p, uint32_t v) {
    p[0] = v >> 24;
    p[1] = v >> 16;
    p[2] = v >> 8;
    p[3] = v;
}

/* --- storage --- */

static inline bool permits(const struct machine *m, uint32_t line, bool store) {
    const struct entry *e = &m->entries[line / 16];
    bool bit = e->lines >> line % 16 & 1;
    return e->owner == m->runner && (store ? e->write && bit : e->write || bit);
}

/* Whether an access may be made now to a line: its page is resident and the entry permits it. */
static inline bool usable(const struct machine *m, uint32_t line, bool store) {
    return m->resident[line / 16] && permits(m, line, store);
}

/* With -DMOVES the bytes of a page are moved as frames of their own would have it: from the disk into a frame, and its written
   lines out of the frame into paging space and back. What the program sees stays where it is. */
#ifdef MOVES
static uint8_t disk[STORE], kept[STORE], frame[2048];

static void move_out(const struct machine *m, unsigned page) {
    if (m->writes[page])
        memcpy(kept + page * 2048, m->store + page * 2048, 2048);
    __asm__ volatile("" : : "r"(kept) : "memory");
}

static void move_in(const struct machine *m, unsigned page) {
    memcpy(frame, disk + page * 2048, 2048);
    __asm__ volatile("" : : "r"(frame) : "memory");
    if (m->writes[page] == 0xFFFF)
        memcpy(frame, kept + page * 2048, 2048);
    else
        for (unsigned line = 0; line < 16; line++)
            if (m->writes[page] >> line & 1)
                memcpy(frame + line * 128, kept + page * 2048 + line * 128, 128);
    __asm__ volatile("" : : "r"(frame) : "memory");
}
#else
static void move_out(const struct machine *m, unsigned page) {
    (void)m, (void)page;
}

static void move_in(const struct machine *m, unsigned page) {
    (void)m, (void)page;
}
#endif

static inline bool permits(const struct machine *m, uint32_t line, bool store);

/* What may be done to the lines of a page now: as resident, as its entry permits. */
static inline void show(struct machine *m, unsigned page) {
    const struct entry *e = &m->entries[page];
    uint64_t low = 0, high = 0, ones = 0x0101010101010101;
    if (m->resident[page] && e->owner == m->runner) {
        /* bit i to byte i */
        low = ((((e->lines & 255) * ones & 0x8040201008040201) + 0x7F7F7F7F7F7F7F7F) >> 7) & ones;
        high = ((((uint64_t)(e->lines >> 8) * ones & 0x8040201008040201) + 0x7F7F7F7F7F7F7F7F) >> 7) & ones;
        uint64_t l = e->write ? ones : low, h = e->write ? ones : high;
        memcpy(m->may_load + page * 16, &l, 8);
        memcpy(m->may_load + page * 16 + 8, &h, 8);
        if (!e->write)
            low = high = 0;
        memcpy(m->may_store + page * 16, &low, 8);
        memcpy(m->may_store + page * 16 + 8, &high, 8);
    } else {
        memset(m->may_load + page * 16, 0, 16);
        memset(m->may_store + page * 16, 0, 16);
    }
}

static void bring_in(struct machine *m, unsigned page, unsigned other) {
    if (m->resident[page])
        return;
    if (m->count >= m->frames) {
        unsigned at = 0;
        while (at < m->count && (m->order[at] == page || m->order[at] == other))
            at++;
        if (at == m->count)
            at = 0;
        m->resident[m->order[at]] = false;
        show(m, m->order[at]);
        move_out(m, m->order[at]);
        memmove(m->order + at, m->order + at + 1, m->count - at - 1);
        m->count--;
    }
    m->resident[page] = true;
    m->order[m->count++] = page;
    m->pages++;
    move_in(m, page);
    show(m, page);
}

/* Brings in the pages of two lines, locks the lines and grants them. */
static __attribute__((noinline)) bool serve(struct machine *m, uint32_t first, uint32_t last, bool store) {
    unsigned page = first / 16, other = last / 16, most;
    if (store) {
        unsigned more = !(m->writes[page] >> first % 16 & 1);
        if (last != first)
            more += !(m->writes[other] >> last % 16 & 1);
        if (BANK - m->used < 12)
            return false;
        most = (BANK - m->used - 12) / 132;
        if (m->written + more > most)
            return false;
        m->written += more;
        m->writes[page] |= 1 << first % 16;
        m->writes[other] |= 1 << last % 16;
        m->reads[page] = m->reads[other] = 0xFFFF;
    } else {
        m->reads[page] |= 1 << first % 16;
        m->reads[other] |= 1 << last % 16;
    }
    bring_in(m, page, other);
    bring_in(m, other, page);
    for (unsigned p = page; p <= other; p++) {
        if ((p == page && !permits(m, first, store)) || (p == other && !permits(m, last, store))) {
            m->entries[p].owner = m->runner;
            m->entries[p].write = m->writes[p] != 0;
            m->entries[p].lines = m->writes[p] ? m->writes[p] : m->reads[p];
            m->locks++;
            show(m, p);
        }
    }
    bring_in(m, page, other);
    return true;
}

/* Private bytes are stored to: the rows decoded from them aren't decoded any more. */
static void spoil(struct machine *m, uint32_t at, uint32_t bytes) {
    uint32_t first = at / LINE, last = (at + bytes - 1) / LINE;
    if (m->private_stores[first] && m->private_stores[last])
        return;
    m->changed[first] = m->changed[last] = 1;
    for (uint32_t row = at < 2 ? 0 : (at - 2) / 2; row <= (at + bytes - 1) / 2; row++)
        m->code[row].go = m->undecoded;
}

/* The bytes of an access, or NULL with the reason in *why. */
static inline uint8_t *locate(struct machine *m, uint32_t address, uint32_t bytes, bool store, int *why) {
    const struct window *w = &m->windows[address >> 28];
    uint32_t offset = address & 0x0FFFFFFF;
    if (offset + bytes > w->bytes) {
        *why = 2;
        return NULL;
    }
    if (store && !w->write) {
        *why = 7;
        return NULL;
    }
    if (address >> 28 == 0) {
        if (store)
            spoil(m, offset, bytes);
        return m->private + offset;
    }
    uint32_t at = w->start + offset;
    uint32_t first = at / LINE, last = (at + bytes - 1) / LINE;
    if (!usable(m, first, store) || (last != first && !usable(m, last, store)))
        if (!serve(m, first, last, store)) {
            *why = JOURNAL;
            return NULL;
        }
    return m->store + at;
}

/* --- rows --- */

static inline void sign(struct machine *m, uint32_t v) {
    m->cond[LT] = (int32_t)v < 0;
    m->cond[EQ] = v == 0;
    m->cond[GT] = (int32_t)v > 0;
}

static inline uint32_t signed_result(struct machine *m, uint32_t v) {
    sign(m, v);
    return v;
}

static inline uint32_t sum(struct machine *m, uint32_t x, uint32_t y, uint32_t carry) {
    uint64_t wide = (uint64_t)x + y + carry;
    uint32_t v = (uint32_t)wide;
    m->cond[C0] = wide >> 32;
    m->cond[OV] = (~(x ^ y) & (x ^ v)) >> 31;
    return signed_result(m, v);
}

static inline void compare(struct machine *m, uint32_t x, uint32_t y) {
    m->cond[LT] = x < y;
    m->cond[EQ] = x == y;
    m->cond[GT] = x > y;
}

static inline void compare_signed(struct machine *m, uint32_t x, uint32_t y) {
    m->cond[LT] = (int32_t)x < (int32_t)y;
    m->cond[EQ] = x == y;
    m->cond[GT] = (int32_t)x > (int32_t)y;
}

static inline int load(struct machine *m, uint32_t address, unsigned bytes, unsigned to, bool with_sign) {
    int why;
    const uint8_t *p = locate(m, address & ~(bytes - 1), bytes, false, &why);
    if (!p)
        return why;
    if (bytes == 1)
        m->r[to] = *p;
    else if (bytes == 2)
        m->r[to] = with_sign ? (uint32_t)(int16_t)half_at(p) : half_at(p);
    else
        m->r[to] = word_at(p);
    return WENT;
}

static inline int store(struct machine *m, uint32_t address, unsigned bytes, uint32_t value) {
    int why;
    uint8_t *p = locate(m, address & ~(bytes - 1), bytes, true, &why);
    if (!p)
        return why;
    if (bytes == 1)
        *p = value;
    else if (bytes == 2)
        put_half(p, value);
    else
        put_word(p, value);
    return WENT;
}

static int load_many(struct machine *m, uint32_t address, unsigned b) {
    int why;
    const uint8_t *p = locate(m, address & ~3u, 4 * (16 - b), false, &why);
    if (!p)
        return why;
    for (; b < 16; b++, p += 4)
        m->r[b] = word_at(p);
    return WENT;
}

static int store_many(struct machine *m, uint32_t address, unsigned b) {
    int why;
    uint8_t *p = locate(m, address & ~3u, 4 * (16 - b), true, &why);
    if (!p)
        return why;
    for (; b < 16; b++, p += 4)
        put_word(p, m->r[b]);
    return WENT;
}

/* What is known by the high byte: the size, and whether it is a branch, runs the row after it, or may not be such a row. */
enum { SIZE = 7, BRANCH = 8, EXECUTES = 16, ALONE = 32 };
static const uint8_t KIND[256] = {
    [0x00 ... 0x0F] = 2 | BRANCH, [0x10 ... 0x7F] = 2, [0x88] = 4 | BRANCH, [0x89] = 4 | BRANCH | EXECUTES,
    [0x8A] = 4 | BRANCH, [0x8B] = 4 | BRANCH | EXECUTES, [0x8C] = 4 | BRANCH, [0x8D] = 4 | BRANCH | EXECUTES,
    [0x8E] = 4 | BRANCH, [0x8F] = 4 | BRANCH | EXECUTES, [0x90 ... 0x94] = 2, [0x98 ... 0x9B] = 2, [0xA0 ... 0xA1] = 2,
    [0xA4] = 2, [0xA8 ... 0xAB] = 2, [0xB0 ... 0xB4] = 2, [0xB8] = 2, [0xBA] = 2, [0xBD ... 0xBE] = 2 | ALONE,
    [0xC0] = 4 | ALONE, [0xC1] = 4, [0xC3 ... 0xC5] = 4, [0xC6 ... 0xCA] = 4, [0xCC] = 4 | ALONE, [0xCD ... 0xCE] = 4,
    [0xD1 ... 0xDA] = 4, [0xDC ... 0xDE] = 4, [0xE0 ... 0xE5] = 2, [0xE7] = 2, [0xE8] = 2 | BRANCH,
    [0xE9] = 2 | BRANCH | EXECUTES, [0xEB] = 2, [0xEC] = 2 | BRANCH, [0xED] = 2 | BRANCH | EXECUTES, [0xEE] = 2 | BRANCH,
    [0xEF] = 2 | BRANCH | EXECUTES, [0xF1 ... 0xF2] = 2, [0xF4] = 2,
};

/* Does a row that doesn't branch. */
static inline __attribute__((always_inline)) int effect(struct machine *m, uint32_t first, uint32_t second) {
    uint32_t *r = m->r;
    unsigned k = first >> 8 & 15, b = first >> 4 & 15, c = first & 15, n;
    uint32_t x = r[b], y = r[c], z = c ? y : 0, u = second, i = (uint32_t)(int16_t)second;
    switch (first >> 8) {
    case 0x10 ... 0x1F: return store(m, z + k, 1, x);
    case 0x20 ... 0x2F: return store(m, z + 2 * k, 2, x);
    case 0x30 ... 0x3F: return store(m, z + 4 * k, 4, x);
    case 0x40 ... 0x4F: return load(m, z + k, 1, b, false);
    case 0x50 ... 0x5F: return load(m, z + 2 * k, 2, b, true);
    case 0x60 ... 0x6F: r[k] = x + z; return WENT;
    case 0x70 ... 0x7F: return load(m, z + 4 * k, 4, b, false);
    case 0x90: r[b] = sum(m, x, c, 0); return WENT;
    case 0x91: r[b] = x + c; return WENT;
    case 0x92: r[b] = sum(m, x, ~c, 1); return WENT;
    case 0x93: r[b] = x - c; return WENT;
    case 0x94: compare_signed(m, x, c); return WENT;
    case 0x98: r[b] = signed_result(m, x & ~(0x80000000u >> c)); return WENT;
    case 0x99: r[b] = signed_result(m, x & ~(0x8000u >> c)); return WENT;
    case 0x9A: r[b] = signed_result(m, x | 0x80000000u >> c); return WENT;
    case 0x9B: r[b] = signed_result(m, x | 0x8000u >> c); return WENT;
    case 0xA0: r[b] = signed_result(m, (int32_t)x >> c); return WENT;
    case 0xA1: r[b] = signed_result(m, (int32_t)x >> (c + 16)); return WENT;
    case 0xA4: r[b] = c; return WENT;
    case 0xA8: r[b] = signed_result(m, x >> c); return WENT;
    case 0xA9: r[b] = signed_result(m, x >> (c + 16)); return WENT;
    case 0xAA: r[b] = signed_result(m, x << c); return WENT;
    case 0xAB: r[b] = signed_result(m, x << (c + 16)); return WENT;
    case 0xB0: n = y & 63; r[b] = signed_result(m, (int32_t)x >> (n > 31 ? 31 : n)); return WENT;
    case 0xB1: r[b] = signed_result(m, (uint32_t)(int16_t)y); return WENT;
    case 0xB2: r[b] = sum(m, y, ~x, 1); return WENT;
    case 0xB3: compare(m, x, y); return WENT;
    case 0xB4: compare_signed(m, x, y); return WENT;
    case 0xB8: n = y & 63; r[b] = signed_result(m, n > 31 ? 0 : x >> n); return WENT;
    case 0xBA: n = y & 63; r[b] = signed_result(m, n > 31 ? 0 : x << n); return WENT;
    case 0xBD: return x >= y ? 3 : WENT;
    case 0xBE: return x < y ? 3 : WENT;
    case 0xC0:
        if (b || c)
            return 1;
        if (u == 0)
            return COMMIT;
        if (u != 1)
            return u == 2 ? 8 : 6;
        if (m->printed >= sizeof m->out)
            return 5;
        m->out[m->printed++] = r[2];
        return WENT;
    case 0xC1: r[b] = sum(m, y, i, 0); return WENT;
    case 0xC3: r[b] = signed_result(m, y | u << 16); return WENT;
    case 0xC4: r[b] = signed_result(m, y | u); return WENT;
    case 0xC5: r[b] = signed_result(m, y & u); return WENT;
    case 0xC6: r[b] = signed_result(m, y & (0xFFFF0000u | u)); return WENT;
    case 0xC7: r[b] = signed_result(m, y ^ u); return WENT;
    case 0xC8: r[b] = z + i; return WENT;
    case 0xC9: return load_many(m, z + i, b);
    case 0xCA: return load(m, z + i, 2, b, true);
    case 0xCC:
        if (b > 7)
            return 1;
        return (b & 4 && (int32_t)y < (int32_t)i) || (b & 2 && y == i) || (b & 1 && (int32_t)y > (int32_t)i) ? 3 : WENT;
    case 0xCD: return load(m, z + i, 4, b, false);
    case 0xCE: return load(m, z + i, 1, b, false);
    case 0xD1: r[b] = sum(m, y, i, m->cond[C0]); return WENT;
    case 0xD2: r[b] = sum(m, i, ~y, 1); return WENT;
    case 0xD3:
        if (b)
            return 1;
        compare(m, y, i);
        return WENT;
    case 0xD4:
        if (b)
            return 1;
        compare_signed(m, y, i);
        return WENT;
    case 0xD5: r[b] = signed_result(m, y & u << 16); return WENT;
    case 0xD6: r[b] = signed_result(m, y & (u << 16 | 0xFFFF)); return WENT;
    case 0xD7: r[b] = signed_result(m, y ^ u << 16); return WENT;
    case 0xD8: r[b] = z + (u << 16); return WENT;
    case 0xD9: return store_many(m, z + i, b);
    case 0xDA: return load(m, z + i, 2, b, false);
    case 0xDC: return store(m, z + i, 2, x);
    case 0xDD: return store(m, z + i, 4, x);
    case 0xDE: return store(m, z + i, 1, x);
    case 0xE0: r[b] = signed_result(m, (int32_t)y < 0 ? 0 - y : y); return WENT;
    case 0xE1: r[b] = sum(m, x, y, 0); return WENT;
    case 0xE2: r[b] = sum(m, x, ~y, 1); return WENT;
    case 0xE3: r[b] = signed_result(m, x | y); return WENT;
    case 0xE4: r[b] = sum(m, 0, ~y, 1); return WENT;
    case 0xE5: r[b] = signed_result(m, x & y); return WENT;
    case 0xE7: r[b] = signed_result(m, x ^ y); return WENT;
    case 0xEB: return load(m, y, 2, b, false);
    case 0xF1: r[b] = sum(m, x, y, m->cond[C0]); return WENT;
    case 0xF2: r[b] = sum(m, x, ~y, m->cond[C0]); return WENT;
    case 0xF4: r[b] = signed_result(m, ~y); return WENT;
    default: return 1;
    }
}

static __attribute__((noinline)) int subject(struct machine *m, uint32_t at, uint32_t *after) {
    if (at > PRIVATE - 2)
        return 2;
    uint32_t first = half_at(m->private + at), second = 0;
    uint8_t kind = KIND[first >> 8];
    if ((kind & SIZE) == 4) {
        if (at + 2 > PRIVATE - 2)
            return 2;
        second = half_at(m->private + at + 2);
    }
    if (kind == 0)
        return 1;
    /* A field that a row doesn't use or that is out of range is no row, and that comes before the kind of the subject. */
    unsigned high = first >> 8, b = first >> 4 & 15;
    if ((high < 0x10 && (high & 7) > 5) || (high == 0xC0 && first & 255) || (high == 0xCC && b > 7))
        return 1;
    if ((high == 0x88 || high == 0x89 || high == 0x8E || high == 0x8F || high == 0xE8 || high == 0xE9 || high == 0xEE ||
         high == 0xEF) && b > 5)
        return 1;
    if (kind & (BRANCH | ALONE))
        return 4;
    *after = at + (kind & SIZE);
    return effect(m, first, second);
}

/* Does a branch, with its subject. */
static inline int branch(struct machine *m, uint32_t first, uint32_t second, uint8_t kind) {
    unsigned high = first >> 8, b = first >> 4 & 15, c = first & 15;
    uint32_t after = m->iar + (kind & SIZE), target;
    int link = -1;
    bool taken = true;
    if (high < 0x10) {
        if ((high & 7) > 5)
            return 1;
        taken = m->cond[high & 7] == high >> 3;
        target = m->iar + 2 * (uint32_t)(int8_t)first;
    } else {
        switch (high) {
        case 0x88: case 0x89: case 0x8E: case 0x8F:
            if (b > 5)
                return 1;
            taken = m->cond[b] == (high >= 0x8E);
            /* fall through */
        case 0x8C: case 0x8D:
            if (high == 0x8C || high == 0x8D)
                link = b;
            target = m->iar + 2 * (uint32_t)((int32_t)((c << 16 | second) << 12) >> 12);
            break;
        case 0x8A: case 0x8B:
            link = 15;
            target = (first & 255) << 16 | second;
            break;
        case 0xEC: case 0xED:
            link = b;
            target = m->r[c];
            break;
        default:
            if (b > 5)
                return 1;
            taken = m->cond[b] == (high >= 0xEE);
            target = m->r[c];
        }
    }
    if (kind & EXECUTES) {
        int went = subject(m, after, &after);
        if (went != WENT)
            return went;
    }
    if (link >= 0)
        m->r[link] = after;
    m->iar = taken ? target & ~1u : after;
    return WENT;
}

/* Rows up to a limit, one by one. */
static __attribute__((noinline)) int run_plain(struct machine *m, uint32_t limit, uint32_t *ran) {
    uint32_t n = 0;
    int went = WENT;
    for (; n < limit; n++) {
        if (m->iar > PRIVATE - 2) {
            went = 2;
            break;
        }
        uint32_t first = half_at(m->private + m->iar), second = 0;
        uint8_t kind = KIND[first >> 8];
        if ((kind & SIZE) == 4) {
            if (m->iar + 2 > PRIVATE - 2) {
                went = 2;
                break;
            }
            second = half_at(m->private + m->iar + 2);
        }
        if (kind & BRANCH) {
            went = branch(m, first, second, kind);
        } else {
            went = effect(m, first, second);
            if (went == WENT)
                m->iar += kind & SIZE;
        }
        if (went != WENT)
            break;
    }
    *ran = n;
    return went;
}

/* An access that no view permits at once. */
static __attribute__((noinline, cold)) uint8_t *far_locate(struct machine *m, uint32_t address, uint32_t bytes, bool store, int *why) {
    return locate(m, address, bytes, store, why);
}

#define C0_ ((uint32_t)(wide >> 32) & 1)

/* Rows up to a limit. The answer is why they ended: WENT at the limit. */
static __attribute__((noinline)) int run(struct machine *m, uint32_t limit, uint32_t *ran) {
    static const void *const BY_HIGH[256] = {
        [0 ... 255] = &&slow,
        [0x10 ... 0x1F] = &&stcs, [0x20 ... 0x2F] = &&sths, [0x30 ... 0x3F] = &&sts, [0x40 ... 0x4F] = &&lcs,
        [0x50 ... 0x5F] = &&lhas, [0x60 ... 0x6F] = &&cas, [0x70 ... 0x7F] = &&ls,
        [0x90] = &&ais, [0x91] = &&inc, [0x92] = &&sis, [0x93] = &&dec, [0x94] = &&cis, [0x98] = &&clrbu, [0x99] = &&clrbl,
        [0x9A] = &&setbu, [0x9B] = &&setbl, [0xA0] = &&sari, [0xA1] = &&sari16, [0xA4] = &&lis, [0xA8] = &&sri,
        [0xA9] = &&sri16, [0xAA] = &&sli, [0xAB] = &&sli16, [0xB0] = &&sar, [0xB1] = &&exts, [0xB2] = &&sf, [0xB3] = &&cl,
        [0xB4] = &&c, [0xB8] = &&sr, [0xBA] = &&sl, [0xBD] = &&tgte, [0xBE] = &&tlt,
        [0xC1] = &&ai, [0xC3] = &&oiu, [0xC4] = &&oil, [0xC5] = &&nilz, [0xC6] = &&nilo, [0xC7] = &&xil, [0xC8] = &&cal,
        [0xC9] = &&lm, [0xCA] = &&lha, [0xCD] = &&l, [0xCE] = &&lc, [0xD1] = &&aei, [0xD2] = &&sfi, [0xD3] = &&cli,
        [0xD4] = &&ci, [0xD5] = &&niuz, [0xD6] = &&niuo, [0xD7] = &&xiu, [0xD8] = &&cau, [0xD9] = &&stm, [0xDA] = &&lh,
        [0xDC] = &&sth, [0xDD] = &&st, [0xDE] = &&stc, [0xE0] = &&abs_, [0xE1] = &&a, [0xE2] = &&s, [0xE3] = &&o,
        [0xE4] = &&twoc, [0xE5] = &&n, [0xE7] = &&x, [0xEB] = &&lhs, [0xF1] = &&ae, [0xF2] = &&se, [0xF4] = &&onec,
        [0xEC] = &&balr, [0x8C] = &&bali,
    };
    static const void *const JUMPS[16] = {
        &&always, &&jge, &&jne, &&jle, &&jnc, &&jno, &&slow, &&slow,
        &&never, &&jlt, &&jeq, &&jgt, &&jc, &&jo, &&slow, &&slow,
    };
    static const void *const FARS[16] = {
        &&always4, &&bge, &&bne, &&ble, &&bnc, &&bno, &&slow, &&slow,
        &&never4, &&blt, &&beq, &&bgt, &&bc, &&bo, &&slow, &&slow,
    };
    if (m->undecoded == NULL) {
        m->undecoded = &&decode;
        for (unsigned row = 0; row < ROWS; row++)
            m->code[row].go = &&decode;
        m->code[ROWS].go = m->code[FAR].go = &&outside;
    }
    struct op *code = m->code, *ip;
    uint32_t *r = m->r, left = limit, address;
    int64_t seen;   /* its sign is less, equal or greater */
    uint64_t wide;  /* bit 32 is the carry */
    uint32_t over;  /* bit 31 is the overflow */
    int went = WENT;
#define LOAD_STATE() do { \
        seen = m->cond[GT] - m->cond[LT]; /* of less, equal and greater one alone is on, or none at the begin: see below */ \
        wide = (uint64_t)m->cond[C0] << 32; \
        over = (uint32_t)m->cond[OV] << 31; \
        if (!(m->cond[LT] | m->cond[EQ] | m->cond[GT])) \
            seen = INT64_MIN; \
        if (m->iar > PRIVATE - 2) { \
            m->far = m->iar; \
            ip = code + FAR; \
        } else \
            ip = code + m->iar / 2; \
    } while (0)
#define IAR() (ip == code + FAR ? m->far : (uint32_t)(ip - code) * 2)
#define SAVE_STATE() do { \
        m->cond[LT] = seen < 0 && seen != INT64_MIN; \
        m->cond[EQ] = seen == 0; \
        m->cond[GT] = seen > 0; \
        m->cond[C0] = C0_; \
        m->cond[OV] = over >> 31; \
        m->iar = IAR(); \
    } while (0)
#define GO() do { if (__builtin_expect(left == 0, 0)) goto out; goto *ip->go; } while (0)
#define NEXT(halves) do { left--; ip += (halves); GO(); } while (0)
#define RB r[ip->b]
#define RC r[ip->c]
#define X RB
#define Y r[ip->k]
#define I ip->i
#define SIGNED(value) do { uint32_t v_ = (value); seen = (int32_t)v_; RB = v_; } while (0)
#define SUM(one, two, carry) do { \
        uint32_t x_ = (one), y_ = (two); \
        wide = (uint64_t)x_ + y_ + (carry); \
        uint32_t v_ = (uint32_t)wide; \
        over = ~(x_ ^ y_) & (x_ ^ v_); \
        seen = (int32_t)v_; \
        RB = v_; \
    } while (0)
    /* The bytes of an access that lies in a line, as its view permits at once; else by a call, as the plain interpreter does it. */
#define AT(where, size, rights, is_store) \
        address = (where) & ~((uint32_t)(size) - 1); \
        const struct view *v = &m->views[address >> 28]; \
        uint32_t offset = address & 0x0FFFFFFF; \
        uint8_t *p; \
        if (__builtin_expect(offset < v->bytes && v->rights[offset / LINE], 1)) \
            p = v->host + offset; \
        else if (!(p = far_locate(m, address, (size), is_store, &went))) \
            goto over_;
#define LOAD(where, size, get, halves) do { AT(where, size, loads, false) RB = get; NEXT(halves); } while (0)
#define STORE(where, size, put, halves) do { AT(where, size, stores, true) put; NEXT(halves); } while (0)
    LOAD_STATE();
    GO();

decode: {
    uint32_t at = (uint32_t)(ip - code) * 2, first = half_at(m->private + at), high = first >> 8;
    uint8_t kind = KIND[high];
    m->private_stores[at / LINE] = 0;
    ip->b = first >> 4 & 15;
    ip->k = first & 15;
    ip->c = first & 15 ? first & 15 : 16;
    ip->i = high & 15;
    ip->go = BY_HIGH[high];
    if ((kind & SIZE) == 4) {
        if (at + 4 > PRIVATE)
            ip->go = &&slow;
        else {
            m->private_stores[(at + 2) / LINE] = 0;
            uint32_t second = half_at(m->private + at + 2);
            ip->i = (uint32_t)(int16_t)second;
            if (high == 0xC4 || high == 0xC5 || high == 0xC7)
                ip->i = second;
            else if (high == 0xC3 || high == 0xD5 || high == 0xD7 || high == 0xD8)
                ip->i = second << 16;
            else if (high == 0xC6)
                ip->i = 0xFFFF0000u | second;
            else if (high == 0xD6)
                ip->i = second << 16 | 0xFFFF;
            else if (high == 0x88 || high == 0x8E || high == 0x8C) {
                uint32_t to = at + 2 * (uint32_t)((int32_t)(((first & 15) << 16 | second) << 12) >> 12);
                if (high != 0x8C)
                    ip->go = FARS[ip->b < 6 ? ip->b + (high == 0x8E) * 8 : 7];
                ip->i = to / 2 - at / 2;
                if (to > PRIVATE - 2)
                    ip->go = &&slow;
            } else if ((high == 0xD3 || high == 0xD4) && ip->b)
                ip->go = &&slow;
            else if ((high == 0xC9 || high == 0xD9) && 0)
                ip->go = &&slow;
        }
    } else if (high < 0x10) {
        uint32_t to = at + 2 * (uint32_t)(int8_t)first;
        ip->go = JUMPS[high];
        ip->i = to / 2 - at / 2;
        if (to > PRIVATE - 2)
            ip->go = &&slow;
    } else if (high < 0x80 && high >> 4 != 6)
        ip->i = (high & 15) * (high >> 4 == 3 || high >> 4 == 7 ? 4 : high >> 4 == 2 || high >> 4 == 5 ? 2 : 1);
    else if (high >= 0x90 && high < 0xB0) {
        ip->i = first & 15;
        if (high == 0x98) ip->i = ~(0x80000000u >> ip->i);
        else if (high == 0x99) ip->i = ~(0x8000u >> ip->i);
        else if (high == 0x9A) ip->i = 0x80000000u >> ip->i;
        else if (high == 0x9B) ip->i = 0x8000u >> ip->i;
        else if (high == 0x92) ip->i = ~ip->i;
        else if (high == 0xA1 || high == 0xA9 || high == 0xAB) ip->i += 16;
    }
    goto *ip->go;
}
slow: { /* a row that is rare: as the plain interpreter does it */
    uint32_t one;
    SAVE_STATE();
    went = run_plain(m, 1, &one);
    LOAD_STATE();
    if (went != WENT)
        goto over_;
    left--;
    GO();
}
outside:
    went = 2;
    goto over_;

stcs: STORE(RC + I, 1, *p = X, 1);
sths: STORE(RC + I, 2, put_half(p, X), 1);
sts: STORE(RC + I, 4, put_word(p, X), 1);
lcs: LOAD(RC + I, 1, *p, 1);
lhas: LOAD(RC + I, 2, (uint32_t)(int16_t)half_at(p), 1);
ls: LOAD(RC + I, 4, word_at(p), 1);
cas: r[I] = X + RC; NEXT(1);
ais: SUM(X, I, 0); NEXT(1);
inc: RB = X + I; NEXT(1);
sis: SUM(X, I, 1); NEXT(1);
dec: RB = X - I; NEXT(1);
cis: seen = (int64_t)(int32_t)X - (int32_t)I; NEXT(1);
clrbu: clrbl: SIGNED(X & I); NEXT(1);
setbu: setbl: SIGNED(X | I); NEXT(1);
sari: sari16: SIGNED((uint32_t)((int32_t)X >> I)); NEXT(1);
lis: RB = I; NEXT(1);
sri: sri16: SIGNED(X >> I); NEXT(1);
sli: sli16: SIGNED(X << I); NEXT(1);
sar: { uint32_t s_ = Y & 63; SIGNED((uint32_t)((int32_t)X >> (s_ > 31 ? 31 : s_))); NEXT(1); }
sr: { uint32_t s_ = Y & 63; SIGNED(s_ > 31 ? 0 : X >> s_); NEXT(1); }
sl: { uint32_t s_ = Y & 63; SIGNED(s_ > 31 ? 0 : X << s_); NEXT(1); }
exts: SIGNED((uint32_t)(int16_t)Y); NEXT(1);
sf: SUM(Y, ~X, 1); NEXT(1);
cl: seen = (int64_t)X - (int64_t)Y; NEXT(1);
c: seen = (int64_t)(int32_t)X - (int32_t)Y; NEXT(1);
tgte: if (X >= Y) { went = 3; goto over_; } NEXT(1);
tlt: if (X < Y) { went = 3; goto over_; } NEXT(1);
ai: SUM(Y, I, 0); NEXT(2);
oiu: oil: SIGNED(Y | I); NEXT(2);
nilz: nilo: niuz: niuo: SIGNED(Y & I); NEXT(2);
xil: xiu: SIGNED(Y ^ I); NEXT(2);
cal: cau: RB = RC + I; NEXT(2);
lha: LOAD(RC + I, 2, (uint32_t)(int16_t)half_at(p), 2);
lh: LOAD(RC + I, 2, half_at(p), 2);
l: LOAD(RC + I, 4, word_at(p), 2);
lc: LOAD(RC + I, 1, *p, 2);
lhs: LOAD(Y, 2, half_at(p), 1);
sth: STORE(RC + I, 2, put_half(p, X), 2);
st: STORE(RC + I, 4, put_word(p, X), 2);
stc: STORE(RC + I, 1, *p = X, 2);
aei: SUM(Y, I, C0_); NEXT(2);
sfi: SUM(I, ~Y, 1); NEXT(2);
cli: seen = (int64_t)Y - (int64_t)(uint32_t)I; NEXT(2);
ci: seen = (int64_t)(int32_t)Y - (int32_t)I; NEXT(2);
abs_: SIGNED((int32_t)Y < 0 ? 0 - Y : Y); NEXT(1);
a: SUM(X, Y, 0); NEXT(1);
s: SUM(X, ~Y, 1); NEXT(1);
o: SIGNED(X | Y); NEXT(1);
twoc: SUM(0, ~Y, 1); NEXT(1);
n: SIGNED(X & Y); NEXT(1);
x: SIGNED(X ^ Y); NEXT(1);
ae: SUM(X, Y, C0_); NEXT(1);
se: SUM(X, ~Y, C0_); NEXT(1);
onec: SIGNED(~Y); NEXT(1);
lm: stm: { /* of two lines at most */
    uint32_t b = ip->b, bytes = 4 * (16 - b);
    bool store = m->private[(ip - code) * 2] == 0xD9;
    address = (RC + I) & ~3u;
    const struct view *v = &m->views[address >> 28];
    const uint8_t *rights = store ? v->stores : v->loads;
    uint32_t offset = address & 0x0FFFFFFF;
    uint8_t *p;
    if (__builtin_expect(offset + bytes <= v->bytes && rights[offset / LINE] && rights[(offset + bytes - 1) / LINE], 1))
        p = v->host + offset;
    else if (!(p = far_locate(m, address, bytes, store, &went)))
        goto over_;
    if (store)
        for (; b < 16; b++, p += 4)
            put_word(p, r[b]);
    else
        for (; b < 16; b++, p += 4)
            r[b] = word_at(p);
    NEXT(2);
}
#define JUMP(condition, halves) do { if (condition) { left--; ip += (int32_t)I; GO(); } NEXT(halves); } while (0)
always: always4: left--; ip += (int32_t)I; GO();
never: NEXT(1);
never4: NEXT(2);
jlt: JUMP(seen < 0 && seen != INT64_MIN, 1);
jge: JUMP(seen >= 0 || seen == INT64_MIN, 1);
jeq: JUMP(seen == 0, 1);
jne: JUMP(seen != 0, 1);
jgt: JUMP(seen > 0, 1);
jle: JUMP(seen <= 0, 1);
jc: JUMP(wide >> 32 & 1, 1);
jnc: JUMP(!(wide >> 32 & 1), 1);
jo: JUMP(over >> 31, 1);
jno: JUMP(!(over >> 31), 1);
blt: JUMP(seen < 0 && seen != INT64_MIN, 2);
bge: JUMP(seen >= 0 || seen == INT64_MIN, 2);
beq: JUMP(seen == 0, 2);
bne: JUMP(seen != 0, 2);
bgt: JUMP(seen > 0, 2);
ble: JUMP(seen <= 0, 2);
bc: JUMP(wide >> 32 & 1, 2);
bnc: JUMP(!(wide >> 32 & 1), 2);
bo: JUMP(over >> 31, 2);
bno: JUMP(!(over >> 31), 2);
bali: RB = (uint32_t)(ip - code) * 2 + 4; left--; ip += (int32_t)I; GO();
balr: {
    uint32_t to = Y & ~1u;
    RB = (uint32_t)(ip - code) * 2 + 2;
    left--;
    if (to > PRIVATE - 2) {
        m->far = to;
        ip = code + FAR;
    } else
        ip = code + to / 2;
    GO();
}

over_:
out:
    SAVE_STATE();
    *ran = limit - left;
    return went;
}

/* --- begins, turns, commits --- */

static void begin(struct machine *m, uint32_t number, const uint32_t args[4]) {
    memcpy(m->private, m->image, m->bytes);
    memset(m->private + m->bytes, 0, PRIVATE - m->bytes);
    memcpy(m->store, m->committed, STORE);
    memset(m->r, 0, sizeof m->r);
    memcpy(m->r + 2, args, 4 * sizeof *args);
    memset(m->cond, 0, sizeof m->cond);
    memset(m->reads, 0, sizeof m->reads);
    memset(m->writes, 0, sizeof m->writes);
    m->iar = m->entry;
    m->runner = number;
    for (unsigned line = 0; line < PRIVATE / LINE; line++)
        if (m->changed[line]) {
            /* the image is the same each time, so only what was stored over decoded rows is decoded anew */
            for (unsigned row = line ? line * (LINE / 2) - 1 : 0; row < (line + 1) * (LINE / 2); row++)
                m->code[row].go = m->undecoded;
            m->changed[line] = 0;
            m->private_stores[line] = 1;
        }
    for (unsigned page = 0; page < PAGES; page++)
        show(m, page);
    m->written = m->printed = 0;
    m->rows = 0;
}

static void release(struct machine *m) {
    for (int p = 0; p < PAGES; p++)
        if (m->entries[p].owner == m->runner)
            m->entries[p] = (struct entry){0}, show(m, p);
}

static void roll_back(struct machine *m) {
    unsigned kept = 0;
    release(m);
    for (unsigned i = 0; i < m->count; i++) {
        if (m->writes[m->order[i]])
            m->resident[m->order[i]] = false, show(m, m->order[i]);
        else
            m->order[kept++] = m->order[i];
    }
    m->count = kept;
}

static void commit(struct machine *m) {
    uint8_t *p = m->bank + m->used;
    m->number++;
    p[0] = 0xA5;
    put_half(p + 1, m->written);
    put_word(p + 3, m->number >> 32);
    put_word(p + 7, m->number);
    p += 11;
    for (unsigned line = 0; line < LINES; line++)
        if (m->writes[line / 16] >> line % 16 & 1) {
            put_word(p, line);
            memcpy(p + 4, m->store + line * LINE, LINE);
            memcpy(m->committed + line * LINE, m->store + line * LINE, LINE);
            p += 4 + LINE;
        }
    m->used = p - m->bank;
    release(m);
}

static bool turn(struct machine *m, uint32_t a, uint32_t limit) {
    uint32_t ran, at;
    m->pages = m->locks = 0;
    int went = run(m, limit, &ran);
    at = m->iar;
    if (went == COMMIT && (BANK - m->used < 12 || m->written > (BANK - m->used - 12) / 132))
        went = JOURNAL;
    if (went == COMMIT)
        ran++;
    m->rows += ran;
    printf("turn %u ran %u page %u lock %u\n", a, ran, m->pages, m->locks);
    if (went == WENT)
        return true;
    if (went == COMMIT) {
        commit(m);
        printf("commit %u number %llu steps %u out ", a, (unsigned long long)m->number, m->rows);
        for (int i = 0; i < m->printed; i++)
            printf("%02x", m->out[i]);
        printf(m->printed ? "\n" : "-\n");
    } else {
        roll_back(m);
        if (went == JOURNAL)
            printf("journal %u\n", a);
        else
            printf("check %u code %d at %08x\n", a, went, at);
    }
    return false;
}

int main(int argc, char **argv) {
    static struct machine m;
    static char line[256], out[65536], name[40];
    uint32_t n0;
    unsigned i, s, n, start[3] = {0, 0, 8192}, size[3] = {0, 8192, 4096};
    uint32_t args[4] = {0};
    if (argc < 5)
        return 1;
    setvbuf(stdout, out, _IOLBF, sizeof out);
    m.frames = atoi(argv[1]);
    for (int a = 5; a < argc && a < 9; a++)
        args[a - 5] = strtoul(argv[a], NULL, 0);
    m.windows[0] = (struct window){0, PRIVATE, true};
    while (fgets(line, sizeof line, stdin)) {
        char right[3] = "";
        if (sscanf(line, "program %39s bytes %*u entry %x", name, &m.entry) == 2)
            continue;
        if (sscanf(line, "window %u segment %u %2s", &i, &s, right) == 3) {
            if (s > 2)
                return 1;
            m.windows[i & 15] = (struct window){start[s], size[s], right[1] == 'w'};
            continue;
        }
        for (char *p = line + 9; sscanf(p, "%2x", &n) == 1 && m.bytes < PRIVATE; p += 2)
            m.image[m.bytes++] = n;
    }
    for (i = 0; i < 16; i++) {
        struct window *w = &m.windows[i];
        struct view *v = &m.views[i];
        v->host = i ? m.store + w->start : m.private;
        v->bytes = w->bytes;
        v->loads = i ? m.may_load + w->start / LINE : m.private_loads;
        v->stores = i ? w->write ? m.may_store + w->start / LINE : m.none : m.private_stores;
    }
    memset(m.private_loads, 1, sizeof m.private_loads);
    memset(m.private_stores, 1, sizeof m.private_stores);
    run(&m, 0, &n0);
    uint32_t begins = atoi(argv[2]), turns = atoi(argv[3]), limit = atoi(argv[4]);
    bool active = false;
    printf("open 0\n");
    for (uint32_t a = 1; a <= begins && !active; a++) {
        begin(&m, a, args);
        active = true;
        printf("begin %u %s\n", a, name);
        for (uint32_t t = 0; t < turns; t++) {
            if (active)
                active = turn(&m, a, limit);
            else
                printf("idle %u\n", a);
        }
    }
    if (active)
        printf("left %u\n", m.runner);
    printf("end %llu\n", (unsigned long long)m.number);
    fprintf(stderr, "registers");
    for (i = 0; i < 16; i++)
        fprintf(stderr, " %08x", m.r[i]);
    fprintf(stderr, " iar %08x\n", m.iar);
    return 0;
}

