// An unverified twin of the proved library in plain C: the same algorithms (an item is hashed three times and taken out when its turn
// comes, the seed is mixed once for a map, remainders come from one reciprocal for a map, the 2-fattest number from the highest differing bit),
// the same memory (u64 keys, u16 cells, left, right and work, u8 lengths and row bytes) and the same checks in the same order. Items are
// computed and not stored, as only 16-bit numbers and bytes are lent. So what is left of a difference is what the proved code's form costs.
//
// Variants, for finding out what a choice is worth (none is defined for the comparison):
//   DIVISION      remainders by M from a division for each, and not from the reciprocal of M
//   SPECIALISED   the map builder compiled once for each kind of items, and not with a switch in what its loops call
//   TRIAL         the 2-fattest number by trial of powers of two, and not from the highest differing bit of the two ends
// An image that has only the full build and its two asks, or only the slim entries, leaves out the others: NO_SLIM, NO_FULL.
#include "entries.h"

#define MOST 32768

// ---- words

static inline u64 high_product(u64 a, u64 b) { return (unsigned __int128)a * b >> 64; }

static inline u64 mix(u64 z) {
    z = (z ^ z >> 30) * 0xBF58476D1CE4E5B9;
    z = (z ^ z >> 27) * 0x94D049BB133111EB;
    return z ^ z >> 31;
}

static inline u64 mix_seed(u64 seed) { return mix(seed + 0x9E3779B97F4A7C15); }
static inline u64 mixed_hash(u64 item, u64 mixed) { return mix(item + mixed); }

// The leading bits that a and b share.
static inline unsigned shared(u64 a, u64 b) { return a == b ? 64 : __builtin_clzll(a ^ b); }

// The first l bits of x, a 1 bit, zeros; l < 64.
static inline u64 prefix_item(u64 x, unsigned l) {
    unsigned k = 63 - l;
    return (x >> k | 1) << k;
}

// The 2-fattest f with a < f <= b <= 64.
static inline unsigned fattest(unsigned a, unsigned b) {
#ifdef TRIAL
    unsigned p = 64;
    while ((b & -p) <= a)
        p /= 2;
    return b & -p;
#else
    unsigned k = 31 - __builtin_clz(a ^ b);
    return b >> k << k;
#endif
}

// ---- cells of a map

static inline size_t segment_size(size_t t) { return 42 * t / 100 + 3; }
static inline size_t cell_count(size_t t) { return 3 * segment_size(t); }
static inline size_t handle_count(size_t n) { return n < 2 ? 0 : n - 2; }

struct touched {
    size_t a, b, c;
};

#ifdef DIVISION
static inline u64 reciprocal(u64 m) { return 0; }
static inline struct touched touched_by(u64 h, size_t m, u64 r) {
    return (struct touched){h % m, m + (h >> 21) % m, 2 * m + (h >> 42) % m};
}
#else
static inline u64 reciprocal(u64 m) { return ~(u64)0 / m; }

// The high product is the quotient or one less: m is taken once more, and given back where that was too much.
static inline u64 rest(u64 h, u64 m, u64 r) {
    u64 less = h - high_product(h, r) * m - m;
    return less + (less >> 63) * m;
}

// The low product is the fraction x / m in units of 2^-64; x * m < 2^64.
static inline u64 small_rest(u64 x, u64 m, u64 r) { return high_product(x * (r + 1), m); }

static inline struct touched touched_by(u64 h, size_t m, u64 r) {
    return (struct touched){rest(h, m, r), m + small_rest(h >> 21, m, r), 2 * m + small_rest(h >> 42, m, r)};
}
#endif

static inline u16 value_of(const u16 *cells, size_t m, u64 r, u64 h) {
    struct touched at = touched_by(h, m, r);
    return cells[at.a] ^ cells[at.b] ^ cells[at.c];
}

static inline u16 look_up(const u16 *cells, size_t t, u64 seed, u64 item) {
    size_t m = segment_size(t);
    return value_of(cells, m, reciprocal(m), mixed_hash(item, mix_seed(seed)));
}

// ---- tables

// The first row that is not above the one before it, 0 if the keys rise.
static inline size_t first_fall(const u64 *keys, size_t n) {
    for (size_t i = 1; i < n; i++)
        if (keys[i] <= keys[i - 1])
            return i;
    return 0;
}

static inline size_t bucket_count(size_t n, size_t b) { return (n + b - 1) / b; }

static inline unsigned bucket_length(const u64 *keys, size_t n, size_t b, size_t i) {
    size_t first = i * b, end = first + b < n ? first + b : n;
    return end - first == 1 ? 63 : shared(keys[first], keys[end - 1]);
}

// What a neighbour index is over: the delimiters of buckets of b rows, k of them. With b = 1 they are the table itself, and are read
// without a product.
static inline u64 delimiter_at(const u64 *keys, size_t n, size_t b, size_t i) {
    if (b == 1)
        return keys[i];
    size_t end = i * b + b;
    return keys[(end <= n ? end : n) - 1];
}

static inline unsigned len_at(const u64 *keys, size_t n, size_t b, size_t m) {
    return shared(delimiter_at(keys, n, b, m - 1), delimiter_at(keys, n, b, m));
}

// ---- the items of each map

// A specialised builder is a function of its own with all its parts in it: left to itself the compiler keeps the cells of an item out of
// line, and the switch with them.
#ifdef SPECIALISED
#define PART __attribute__((always_inline)) static inline
#define WHOLE __attribute__((noinline)) static
#else
#define PART static inline
#define WHOLE static inline
#endif

// HANDLES are those of all rows, DELIMITERS the handles of the delimiters.
enum kind { KEYS, PREFIXES, HANDLES, OFFSETS, DELIMITERS };

struct map {
    enum kind kind;
    const u64 *keys;
    size_t n, b, k; // rows, rows in a bucket, and buckets
    const u16 *left, *right;
    u64 mixed;   // the mixed seed
    size_t t, m; // items, and cells of a segment
    u64 r;       // the reciprocal of m
};

static inline size_t handle_split(const u16 *left, size_t i) { return i + 1 < left[0] ? i + 1 : i + 2; }

PART u64 handle_at(const struct map *p, size_t b, size_t k, size_t i) {
    size_t m = handle_split(p->left, i), first = p->left[m], end = p->right[m];
    unsigned q = 0;
    if (first > 0)
        q = len_at(p->keys, p->n, b, first);
    if (end < k && len_at(p->keys, p->n, b, end) > q)
        q = len_at(p->keys, p->n, b, end);
    return prefix_item(delimiter_at(p->keys, p->n, b, m), fattest(q, len_at(p->keys, p->n, b, m)));
}

PART u64 item_at(const struct map *p, size_t i) {
    switch (p->kind) {
    case KEYS:
    case OFFSETS:
        return p->keys[i];
    case PREFIXES:
        return prefix_item(p->keys[i * p->b], bucket_length(p->keys, p->n, p->b, i));
    case HANDLES:
        return handle_at(p, 1, p->n, i);
    default:
        return handle_at(p, p->b, p->k, i);
    }
}

PART u16 value_at(const struct map *p, size_t i) {
    switch (p->kind) {
    case KEYS:
        return 256 * bucket_length(p->keys, p->n, p->b, i / p->b) + i % p->b;
    case PREFIXES:
        return i;
    case OFFSETS:
        return i % p->b;
    default:
        return handle_split(p->left, i);
    }
}

// ---- the build of one map

PART u64 hash_at(const struct map *p, size_t i) { return mixed_hash(item_at(p, i), p->mixed); }
PART struct touched cells_at(const struct map *p, size_t i) { return touched_by(hash_at(p, i), p->m, p->r); }

// Of each cell the items left and the xor of their numbers; of each item 0, or 1 more than the cell at which it got its turn; the turns.
struct work {
    u16 *count, *xors, *marks, *queue;
    size_t turns;
};

// Gives the one item that is left at cell c its turn, where there is one that has none yet.
static inline void try_cell(struct work *w, size_t c) {
    if (w->count[c] != 1)
        return;
    u16 i = w->xors[c];
    if (w->marks[i])
        return;
    w->marks[i] = c + 1;
    w->queue[w->turns++] = i;
}

// The answer is how many items are in the largest jam, 0 where the map is built.
PART size_t build_map(struct map *p, u64 seed, u16 *cells, u16 *work) {
    size_t t = p->t, m = p->m = segment_size(t), all = 3 * m;
    p->mixed = mix_seed(seed), p->r = reciprocal(m);
    struct work w = {work, work + all, work + 2 * all, work + 2 * all + t, 0};
    __builtin_memset(cells, 0, all * sizeof *cells);
    __builtin_memset(work, 0, (2 * all + t) * sizeof *work);
    for (size_t i = 0; i < t; i++) {
        struct touched at = cells_at(p, i);
        w.count[at.a]++, w.xors[at.a] ^= i;
        w.count[at.b]++, w.xors[at.b] ^= i;
        w.count[at.c]++, w.xors[at.c] ^= i;
    }
    for (size_t c = 0; c < all; c++)
        try_cell(&w, c);
    for (size_t q = 0; q < w.turns; q++) {
        u16 i = w.queue[q];
        struct touched at = cells_at(p, i);
        w.count[at.a]--, w.xors[at.a] ^= i;
        w.count[at.b]--, w.xors[at.b] ^= i;
        w.count[at.c]--, w.xors[at.c] ^= i;
        try_cell(&w, at.a);
        try_cell(&w, at.b);
        try_cell(&w, at.c);
    }
    if (w.turns == t)
        for (size_t turn = t; turn-- > 0;) {
            size_t i = w.queue[turn], c = w.marks[i] - 1;
            cells[c] ^= value_of(cells, m, p->r, hash_at(p, i)) ^ value_at(p, i);
        }
    __builtin_memset(work, 0, (2 * all + 2 * t) * sizeof *work);
    return t - w.turns;
}

// Map 1, map 2 and map 3; and map 1 of the slim profile.
WHOLE size_t build_keys(const u64 *keys, size_t n, size_t b, u64 seed, u16 *cells, u16 *work) {
    struct map p = {.kind = KEYS, .keys = keys, .n = n, .b = b, .t = n};
    return build_map(&p, seed, cells, work);
}
WHOLE size_t build_prefixes(const u64 *keys, size_t n, size_t b, size_t k, u64 seed, u16 *cells, u16 *work) {
    struct map p = {.kind = PREFIXES, .keys = keys, .n = n, .b = b, .t = k};
    return build_map(&p, seed, cells, work);
}
WHOLE size_t build_handles(const u64 *keys, size_t n, size_t b, size_t k, const u16 *left, const u16 *right, u64 seed, u16 *handles,
                           u16 *work) {
    struct map p = {.kind = b == 1 ? HANDLES : DELIMITERS, .keys = keys, .n = n, .b = b, .k = k, .left = left, .right = right, .t = handle_count(k)};
    return build_map(&p, seed, handles, work);
}
WHOLE size_t build_offsets(const u64 *keys, size_t n, size_t b, u64 seed, u16 *cells, u16 *work) {
    struct map p = {.kind = OFFSETS, .keys = keys, .n = n, .b = b, .t = n};
    return build_map(&p, seed, cells, work);
}

// ---- the bounds of the splits

// The rows of each split, by jumping over the rows of longer ones; entry 0 of left is the root.
static inline void build_bounds(const u64 *keys, size_t n, size_t b, size_t k, u16 *left, u16 *right) {
    if (k == 0)
        return;
    for (size_t m = 1; m < k; m++) {
        unsigned l = len_at(keys, n, b, m);
        size_t j = m - 1;
        while (j > 0 && len_at(keys, n, b, j) >= l)
            j = left[j];
        left[m] = j;
    }
    for (size_t m = k - 1; m > 0; m--) {
        unsigned l = len_at(keys, n, b, m);
        size_t j = m + 1;
        while (j < k && len_at(keys, n, b, j) >= l)
            j = right[j];
        right[m] = j;
    }
    size_t root = 0;
    unsigned least = 65;
    for (size_t m = 1; m < k; m++) {
        unsigned l = len_at(keys, n, b, m);
        if (l < least)
            least = l, root = m;
    }
    left[0] = root;
    right[0] = 0;
}

// The length of each split; entry 0 is 0.
static inline void build_lengths(const u64 *keys, size_t n, size_t b, size_t k, u8 *lengths) {
    if (k == 0)
        return;
    lengths[0] = 0;
    for (size_t m = 1; m < k; m++)
        lengths[m] = len_at(keys, n, b, m);
}

// The neighbour index over the delimiters: map 3 with the bounds and the lengths.
static inline size_t build_neighbour(const u64 *keys, size_t n, size_t b, size_t k, u64 seed3, u16 *handles, u16 *left, u16 *right, u16 *work,
                                     u8 *lengths) {
    build_bounds(keys, n, b, k, left, right);
    build_lengths(keys, n, b, k, lengths);
    return build_handles(keys, n, b, k, left, right, seed3, handles, work);
}

// What a jam leaves. The work is 0 already: each map leaves it so, and map 1 takes all of its named length.
static inline u64 jammed(size_t map, size_t size, size_t k, u16 *cells, size_t cells_all, u16 *handles, size_t handles_all, u16 *left,
                         u16 *right, u8 *lengths) {
    __builtin_memset(cells, 0, cells_all * sizeof *cells);
    __builtin_memset(handles, 0, handles_all * sizeof *handles);
    __builtin_memset(left, 0, k * sizeof *left);
    __builtin_memset(right, 0, k * sizeof *right);
    __builtin_memset(lengths, 0, k);
    return JAMMED(map, size);
}

// ---- the walk

static inline u64 place(const u64 *keys, size_t n, size_t b, size_t k, u64 x, size_t before, u64 probes) {
    u64 stands = before < k && delimiter_at(keys, n, b, before) == x;
    return before | probes << 32 | stands << 40;
}

// The walk over the delimiters, once the stores are seen to be long enough.
static inline u64 walk(const u64 *keys, size_t n, size_t b, size_t k, u64 seed3, const u16 *handles, const u16 *left, const u16 *right,
                       const u8 *lengths, u64 x) {
    size_t t = handle_count(k);
    if (k == 0)
        return place(keys, n, b, k, x, 0, 0);
    if (k == 1)
        return place(keys, n, b, k, x, x > delimiter_at(keys, n, b, 0), 0);
    size_t node = left[0];
    if (node == 0 || node >= k)
        return REFUSED(6, 0);
    unsigned lower = lengths[node], upper = 64;
    if (lower > 63)
        return REFUSED(6, 0);
    if (shared(x, delimiter_at(keys, n, b, node)) < lower)
        return place(keys, n, b, k, x, x <= delimiter_at(keys, n, b, node) ? 0 : k, 0);
    u64 probes = 0;
    while (lower + 1 < upper) {
        unsigned f = fattest(lower, upper - 1);
        size_t m = look_up(handles, t, seed3, prefix_item(x, f));
        probes++;
        unsigned l;
        if (m > 0 && m < k && (l = lengths[m]) >= f && l < upper && shared(x, delimiter_at(keys, n, b, m)) >= l)
            node = m, lower = l;
        else
            upper = f;
    }
    size_t first = left[node], end = right[node];
    if (!(first < node && node < end && end <= k))
        return REFUSED(6, 0);
    if (x >> (63 - lower) & 1)
        return place(keys, n, b, k, x, x <= delimiter_at(keys, n, b, node) ? node : end, probes);
    return place(keys, n, b, k, x, x <= delimiter_at(keys, n, b, first) ? first : node, probes);
}

// ---- the entries

#ifndef NO_FULL
u64 index_full_build(const u64 *keys, size_t n, size_t b, u64 seed1, u64 seed2, u64 seed3, u16 *cells, size_t cells_n, u16 *handles,
                     size_t handles_n, u16 *left, size_t left_n, u16 *right, size_t right_n, u16 *work, size_t work_n, u8 *lengths,
                     size_t lengths_n) {
    if (n > MOST)
        return REFUSED(1, 0);
    if (b < 2 || b > 256)
        return REFUSED(2, 0);
    size_t row = first_fall(keys, n);
    if (row > 0)
        return REFUSED(3, row);
    size_t k = bucket_count(n, b), c = cell_count(n), cells_all = c + cell_count(k), handles_all = cell_count(handle_count(n));
    if (cells_n < cells_all)
        return REFUSED(4, 1);
    if (handles_n < handles_all)
        return REFUSED(4, 2);
    if (left_n < n)
        return REFUSED(4, 3);
    if (right_n < n)
        return REFUSED(4, 4);
    if (work_n < 2 * c + 2 * n)
        return REFUSED(4, 5);
    if (lengths_n < n)
        return REFUSED(4, 6);
    size_t map = 1, size = build_keys(keys, n, b, seed1, cells, work);
    if (!size)
        map = 2, size = build_prefixes(keys, n, b, k, seed2, cells + c, work);
    if (!size)
        map = 3, size = build_neighbour(keys, n, 1, n, seed3, handles, left, right, work, lengths);
    if (!size)
        return 0;
    return jammed(map, size, n, cells, cells_all, handles, handles_all, left, right, lengths);
}

u64 index_call_ask(const u64 *keys, size_t n, const u8 *bytes, size_t bytes_n, size_t b, u64 seed1, u64 seed2, const u16 *cells,
                   size_t cells_n, u64 x) {
    if (n > MOST)
        return REFUSED(1, 0);
    if (b < 2 || b > 256)
        return REFUSED(2, 0);
    size_t k = bucket_count(n, b), c = cell_count(n);
    if (cells_n < c + cell_count(k))
        return REFUSED(4, 1);
    if (bytes_n < n)
        return REFUSED(4, 7);
    u16 value = look_up(cells, n, seed1, x);
    unsigned length = value / 256, offset = value % 256;
    if (length > 63)
        return ABSENT;
    size_t row = look_up(cells + c, k, seed2, prefix_item(x, length)) * b + offset;
    if (row >= n || keys[row] != x)
        return ABSENT;
    return bytes[row] == 0 ? row : WITHDRAWN(row);
}

u64 index_neighbour_ask(const u64 *keys, size_t n, u64 seed3, const u16 *handles, size_t handles_n, const u16 *left, size_t left_n,
                 const u16 *right, size_t right_n, const u8 *lengths, size_t lengths_n, u64 x) {
    if (n > MOST)
        return REFUSED(1, 0);
    if (handles_n < cell_count(handle_count(n)))
        return REFUSED(4, 2);
    if (left_n < n)
        return REFUSED(4, 3);
    if (right_n < n)
        return REFUSED(4, 4);
    if (lengths_n < n)
        return REFUSED(4, 6);
    return walk(keys, n, 1, n, seed3, handles, left, right, lengths, x);
}
#endif

#ifndef NO_SLIM
u64 index_slim_build(const u64 *keys, size_t n, size_t b, u64 seed1, u64 seed3, u16 *offsets, size_t offsets_n, u16 *handles,
                     size_t handles_n, u16 *left, size_t left_n, u16 *right, size_t right_n, u16 *work, size_t work_n, u8 *lengths,
                     size_t lengths_n) {
    if (n > MOST)
        return REFUSED(1, 0);
    if (b < 2 || b > 256)
        return REFUSED(2, 0);
    size_t row = first_fall(keys, n);
    if (row > 0)
        return REFUSED(3, row);
    size_t k = bucket_count(n, b), c = cell_count(n), handles_all = cell_count(handle_count(k));
    if (offsets_n < c)
        return REFUSED(4, 1);
    if (handles_n < handles_all)
        return REFUSED(4, 2);
    if (left_n < k)
        return REFUSED(4, 3);
    if (right_n < k)
        return REFUSED(4, 4);
    if (work_n < 2 * c + 2 * n)
        return REFUSED(4, 5);
    if (lengths_n < k)
        return REFUSED(4, 6);
    size_t map = 1, size = build_offsets(keys, n, b, seed1, offsets, work);
    if (!size)
        map = 3, size = build_neighbour(keys, n, b, k, seed3, handles, left, right, work, lengths);
    if (!size)
        return 0;
    return jammed(map, size, k, offsets, c, handles, handles_all, left, right, lengths);
}

u64 index_slim_ask(const u64 *keys, size_t n, const u8 *bytes, size_t bytes_n, size_t b, u64 seed1, u64 seed3, const u16 *offsets,
                   size_t offsets_n, const u16 *handles, size_t handles_n, const u16 *left, size_t left_n, const u16 *right, size_t right_n,
                   const u8 *lengths, size_t lengths_n, u64 x) {
    if (n > MOST)
        return REFUSED(1, 0);
    if (b < 2 || b > 256)
        return REFUSED(2, 0);
    size_t k = bucket_count(n, b);
    if (offsets_n < cell_count(n))
        return REFUSED(4, 1);
    if (handles_n < cell_count(handle_count(k)))
        return REFUSED(4, 2);
    if (left_n < k)
        return REFUSED(4, 3);
    if (right_n < k)
        return REFUSED(4, 4);
    if (lengths_n < k)
        return REFUSED(4, 6);
    if (bytes_n < n)
        return REFUSED(4, 7);
    u64 near = walk(keys, n, b, k, seed3, handles, left, right, lengths, x);
    if (near >> 63)
        return near;
    size_t bucket = (u16)near;
    if (bucket == k)
        return near | BESIDE_ABSENT;
    size_t row = bucket * b + look_up(offsets, n, seed1, x);
    if (row >= n || keys[row] != x)
        return near | BESIDE_ABSENT;
    return near | (bytes[row] == 0 ? BESIDE(row) : BESIDE_WITHDRAWN(row));
}
#endif
