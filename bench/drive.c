// Runs one kind of work on the entries of entries.h, so that its instructions can be counted. Freestanding: no libc, so that the proved
// library and the twin run in the same few hundred instructions of surroundings, linked static at fixed addresses.
//
//   drive TABLE N B WORK TIMES SEED1 SEED2 SEED3
//   TABLE  t: calls of a timetable; r: random 64-bit keys
//   WORK   s: find seeds that the builds take, and digest stores and answers (for comparing two programs)
//          f: TIMES full builds
//          H, M, R: one full build, then TIMES call asks of hits, near misses, random keys; no row is withdrawn
//          h, m, r: one full build, then TIMES neighbour asks of them
//          g: TIMES slim builds
//          1, 2, 3: one slim build, then TIMES slim asks of hits, near misses, random keys; no row is withdrawn
// TIMES is at most 32,768. A library may lack the full entries or the slim ones; s then leaves them out.
#include "entries.h"

#pragma weak index_full_build
#pragma weak index_call_ask
#pragma weak index_neighbour_ask
#pragma weak index_slim_build
#pragma weak index_slim_ask

#define MOST 32768
#define CELLS 41295
#define BEYOND 16
#define STORES 6

static u64 keys[MOST], asks[MOST], seeds[4]; // the seed of map m at m
static int slim;                             // whether the slim profile is built and asked, in the same stores
static u16 cells[2 * CELLS + BEYOND], handles[CELLS + BEYOND], left[MOST + BEYOND], right[MOST + BEYOND], work[2 * CELLS + 2 * MOST + BEYOND];
static u8 lengths[MOST + BEYOND];
static u8 bytes[MOST + BEYOND]; // of the rows, all 0 until compare() withdraws some
static u16 *const store[STORES - 1] = {cells, handles, left, right, work}; // and the lengths
static size_t named[STORES], lent[STORES]; // the named length of each store, and how much of it is lent

// What compilers ask for.
__attribute__((used)) void *memset(void *p, int c, size_t n) {
    typedef u64 __attribute__((may_alias, vector_size(16), aligned(1))) wide;
    u64 v = (unsigned char)c * 0x0101010101010101ull;
    char *q = p;
    for (; n >= 64; n -= 64, q += 64) {
        ((wide *)q)[0] = ((wide *)q)[1] = ((wide *)q)[2] = ((wide *)q)[3] = (wide){v, v};
        __asm__ volatile("" ::: "memory");
    }
    for (; n; n--) {
        *q++ = c;
        __asm__ volatile("" ::: "memory");
    }
    return p;
}
__attribute__((used)) void *memcpy(void *restrict p, const void *restrict s, size_t n) {
    for (size_t i = 0; i < n; i++) {
        ((char *)p)[i] = ((const char *)s)[i];
        __asm__ volatile("" ::: "memory");
    }
    return p;
}

static long syscall3(long number, long a, long b, long c) {
    long r;
    __asm__ volatile("syscall" : "=a"(r) : "a"(number), "D"(a), "S"(b), "d"(c) : "rcx", "r11", "memory");
    return r;
}
static void print(const char *tag, u64 v) {
    char text[64];
    int n = 0, at = 64;
    while (tag[n]) n++;
    text[--at] = ' ';
    do text[--at] = "0123456789abcdef"[v % 16]; while (v /= 16);
    syscall3(1, 1, (long)tag, n);
    syscall3(1, 1, (long)(text + at), 64 - at);
}

static u64 state = 42;
static u64 random(void) { // SplitMix64
    u64 z = state += 0x9E3779B97F4A7C15;
    z = (z ^ z >> 30) * 0xBF58476D1CE4E5B9;
    z = (z ^ z >> 27) * 0x94D049BB133111EB;
    return z ^ z >> 31;
}
static u64 number(const char *s) {
    u64 v = 0;
    while (*s) v = v * 10 + *s++ - '0';
    return v;
}

// 100 calls a day at each of 40 stops, from 05:00 on, some ten minutes apart; twelve blocks.
static void timetable(size_t n) {
    u64 second = 0;
    for (size_t i = 0; i < n; i++) {
        u64 day = 20411 + i / 4000, stop = 3 + i / 100 % 40 * 7, trip = i % 100, block = 201 + (trip + stop) % 12;
        second = trip ? second + 420 + random() % 480 : 18000 + random() % 600;
        keys[i] = day << 48 | stop << 32 | second << 15 | block;
    }
}
static void spread(size_t n) {
    for (size_t i = 0; i < n; i++) keys[i] = random();
    for (size_t gap = n / 2; gap > 0; gap = gap == 2 ? 1 : gap * 5 / 11)
        for (size_t i = gap; i < n; i++) {
            u64 k = keys[i];
            size_t j = i;
            for (; j >= gap && keys[j - gap] > k; j -= gap) keys[j] = keys[j - gap];
            keys[j] = k;
        }
}
static int planned(size_t n, u64 x) {
    size_t a = 0, b = n;
    while (a < b) {
        size_t m = (a + b) / 2;
        if (keys[m] < x) a = m + 1; else b = m;
    }
    return a < n && keys[a] == x;
}
// Fills asks with hits (0), near misses (1: another block, or three seconds off) or random keys (2).
static void choose(size_t n, int what) {
    state = 7;
    for (size_t i = 0; i < MOST; i++) {
        u64 x = what == 2 ? random() : keys[random() % n];
        if (what == 1) do x ^= i % 2 ? 1 + random() % 15 : (u64)3 << 15; while (planned(n, x));
        asks[i] = x;
    }
}
static u64 digest;
static void note(u64 v) { digest = (digest ^ v) * 0xBF58476D1CE4E5B9 + 1, digest ^= digest >> 31; }

static size_t cell_count(size_t t) { return 3 * (42 * t / 100 + 3); }
static void lend(size_t n, u64 b) {
    size_t buckets = (n + b - 1) / b, k = slim ? buckets : n;
    size_t sizes[STORES] = {cell_count(n) + (slim ? 0 : cell_count(buckets)), cell_count(k < 2 ? 0 : k - 2), k, k, 2 * cell_count(n) + 2 * n, k};
    for (int i = 0; i < STORES; i++) named[i] = sizes[i], lent[i] = sizes[i] + BEYOND;
}
static u64 build(size_t n, u64 b) {
    if (slim)
        return index_slim_build(keys, n, b, seeds[1], seeds[3], cells, lent[0], handles, lent[1], left, lent[2], right, lent[3], work, lent[4],
                                lengths, lent[5]);
    return index_full_build(keys, n, b, seeds[1], seeds[2], seeds[3], cells, lent[0], handles, lent[1], left, lent[2], right, lent[3], work, lent[4],
                            lengths, lent[5]);
}
static u64 call_ask(size_t n, u64 b, u64 x) { return index_call_ask(keys, n, bytes, n, b, seeds[1], seeds[2], cells, lent[0], x); }
static u64 near_ask(size_t n, u64 x) {
    return index_neighbour_ask(keys, n, seeds[3], handles, lent[1], left, lent[2], right, lent[3], lengths, lent[5], x);
}

static u64 slim_ask(size_t n, u64 b, u64 x) {
    return index_slim_ask(keys, n, bytes, n, b, seeds[1], seeds[3], cells, lent[0], handles, lent[1], left, lent[2], right, lent[3], lengths,
                          lent[5], x);
}

// A build over stores that hold random numbers: what it says, and what it leaves there and beyond. Which filling of the cells is written would
// be free; the same algorithm writes the same one.
static u64 tried(size_t n, u64 b) {
    for (int i = 0; i < STORES - 1; i++)
        for (size_t j = 0; j < named[i] + BEYOND; j++) store[i][j] = random();
    for (size_t j = 0; j < named[5] + BEYOND; j++) lengths[j] = random();
    u64 said = build(n, b);
    note(said);
    for (int i = 0; i < STORES - 1; i++)
        for (size_t j = 0; j < named[i] + BEYOND; j++) note(store[i][j]);
    for (size_t j = 0; j < named[5] + BEYOND; j++) note(lengths[j]);
    return said;
}
// Stores as long as named, each of them one entry shorter, all of them empty; then each refusal beside those that come after it.
static void refusals(size_t n, u64 b) {
    for (int i = 0; i < STORES; i++) lent[i] = named[i];
    tried(n, b);
    for (int i = 0; i < STORES; i++) lent[i]--, tried(n, b), lent[i]++;
    for (int i = 0; i < STORES; i++) lent[i] = 0;
    tried(n, b);
    u64 kept = keys[n / 2];
    if (n > 1) keys[n / 2] = keys[n / 2 - 1];
    tried(n, b), tried(n, 1), tried(n, 257), tried(MOST + 1, 1);
    keys[n / 2] = kept;
}

// All that two programs have to agree on: what builds say and leave, for seeds that jam too; the answers; those of the call index with some rows
// withdrawn, and with row bytes and cells of more lengths; then the answers over false lengths alone, none of them over 63 and the root's the last
// to go, over a root of 64 bits and over damaged stores; and the refusals.
static void compare(size_t n, u64 b, size_t times) {
    u64 probes = 0, found = 0, withdrawn = 0, said;
    tried(0, b);
    for (u64 seed = 0; n <= 500 && seed < 64; seed++) { // small maps jam often
        seeds[1] = seeds[2] = seeds[3] = seed;
        tried(n, b);
    }
    // Seeds that differ, so that one can't stand for another; the seed of the map that is named goes up.
    for (u64 m = 1; m < 4; m++) seeds[m] = m - 1;
    while ((said = tried(n, b)) && seeds[said & 3] < 100) seeds[said & 3]++;
    print("seed1=", seeds[1]), print("seed2=", seeds[2]), print("seed3=", seeds[3]);
    for (int k = 0; k < 3; k++) {
        choose(n, k);
        for (size_t i = 0; i < times; i++) {
            u64 c = call_ask(n, b, asks[i]), p = near_ask(n, asks[i]);
            note(c), note(p), found += c != ABSENT, probes += p >> 32 & 255;
        }
    }
    print("found=", found), print("probes=", probes);
    for (size_t i = 0; i < MOST + BEYOND; i++) bytes[i] = random() % 4 ? 0 : (random() & 255) >> random() % 8;
    for (int k = 0; k < 3; k++) {
        choose(n, k);
        for (size_t i = 0; i < times; i++) {
            u64 c = call_ask(n, b, asks[i]);
            note(c), withdrawn += c != ABSENT && c >= WITHDRAWN(0);
        }
    }
    print("withdrawn=", withdrawn);
    size_t rows[] = {n, n - 1, n + BEYOND};
    choose(n, 0);
    for (size_t i = 0; i < times; i++)
        note(index_call_ask(keys, n, bytes, rows[i % 3], b, seeds[1], seeds[2], cells, named[0] - i / 3 % 2, asks[i]));
    for (int k = 0; k < 6; k++) {
        for (size_t i = 0; i < MOST; i++)
            if (k > 2 || i != left[0]) lengths[i] ^= random() & random() & random() & random() & 63;
        choose(n, k % 3);
        for (size_t i = 0; i < times; i++) note(near_ask(n, asks[i]));
    }
    u8 *root = &lengths[left[0]], length = *root;
    *root = 64, note(near_ask(n, asks[0])), *root = length;
    for (size_t i = 0; i < MOST; i++) {
        left[i] ^= random() >> 63 << random() % 16;
        right[i] ^= random() >> 63;
        cells[i] ^= random();
        handles[i] ^= random() & random() & random();
        lengths[i] ^= random() & random() & random() & random();
    }
    for (size_t i = 0; i < times; i++) note(call_ask(n, b, asks[i])), note(near_ask(n, asks[i]));
    note(index_call_ask(keys, n, bytes, 0, 1, 0, 0, cells, 9, 0));
    note(index_call_ask(keys, n, bytes, 0, 2, 0, 0, cells, 9, 0));
    note(index_call_ask(keys, MOST + 1, bytes, 0, 1, 0, 0, cells, 9, 0));
    note(index_neighbour_ask(keys, n, 0, handles, 1, left, MOST, right, MOST, lengths, MOST, 0));
    note(index_neighbour_ask(keys, n, 0, handles, CELLS, left, 0, right, MOST, lengths, MOST, 0));
    note(index_neighbour_ask(keys, n, 0, handles, CELLS, left, MOST, right, 0, lengths, MOST, 0));
    note(index_neighbour_ask(keys, n, 0, handles, CELLS, left, MOST, right, MOST, lengths, 0, 0));
    refusals(n, b);
}

// The same of the slim profile. Its offsets are damaged by small numbers, and by large ones.
static void compare_slim(size_t n, u64 b, size_t times) {
    u64 found = 0, withdrawn = 0, probes = 0, said;
    slim = 1;
    lend(0, b), tried(0, b), lend(n, b);
    for (u64 seed = 0; n <= 500 && seed < 64; seed++) {
        seeds[1] = seeds[3] = seed;
        tried(n, b);
    }
    seeds[1] = 0, seeds[3] = 1;
    while ((said = tried(n, b)) && seeds[said & 3] < 100) seeds[said & 3]++;
    print("slim1=", seeds[1]), print("slim3=", seeds[3]);
    for (int k = 0; k < 12; k++) {
        // Over true stores with all rows planned and with some withdrawn; then over false lengths, and over more and more damage.
        for (size_t i = 0; i < MOST + BEYOND; i++) bytes[i] = k < 3 || random() % 4 ? 0 : (random() & 255) >> random() % 8;
        for (size_t i = 0; k > 5 && i < named[2]; i++)
            if (k > 7 || i != left[0]) lengths[i] ^= random() & random() & random() & random() & 63;
        for (size_t i = 0; k > 8 && i < CELLS; i++) {
            cells[i] ^= k == 9 ? random() & random() & 3 : random() & random() & random();
            if (k == 9) continue;
            handles[i] ^= random() & random() & random();
            if (k == 11 && i < named[2]) left[i] ^= random() >> 63 << random() % 16, right[i] ^= random() >> 63;
        }
        choose(n, k % 3);
        for (size_t i = 0; i < times; i++) {
            u64 a = slim_ask(n, b, asks[i]);
            note(a);
            if (k < 3) found += !(a & BESIDE_ABSENT), probes += a >> 32 & 255;
            else if (k < 6) withdrawn += !(a >> 63) && a >> 41 & 1;
        }
    }
    print("slim-found=", found), print("slim-probes=", probes), print("slim-withdrawn=", withdrawn);
    u8 *root = &lengths[left[0] < named[5] ? left[0] : 0], length = *root;
    *root = 64, note(slim_ask(n, b, asks[0])), *root = length;
    // Each store of the ask one entry short, all of them, and 1 and 2 before 4.
    size_t have[7] = {named[0], named[1], named[2], named[3], 0, named[5], n};
    for (int i = 0; i < 9; i++) {
        size_t h[7];
        for (int j = 0; j < 7; j++) h[j] = have[j] - (have[j] > 0 && (j == i || i == 8));
        for (int j = 0; j < 4; j++)
            note(index_slim_ask(keys, j == 3 ? MOST + 1 : n, bytes, h[6], j ? (j == 1 ? 1 : 257) : b, seeds[1], seeds[3], cells, h[0], handles, h[1],
                                left, h[2], right, h[3], lengths, h[5], asks[i]));
    }
    refusals(n, b);
}

__attribute__((used)) static void start(char **argv) {
    size_t n = number(argv[2]), b = number(argv[3]), times = number(argv[5]);
    char what = argv[4][0];
    for (int m = 1; m < 4; m++) seeds[m] = number(argv[5 + m]);
    if (argv[1][0] == 't') timetable(n); else spread(n);
    slim = what == 'g' || (what >= '1' && what <= '3');
    lend(n, b);
    switch (what) {
    case 's':
        if (index_full_build) compare(n, b, times);
        if (index_slim_build) compare_slim(n, b, times);
        break;
    case 'f': case 'g':
        for (size_t i = 0; i < times; i++) note(build(n, b));
        break;
    case 'H': case 'M': case 'R':
        choose(n, what == 'H' ? 0 : what == 'M' ? 1 : 2);
        note(build(n, b));
        for (size_t i = 0; i < times; i++) note(call_ask(n, b, asks[i]));
        break;
    case 'h': case 'm': case 'r':
        choose(n, what == 'h' ? 0 : what == 'm' ? 1 : 2);
        note(build(n, b));
        for (size_t i = 0; i < times; i++) note(near_ask(n, asks[i]));
        break;
    case '1': case '2': case '3':
        choose(n, what - '1');
        note(build(n, b));
        for (size_t i = 0; i < times; i++) note(slim_ask(n, b, asks[i]));
        break;
    }
    print("digest=", digest);
    syscall3(1, 1, (long)"\n", 1);
    syscall3(60, 0, 0, 0);
}
__asm__(".globl _start\n_start:\n\tlea 8(%rsp), %rdi\n\tand $-16, %rsp\n\tcall start\n");
