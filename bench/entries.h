// The entries that are compared, as C sees them: the crate `bench` exports the proved ones, twin.c defines the unverified ones.
// A slice is a pointer and a length. Every answer is one number: a planned row, a withdrawn row | 1 << 32, or before | probes << 32 |
// stands << 40; absent is all ones; a build that is taken answers 0; a refusal is 2^63 | number << 32 | what it names, and a jam has its
// size << 40 beside. A slim ask answers its place among the delimiters in the bits of a neighbour ask, and its outcome in others beside
// them: row << 16, and 1 << 41 where the row is withdrawn; or 1 << 42, for absent.
#ifndef ENTRIES_H
#define ENTRIES_H

// No header of a C library is needed, so that any clang compiles this.
typedef __SIZE_TYPE__ size_t;
typedef __UINT64_TYPE__ u64;
typedef __UINT32_TYPE__ u32;
typedef __UINT16_TYPE__ u16;
typedef __UINT8_TYPE__ u8;

#define ABSENT (~(u64)0)
#define WITHDRAWN(row) ((u64)1 << 32 | (u64)(row))
#define REFUSED(number, named) ((u64)1 << 63 | (u64)(number) << 32 | (u64)(named))
#define JAMMED(map, size) (REFUSED(5, map) | (u64)(size) << 40)
#define BESIDE(row) ((u64)(row) << 16)
#define BESIDE_WITHDRAWN(row) (BESIDE(row) | (u64)1 << 41)
#define BESIDE_ABSENT ((u64)1 << 42)

u64 index_full_build(const u64 *keys, size_t n, size_t b, u64 seed1, u64 seed2, u64 seed3, u16 *cells, size_t cells_n, u16 *handles,
                     size_t handles_n, u16 *left, size_t left_n, u16 *right, size_t right_n, u16 *work, size_t work_n, u8 *lengths,
                     size_t lengths_n);
u64 index_call_ask(const u64 *keys, size_t n, const u8 *bytes, size_t bytes_n, size_t b, u64 seed1, u64 seed2, const u16 *cells,
                   size_t cells_n, u64 x);
u64 index_neighbour_ask(const u64 *keys, size_t n, u64 seed3, const u16 *handles, size_t handles_n, const u16 *left, size_t left_n,
                 const u16 *right, size_t right_n, const u8 *lengths, size_t lengths_n, u64 x);
u64 index_slim_build(const u64 *keys, size_t n, size_t b, u64 seed1, u64 seed3, u16 *offsets, size_t offsets_n, u16 *handles,
                     size_t handles_n, u16 *left, size_t left_n, u16 *right, size_t right_n, u16 *work, size_t work_n, u8 *lengths,
                     size_t lengths_n);
u64 index_slim_ask(const u64 *keys, size_t n, const u8 *bytes, size_t bytes_n, size_t b, u64 seed1, u64 seed3, const u16 *offsets,
                   size_t offsets_n, const u16 *handles, size_t handles_n, const u16 *left, size_t left_n, const u16 *right, size_t right_n,
                   const u8 *lengths, size_t lengths_n, u64 x);
#endif
