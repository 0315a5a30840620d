// What a user would take instead, by time in one run, natively (any processor): the unverified twin of the two indexes beside binary search,
// hash tables, a minimal perfect hash (CHM of cmph) and Judy arrays; everything in cache. bench/native says which libraries are there.
//   native TABLE N     TABLE t: calls of a timetable; r: random keys
// Two numbers an ask: asks that don't depend on each other (the processor overlaps them), and each ask waiting for the answer before it.
#ifdef WITH_JUDY
#include <Judy.h>
#endif
#ifdef WITH_ABSL
#include <absl/container/flat_hash_map.h>
#endif
#ifdef WITH_CMPH
#include <cmph.h>
#endif
#include <algorithm>
#include <chrono>
#include <cstdio>
#include <cstdlib>
#include <cstring>
#include <string>
#include <unordered_map>
#include <vector>
extern "C" {
#include "entries.h"
}

static u64 state = 42;
static u64 random64() {
    u64 z = state += 0x9E3779B97F4A7C15;
    z = (z ^ z >> 30) * 0xBF58476D1CE4E5B9;
    z = (z ^ z >> 27) * 0x94D049BB133111EB;
    return z ^ z >> 31;
}
static std::vector<u64> table(char kind, size_t n) {
    std::vector<u64> keys(n);
    u64 second = 0;
    for (size_t i = 0; i < n; i++) {
        u64 day = 20411 + i / 4000, stop = 3 + i / 100 % 40 * 7, trip = i % 100, block = 201 + (trip + stop) % 12;
        second = trip ? second + 420 + random64() % 480 : 18000 + random64() % 600;
        keys[i] = kind == 't' ? day << 48 | stop << 32 | second << 15 | block : random64();
    }
    std::sort(keys.begin(), keys.end());
    return keys;
}
static double now() {
    return std::chrono::duration<double, std::nano>(std::chrono::steady_clock::now().time_since_epoch()).count();
}
static volatile u64 zero = 0;
static u64 sink;

// The least of several rounds, in ns a turn.
template <class F> static double least(size_t turns, int rounds, F f) {
    double best = 1e30;
    for (int r = 0; r < rounds; r++) {
        double a = now();
        f();
        best = std::min(best, (now() - a) / turns);
    }
    return best;
}
// A build below 0 is one that a row above has.
template <class F> static void row(const char *name, double build, const std::vector<u64> *asks, F ask) {
    if (build < 0) std::printf("%-34s %8s", name, "above");
    else std::printf("%-34s %8.1f", name, build);
    for (int k = 0; k < 3; k++) {
        const std::vector<u64> &q = asks[k];
        double free_ = least(q.size(), 15, [&] {
            u64 sum = 0;
            for (u64 x : q) sum += ask(x);
            sink += sum;
        });
        double chained = least(q.size(), 15, [&] {
            u64 sum = 0, mask = zero;
            for (u64 x : q) sum += ask(x ^ (sum & mask));
            sink += sum;
        });
        std::printf("  %7.1f %7.1f", free_, chained);
    }
    std::printf("\n");
}

int main(int argc, char **argv) {
    char kind = argv[1][0];
    size_t n = std::strtoul(argv[2], 0, 10);
    std::vector<u64> keys = table(kind, n), asks[3];
    for (size_t i = 0; i < 65536; i++) {
        u64 k = keys[random64() % n], near = k;
        do near ^= i % 2 ? 1 + random64() % 15 : (u64)3 << 15; while (std::binary_search(keys.begin(), keys.end(), near));
        asks[0].push_back(k), asks[1].push_back(near), asks[2].push_back(random64());
    }
    std::printf("\nn = %zu, %s; ns: build a key (the twin's makes both indexes); asks of hits, near misses, random keys, each independent and chained\n\n", n,
                kind == 't' ? "timetable" : "random keys");
    std::printf("%-34s %8s  %7s %7s  %7s %7s  %7s %7s\n", "", "build", "hit", "chained", "near", "chained", "random", "chained");

    const size_t cells_n = 2 * 41295, handles_n = 41295, work_n = 2 * 41295 + 2 * 32768;
    std::vector<u16> cells(cells_n), handles(handles_n), left(n), right(n), work(work_n);
    std::vector<u8> lengths(n), bytes(n); // no row is withdrawn
    u64 seeds[4]; // the seed of map m at m
    for (size_t b : {2, 16, 256}) {
        auto build = [&] {
            return index_full_build(keys.data(), n, b, seeds[1], seeds[2], seeds[3], cells.data(), cells_n, handles.data(), handles_n, left.data(), n,
                                    right.data(), n, work.data(), work_n, lengths.data(), n);
        };
        seeds[1] = seeds[2] = seeds[3] = 0;
        while (u64 said = build()) seeds[said & 3]++; // a refusal names the map that jams
        double t = least(n, 15, build);
        row(("call index (twin), B=" + std::to_string(b)).c_str(), t, asks,
            [&](u64 x) { return index_call_ask(keys.data(), n, bytes.data(), n, b, seeds[1], seeds[2], cells.data(), cells_n, x); });
    }
    row("neighbour index (twin)", -1, asks, [&](u64 x) {
        return index_neighbour_ask(keys.data(), n, seeds[3], handles.data(), handles_n, left.data(), n, right.data(), n, lengths.data(), n, x);
    });
    row("std::lower_bound (rank and row)", 0, asks, [&](u64 x) { return (u64)(std::lower_bound(keys.begin(), keys.end(), x) - keys.begin()); });
    row("binary search without branches", 0, asks, [&](u64 x) {
        const u64 *base = keys.data();
        size_t len = n;
        while (len > 1) {
            size_t half = len / 2;
            base += (base[half - 1] < x) * half;
            len -= half;
        }
        return (u64)(base - keys.data()) + (*base < x);
    });
    {
        std::unordered_map<u64, u32> map;
        auto build = [&] {
            std::unordered_map<u64, u32>().swap(map);
            map.reserve(n);
            for (size_t i = 0; i < n; i++) map.emplace(keys[i], i);
        };
        double t = least(n, 15, build);
        row("std::unordered_map (row or absent)", t, asks, [&](u64 x) {
            auto it = map.find(x);
            return it == map.end() ? ABSENT : it->second;
        });
    }
#ifdef WITH_ABSL
    {
        absl::flat_hash_map<u64, u32> map;
        auto build = [&] {
            absl::flat_hash_map<u64, u32>().swap(map);
            map.reserve(n);
            for (size_t i = 0; i < n; i++) map.emplace(keys[i], i);
        };
        double t = least(n, 15, build);
        row("absl::flat_hash_map (row or absent)", t, asks, [&](u64 x) {
            auto it = map.find(x);
            return it == map.end() ? ABSENT : it->second;
        });
    }
#endif
#ifdef WITH_CMPH
    {
        cmph_t *hash = 0;
        auto build = [&] {
            if (hash) cmph_destroy(hash);
            cmph_io_adapter_t *source = cmph_io_struct_vector_adapter(keys.data(), sizeof(u64), 0, sizeof(u64), n);
            cmph_config_t *config = cmph_config_new(source);
            cmph_config_set_algo(config, CMPH_CHM);
            hash = cmph_new(config);
            cmph_config_destroy(config);
            cmph_io_struct_vector_adapter_destroy(source);
        };
        double t = least(n, 15, build);
        if (!hash) return 1;
        row("cmph CHM (a row for every key)", t, asks, [&](u64 x) { return (u64)cmph_search(hash, (const char *)&x, sizeof x); });
        row("cmph CHM, key compared", t, asks, [&](u64 x) {
            u64 r = cmph_search(hash, (const char *)&x, sizeof x);
            return r < n && keys[r] == x ? r : ABSENT;
        });
        std::printf("  (CHM packed: %.1f bits a key)\n", 8.0 * cmph_packed_size(hash) / n);
    }
#endif
#ifdef WITH_JUDY
    {
        Pvoid_t rows = 0, set = 0;
        auto build_rows = [&] {
            Word_t freed;
            JLFA(freed, rows);
            for (size_t i = 0; i < n; i++) {
                *(PWord_t)JudyLIns(&rows, keys[i], PJE0) = i;
            }
        };
        auto build_set = [&] {
            Word_t freed;
            int rc;
            J1FA(freed, set);
            for (size_t i = 0; i < n; i++) J1S(rc, set, keys[i]);
        };
        double t = least(n, 15, build_rows), t1 = least(n, 15, build_set);
        row("JudyL (row or absent)", t, asks, [&](u64 x) {
            PWord_t v = (PWord_t)JudyLGet(rows, x, PJE0);
            return v ? (u64)*v : ABSENT;
        });
        row("Judy1Count (rank)", t1, asks, [&](u64 x) {
            Word_t c = 0;
            if (x) J1C(c, set, 0, x - 1);
            return (u64)c;
        });
        Word_t a, b;
        JLMU(a, rows);
        J1MU(b, set);
        std::printf("  (JudyL %.1f bits a key, Judy1 %.1f)\n", 8.0 * a / n, 8.0 * b / n);
    }
#endif
    if (sink == 1) std::printf("\n"); // so that no answer is left out
}
