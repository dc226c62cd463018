// Samples of the serial scheme, written by hand for speed and not proved: for each sample a key is drawn for each
// activity, the list by keys is chosen, and booked at least starts on a table of periods. The modes, the samples and
// what is printed are those of `scheme_bench`.
//
// usage: sample line|list|sample ROUNDS FILE.rcp        (a Patterson file with at most 16 resources and no calendar)
#include <immintrin.h>

#include <algorithm>
#include <cstdint>
#include <cstdio>
#include <cstdlib>
#include <cstring>
#include <vector>

struct Instance {
    int count, resources;
    std::vector<int> capacities, durations, demands;
    std::vector<int> successor_from, successors, predecessors;
};

static Instance read(const char* path) {
    std::FILE* file = std::fopen(path, "r");
    if (!file) std::exit(1);
    auto number = [&] {
        int value;
        if (std::fscanf(file, "%d", &value) != 1) std::exit(1);
        return value;
    };
    Instance i;
    i.count = number();
    i.resources = number();
    for (int k = 0; k < i.resources; k++) i.capacities.push_back(number());
    i.predecessors.assign(i.count, 0);
    for (int a = 0; a < i.count; a++) {
        i.durations.push_back(number());
        for (int k = 0; k < i.resources; k++) i.demands.push_back(number());
        i.successor_from.push_back(i.successors.size());
        for (int left = number(); left > 0; left--) {
            i.successors.push_back(number() - 1);
            i.predecessors[i.successors.back()]++;
        }
    }
    i.successor_from.push_back(i.successors.size());
    std::fclose(file);
    return i;
}

// PCG32 (O'Neill 2014): a state and the number of a stream begin it.
struct Generator {
    uint64_t state, increment;
    Generator(uint64_t seed, uint64_t stream) : state(0), increment(stream << 1 | 1) {
        next();
        state += seed;
        next();
    }
    uint32_t next() {
        uint64_t old = state;
        state = old * 6364136223846793005u + increment;
        uint32_t word = uint32_t((old >> 18 ^ old) >> 27), turn = uint32_t(old >> 59);
        return word >> turn | word << (-turn & 31);
    }
};

// One row of the table: what is left of each resource in a period, in V vectors of 8 numbers.
template <int V>
struct Row {
    __m128i lanes[V];
};

template <int V>
static Row<V> row_of(const int* numbers, int count) {
    alignas(16) uint16_t lanes[8 * V] = {};
    for (int k = 0; k < count; k++) lanes[k] = numbers[k];
    Row<V> row;
    std::memcpy(&row, lanes, sizeof row);
    return row;
}

template <int V>
static bool covers(const Row<V>& left, const Row<V>& demands) {
    __m128i excess = _mm_subs_epu16(demands.lanes[0], left.lanes[0]);
    for (int v = 1; v < V; v++) excess = _mm_or_si128(excess, _mm_subs_epu16(demands.lanes[v], left.lanes[v]));
    return _mm_testz_si128(excess, excess);
}

// All that one sample after another is scheduled with, in rows of V vectors.
template <int V>
struct Sampler {
    const Instance& i;
    int n;
    Row<V> full;
    std::vector<Row<V>> table, demands;
    std::vector<int> order, waiting, ready;
    std::vector<uint64_t> pile;
    std::vector<uint32_t> keys;
    int used = 0;

    explicit Sampler(const Instance& i)
        : i(i), n(i.count), full(row_of<V>(i.capacities.data(), i.resources)), order(n), waiting(n), ready(n), pile(n), keys(n) {
        int horizon = 1;
        for (int d : i.durations) horizon += d;
        table.assign(horizon, full);
        for (int a = 0; a < n; a++) demands.push_back(row_of<V>(&i.demands[size_t(a) * i.resources], i.resources));
        for (int a = 0; a < n; a++) keys[a] = a;
    }

    void draw(long sample) {
        Generator generator(1, sample);
        for (auto& key : keys) key = generator.next();
    }

    // The list by keys: the free activities are a pile of falling rank.
    void choose() {
        waiting = i.predecessors;
        int free = 0;
        auto add = [&](int a) {
            uint64_t rank = uint64_t(keys[a]) << 32 | uint32_t(a);
            int place = free++;
            for (; place > 0 && pile[place - 1] < rank; place--) pile[place] = pile[place - 1];
            pile[place] = rank;
        };
        for (int a = 0; a < n; a++)
            if (waiting[a] == 0) add(a);
        for (int listed = 0; listed < n; listed++) {
            int a = uint32_t(pile[--free]);
            order[listed] = a;
            for (int s = i.successor_from[a]; s < i.successor_from[a + 1]; s++)
                if (--waiting[i.successors[s]] == 0) add(i.successors[s]);
        }
    }

    // Its schedule: each activity at its least start from its ready time on. The makespan is the answer.
    int book() {
        std::fill(table.begin(), table.begin() + used, full);
        std::fill(ready.begin(), ready.end(), 0);
        used = 0;
        for (int a : order) {
            int duration = i.durations[a], start = ready[a];
            if (duration > 0) {
                const Row<V> need = demands[a];
                int period = start;
                do {
                    bool has_room = covers<V>(table[period], need);
                    period++;
                    start = has_room ? start : period;
                } while (period < start + duration);
                for (int p = start; p < start + duration; p++)
                    for (int v = 0; v < V; v++) table[p].lanes[v] = _mm_sub_epi16(table[p].lanes[v], need.lanes[v]);
            }
            int finish = start + duration;
            used = std::max(used, finish);
            for (int s = i.successor_from[a]; s < i.successor_from[a + 1]; s++) {
                int b = i.successors[s];
                ready[b] = std::max(ready[b], finish);
            }
        }
        return used;
    }
};

template <int V>
static uint64_t run(const Instance& i, const char* mode, long rounds) {
    Sampler<V> sampler(i);
    uint64_t sum = 0;
    if (!std::strcmp(mode, "line")) {
        sampler.choose();
        for (long round = 0; round < rounds; round++) sampler.book();
        return rounds;
    }
    for (long sample = 0; sample < rounds; sample++) {
        sampler.draw(sample);
        sampler.choose();
        if (!std::strcmp(mode, "sample")) sum += sampler.book();
    }
    return std::strcmp(mode, "sample") ? rounds : sum;
}

int main(int count, char** words) {
    if (count != 4) return 1;
    Instance i = read(words[3]);
    long rounds = std::atol(words[2]);
    uint64_t number = i.resources <= 8 ? run<1>(i, words[1], rounds) : run<2>(i, words[1], rounds);
    std::printf("%llu\n", (unsigned long long)number);
}
