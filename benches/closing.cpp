// Measures how many networks of 48 points and 64 conditions the engine closes a second, beside a plain Floyd-Warshall on the same edges, and
// compares what both find. Run it by benches/run.sh.
#include <algorithm>
#include <chrono>
#include <cstddef>
#include <cstdint>
#include <cstdio>
#include <cstdlib>
#include <vector>

extern "C" {
size_t tagredwood_tighten_minutes(size_t points, const int64_t *conditions, size_t conditions_len, int64_t *matrix, size_t matrix_len,
                                  uint8_t *present, size_t present_len, uint16_t *cycle, size_t cycle_len, size_t *detail, size_t detail_len);
size_t tagredwood_tighten_ranks(size_t points, const int64_t *conditions, size_t conditions_len, int64_t *matrix, size_t matrix_len,
                                uint8_t *present, size_t present_len, uint16_t *cycle, size_t cycle_len, size_t *detail, size_t detail_len);
size_t tagredwood_close_minutes(size_t points, const int64_t *conditions, size_t conditions_len, size_t times);
size_t tagredwood_close_ranks(size_t points, const int64_t *conditions, size_t conditions_len, size_t times);
}

static const int64_t BLANK = INT64_MAX / 4;

// Pseudo-random numbers from a seed.
struct Random {
    uint64_t state;
    uint64_t next() {
        state += 0x9e3779b97f4a7c15ull;
        uint64_t z = state;
        z = (z ^ (z >> 30)) * 0xbf58476d1ce4e5b9ull;
        z = (z ^ (z >> 27)) * 0x94d049bb133111ebull;
        return z ^ (z >> 31);
    }
    int64_t below(int64_t n) { return int64_t(next() % uint64_t(n)); }
};

// A span of minute and rank, compared by the minute first.
struct Pair {
    int64_t minute, rank;
};
static Pair operator+(Pair a, Pair b) { return {a.minute + b.minute, a.rank + b.rank}; }
static bool operator<(Pair a, Pair b) { return a.minute < b.minute || (a.minute == b.minute && a.rank < b.rank); }
static bool operator==(Pair a, Pair b) { return a.minute == b.minute && a.rank == b.rank; }

struct Condition {
    int from, to;
    bool has_low, has_high;
    Pair low, high;
};

struct Network {
    int points;
    std::vector<Condition> conditions;
};

static std::vector<int64_t> minute_numbers(const Network &net) {
    std::vector<int64_t> v;
    for (const Condition &c : net.conditions)
        v.insert(v.end(), {c.from, c.to, c.has_low, c.low.minute, c.has_high, c.high.minute});
    return v;
}

static std::vector<int64_t> rank_numbers(const Network &net) {
    std::vector<int64_t> v;
    for (const Condition &c : net.conditions)
        v.insert(v.end(), {c.from, c.to, c.has_low, c.low.minute, c.low.rank, c.has_high, c.high.minute, c.high.rank});
    return v;
}

// Windows around hidden dates, on a chain through all points and then on chords; so there is a plan. Some windows may lack an end.
static Network consistent(Random &r, int points, int conditions, bool all_ends) {
    std::vector<Pair> dates(points);
    for (int p = 0; p < points; p++)
        dates[p] = {r.below(200000) - 100000, r.below(20) - 10};
    Network net{points, {}};
    for (int k = 0; k < conditions; k++) {
        int from = k < points - 1 ? k : int(r.below(points));
        int to = k < points - 1 ? k + 1 : int((from + 1 + r.below(points - 1)) % points);
        Pair d = {dates[to].minute - dates[from].minute, dates[to].rank - dates[from].rank};
        Condition c{from, to, true, true, {d.minute - r.below(500), d.rank - r.below(5)}, {d.minute + r.below(500), d.rank + r.below(5)}};
        if (!all_ends) {
            c.has_low = r.below(4) != 0;
            c.has_high = r.below(4) != 0;
        }
        net.conditions.push_back(c);
    }
    return net;
}

// Moves one window away from the hidden dates; the network mostly has no plan then.
static void disturb(Random &r, Network &net) {
    Condition &c = net.conditions[r.below(int64_t(net.conditions.size()))];
    int64_t by = r.below(2) ? 5000 : -5000;
    c.low.minute += by;
    c.high.minute += by;
}

// Plain Floyd-Warshall on whole numbers, a large number for a blank: fills from the edges and closes. False where a cycle is below zero.
__attribute__((noinline)) static bool plain_minutes(const Network &net, int64_t *d) {
    const int n = net.points;
    for (int i = 0; i < n * n; i++)
        d[i] = BLANK;
    for (const Condition &c : net.conditions) {
        if (c.has_high) {
            int64_t &e = d[c.from * n + c.to];
            e = std::min(e, c.high.minute);
        }
        if (c.has_low) {
            int64_t &e = d[c.to * n + c.from];
            e = std::min(e, -c.low.minute);
        }
    }
    for (int i = 0; i < n; i++)
        d[i * n + i] = 0;
    for (int k = 0; k < n; k++)
        for (int i = 0; i < n; i++) {
            const int64_t a = d[i * n + k];
            if (a >= BLANK)
                continue;
            for (int j = 0; j < n; j++) {
                const int64_t b = d[k * n + j];
                if (b < BLANK && a + b < d[i * n + j])
                    d[i * n + j] = a + b;
            }
        }
    for (int i = 0; i < n; i++)
        if (d[i * n + i] < 0)
            return false;
    return true;
}

// The same on pairs, only for comparing.
static bool plain_ranks(const Network &net, Pair *d) {
    const int n = net.points;
    for (int i = 0; i < n * n; i++)
        d[i] = {BLANK, 0};
    for (const Condition &c : net.conditions) {
        if (c.has_high) {
            Pair &e = d[c.from * n + c.to];
            if (c.high < e)
                e = c.high;
        }
        if (c.has_low) {
            Pair &e = d[c.to * n + c.from], w = {-c.low.minute, -c.low.rank};
            if (w < e)
                e = w;
        }
    }
    for (int i = 0; i < n; i++)
        d[i * n + i] = {0, 0};
    for (int k = 0; k < n; k++)
        for (int i = 0; i < n; i++) {
            const Pair a = d[i * n + k];
            if (a.minute >= BLANK)
                continue;
            for (int j = 0; j < n; j++) {
                const Pair b = d[k * n + j];
                if (b.minute < BLANK && a + b < d[i * n + j])
                    d[i * n + j] = a + b;
            }
        }
    for (int i = 0; i < n; i++)
        if (d[i * n + i] < Pair{0, 0})
            return false;
    return true;
}

static void fail(const char *what) {
    printf("FAILED: %s\n", what);
    exit(1);
}

// Follows the codes: 2×k is condition k forward with its high end, 2×k + 1 back with the opposite of its low end.
static void check_cycle(const Network &net, const uint16_t *cycle, size_t edges, bool ranks) {
    if (edges == 0 || edges > size_t(net.points))
        fail("the cycle's length");
    std::vector<bool> left(net.points, false);
    Pair total = {0, 0};
    int start = -1, at = -1;
    for (size_t e = 0; e < edges; e++) {
        size_t k = cycle[e] / 2;
        if (k >= net.conditions.size())
            fail("a code of no condition");
        const Condition &c = net.conditions[k];
        bool back = cycle[e] % 2;
        if (back ? !c.has_low : !c.has_high)
            fail("a code of a missing end");
        int from = back ? c.to : c.from, to = back ? c.from : c.to;
        if (at >= 0 && from != at)
            fail("edges that do not follow");
        if (left[from])
            fail("a point that is left twice");
        left[from] = true;
        if (start < 0)
            start = from;
        at = to;
        total = total + (back ? Pair{-c.low.minute, -c.low.rank} : c.high);
    }
    if (at != start)
        fail("a cycle that is not closed");
    if (!ranks)
        total.rank = 0;
    if (!(total < Pair{0, 0}))
        fail("a cycle that is not below zero");
}

// One network through both kinds, compared with the plain ones. Whether it was granted.
static bool compare(const Network &net, bool ranks) {
    const size_t n = net.points, width = ranks ? 2 : 1;
    std::vector<int64_t> numbers = ranks ? rank_numbers(net) : minute_numbers(net), matrix(n * n * width + 3, 77);
    std::vector<uint8_t> present(n * n + 3, 9);
    std::vector<uint16_t> cycle(n + 3, 5);
    size_t detail[1] = {0};
    size_t answer = (ranks ? tagredwood_tighten_ranks : tagredwood_tighten_minutes)(
        n, numbers.data(), numbers.size(), matrix.data(), matrix.size(), present.data(), present.size(), cycle.data(), cycle.size(), detail, 1);
    std::vector<int64_t> d(n * n);
    std::vector<Pair> p(n * n);
    bool plan = ranks ? plain_ranks(net, p.data()) : plain_minutes(net, d.data());
    if (plan) {
        if (answer != 0)
            fail("refused what has a plan");
        for (size_t i = 0; i < n * n; i++) {
            bool there = ranks ? p[i].minute < BLANK : d[i] < BLANK;
            if (there != (present[i] == 1))
                fail("another entry is missing");
            if (there && !(ranks ? Pair{matrix[2 * i], matrix[2 * i + 1]} == p[i] : matrix[i] == d[i]))
                fail("another entry");
        }
    } else {
        if (answer != 10)
            fail("granted what has no plan");
        check_cycle(net, cycle.data(), detail[0], ranks);
        for (size_t i = detail[0]; i < cycle.size(); i++)
            if (cycle[i] != 5)
                fail("cycle memory past the cycle");
    }
    for (size_t i = plan ? n * n * width : 0; i < matrix.size(); i++)
        if (matrix[i] != 77)
            fail("matrix memory that was not to be written");
    for (size_t i = plan ? n * n : 0; i < present.size(); i++)
        if (present[i] != 9)
            fail("marks that were not to be written");
    return plan;
}

// Numbers that are not a call, and refusals of the engine's.
static void check_answers() {
    int64_t one[6] = {0, 1, 1, 5, 1, 9}, matrix[4] = {7, 7, 7, 7};
    uint8_t present[4] = {9, 9, 9, 9};
    uint16_t cycle[2] = {5, 5};
    size_t detail[1] = {3};
    auto call = [&](size_t points, size_t numbers, size_t entries, size_t edges, size_t details) {
        return tagredwood_tighten_minutes(points, one, numbers, matrix, entries, present, entries, cycle, edges, detail, details);
    };
    if (call(2, 5, 4, 2, 1) != 100 || call(2, 6, 4, 2, 0) != 100 || detail[0] != 3)
        fail("numbers that are not a call");
    if (call(0, 6, 4, 2, 1) != 1 || detail[0] != 0)
        fail("refusal 1");
    if (call(1, 6, 4, 2, 1) != 2)
        fail("refusal 2");
    if (call(2, 6, 3, 2, 1) != 8 || call(2, 6, 4, 1, 1) != 8)
        fail("refusal 8");
    one[1] = -1;
    if (call(2, 6, 4, 2, 1) != 2)
        fail("a point below zero");
    one[1] = 1;
    if (matrix[0] != 7 || present[0] != 9 || cycle[0] != 5)
        fail("memory of a refused call");
    if (call(2, 6, 4, 2, 1) != 0 || matrix[1] != 9 || matrix[2] != -5 || present[1] != 1)
        fail("two points");
}

static double seconds_of(void (*run)(const Network &, size_t), const Network &net, size_t times) {
    auto start = std::chrono::steady_clock::now();
    run(net, times);
    return std::chrono::duration<double>(std::chrono::steady_clock::now() - start).count();
}

static std::vector<int64_t> numbers_at_minutes, numbers_at_ranks;

static void run_minutes(const Network &net, size_t times) {
    if (tagredwood_close_minutes(net.points, numbers_at_minutes.data(), numbers_at_minutes.size(), times) != times)
        fail("a closing at minutes");
}
static void run_ranks(const Network &net, size_t times) {
    if (tagredwood_close_ranks(net.points, numbers_at_ranks.data(), numbers_at_ranks.size(), times) != times)
        fail("a closing at minute and rank");
}
static void run_plain(const Network &net, size_t times) {
    static int64_t d[48 * 48];
    for (size_t t = 0; t < times; t++) {
        if (!plain_minutes(net, d))
            fail("a plain closing");
        asm volatile("" : : "r"(d) : "memory");
    }
}

static double middle(std::vector<double> v) {
    std::sort(v.begin(), v.end());
    return v[v.size() / 2];
}

int main(int argc, char **argv) {
    const size_t times = argc > 1 ? strtoul(argv[1], nullptr, 10) : 500;
    const int rounds = argc > 2 ? atoi(argv[2]) : 15;
    Random r{20240607};

    check_answers();
    int granted = 0, refused = 0;
    for (int t = 0; t < 600; t++) {
        int points = 2 + int(r.below(47));
        int conditions = std::min<int>(64, points - 1 + int(r.below(18)));
        Network net = consistent(r, points, conditions, t % 3 == 0);
        if (t % 2)
            disturb(r, net);
        for (bool ranks : {false, true})
            (compare(net, ranks) ? granted : refused)++;
    }
    printf("compared: %d granted, %d refused with a cycle, all alike\n", granted, refused);

    Network net = consistent(r, 48, 64, true);
    if (!compare(net, false) || !compare(net, true))
        fail("the measured network has no plan");
    numbers_at_minutes = minute_numbers(net);
    numbers_at_ranks = rank_numbers(net);

    struct Line {
        const char *name;
        void (*run)(const Network &, size_t);
        std::vector<double> micros;
    } lines[] = {{"plain C++, minutes", run_plain, {}}, {"engine, minutes", run_minutes, {}}, {"engine, minute and rank", run_ranks, {}}};
    for (int round = 0; round < rounds; round++)
        for (Line &l : lines)
            l.micros.push_back(seconds_of(l.run, net, times) / double(times) * 1e6);
    printf("%zu closings a round, %d rounds, 48 points, 64 conditions\n", times, rounds);
    printf("%-26s %12s %12s %12s %14s %8s\n", "", "median us", "least us", "most us", "closings/s", "ratio");
    for (Line &l : lines) {
        double m = middle(l.micros);
        printf("%-26s %12.1f %12.1f %12.1f %14.0f %8.2f\n", l.name, m, *std::min_element(l.micros.begin(), l.micros.end()),
               *std::max_element(l.micros.begin(), l.micros.end()), 1e6 / m, m / middle(lines[0].micros));
    }
    return 0;
}
