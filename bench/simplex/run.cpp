// The same run over the same numbers in plain C++: one flat table of fractions of 128 bits in lowest terms, each operation
// with its greatest common divisors. Says the value, the microseconds and the number of pivots.
#include <chrono>
#include <cstdio>
#include <cstdlib>
#include <iostream>
#include <sstream>
#include <string>
#include <vector>

typedef __int128 wide;

struct Overflow {};

static wide product(wide a, wide b) {
    wide c;
    if (__builtin_mul_overflow(a, b, &c)) throw Overflow();
    return c;
}

static wide sum(wide a, wide b) {
    wide c;
    if (__builtin_add_overflow(a, b, &c)) throw Overflow();
    return c;
}

struct Fraction {
    wide num, den;
};

static Fraction reduced(wide num, wide den) {
    wide a = num < 0 ? -num : num, b = den;
    while (b != 0) {
        wide rest = a % b;
        a = b;
        b = rest;
    }
    return Fraction{num / a, den / a};
}

static Fraction add(Fraction a, Fraction b) {
    return reduced(sum(product(a.num, b.den), product(b.num, a.den)), product(a.den, b.den));
}

static Fraction negate(Fraction a) { return Fraction{-a.num, a.den}; }

static Fraction mul(Fraction a, Fraction b) { return reduced(product(a.num, b.num), product(a.den, b.den)); }

static Fraction divide(Fraction a, Fraction b) {
    return mul(a, b.num < 0 ? Fraction{-b.den, -b.num} : Fraction{b.den, b.num});
}

// a - q * b
static Fraction less(Fraction a, Fraction q, Fraction b) {
    return q.num == 0 || b.num == 0 ? a : add(a, negate(mul(q, b)));
}

int main() {
    std::string line;
    std::getline(std::cin, line);
    long columns, cap, limit;
    std::istringstream(line) >> columns >> cap >> limit;
    long width = columns + 1; // the bound stands last
    std::vector<Fraction> table(width, Fraction{0, 1});
    table[0] = Fraction{1, 1};
    table[columns] = Fraction{cap, 1};
    while (std::getline(std::cin, line)) {
        std::istringstream words(line);
        long number;
        while (words >> number) table.push_back(Fraction{number, 1});
    }
    long rows = table.size() / width;
    std::vector<Fraction> costs(width, Fraction{0, 1});
    costs[0] = Fraction{1, 1};
    std::vector<long> basic(rows), others(columns);
    for (long i = 0; i < rows; i++) basic[i] = columns + i;
    for (long j = 0; j < columns; j++) others[j] = j;
    auto start = std::chrono::steady_clock::now();
    long pivots = 0;
    const char *end = "";
    try {
        for (;;) {
            long e = -1;
            for (long j = 0; j < columns; j++)
                if (costs[j].num > 0 && (e < 0 || others[j] < others[e])) e = j;
            if (e < 0) break;
            if (pivots == limit) { end = "Pivots"; break; }
            long r = -1;
            Fraction least{0, 1};
            for (long i = 0; i < rows; i++) {
                Fraction cell = table[i * width + e];
                if (cell.num <= 0) continue;
                Fraction ratio = divide(table[i * width + columns], cell);
                wide left = r < 0 ? -1 : product(ratio.num, least.den), right = r < 0 ? 0 : product(least.num, ratio.den);
                if (left < right || (left == right && basic[i] < basic[r])) r = i, least = ratio;
            }
            Fraction *pivot = &table[r * width], cell = pivot[e];
            pivot[e] = Fraction{1, 1};
            for (long j = 0; j < width; j++) if (pivot[j].num != 0) pivot[j] = divide(pivot[j], cell);
            for (long i = 0; i < rows; i++) {
                Fraction *row = &table[i * width], factor = row[e];
                if (i == r || factor.num == 0) continue;
                row[e] = Fraction{0, 1};
                for (long j = 0; j < width; j++) row[j] = less(row[j], factor, pivot[j]);
            }
            Fraction factor = costs[e];
            costs[e] = Fraction{0, 1};
            for (long j = 0; j < columns; j++) costs[j] = less(costs[j], factor, pivot[j]);
            costs[columns] = add(costs[columns], mul(factor, pivot[columns]));
            long entering = others[e];
            others[e] = basic[r];
            basic[r] = entering;
            pivots++;
        }
    } catch (Overflow) {
        end = "Overflow";
    }
    long time = std::chrono::duration_cast<std::chrono::microseconds>(std::chrono::steady_clock::now() - start).count();
    if (*end) std::printf("%s %ld %ld\n", end, time, pivots);
    else std::printf("%lld/%lld %ld %ld\n", (long long)costs[columns].num, (long long)costs[columns].den, time, pivots);
}
