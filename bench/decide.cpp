// The same two runs as `welungad test`, the decision and that of the adjusted values, written straightforwardly: fractions of
// 128-bit parts in lowest terms, the same written operations in the same order, one matrix that changes hypothesis by
// hypothesis. It checks nothing of the case and prints the same text; with the word `bounds`, the bounds of all sets. It is
// what bench/run.sh compares with.
#include <algorithm>
#include <cctype>
#include <cstdio>
#include <cstdlib>
#include <iostream>
#include <map>
#include <sstream>
#include <string>
#include <vector>

using Whole = __int128;

[[noreturn]] void too_wide() {
    std::puts("too wide");
    std::exit(5);
}

Whole magnitude(Whole x) { return x < 0 ? -x : x; }

Whole gcd(Whole a, Whole b) {
    a = magnitude(a);
    b = magnitude(b);
    while (b != 0) {
        Whole rest = a % b;
        a = b;
        b = rest;
    }
    return a;
}

Whole times(Whole a, Whole b) {
    Whole product;
    if (__builtin_mul_overflow(a, b, &product)) too_wide();
    return product;
}

Whole plus(Whole a, Whole b) {
    Whole sum;
    if (__builtin_add_overflow(a, b, &sum)) too_wide();
    return sum;
}

struct Fraction {
    Whole num = 0;
    Whole den = 1;
};

Fraction mul(Fraction x, Fraction y) {
    Whole a = gcd(x.num, y.den), b = gcd(y.num, x.den);
    return {times(x.num / a, y.num / b), times(x.den / b, y.den / a)};
}

Fraction inverse(Fraction x) { return x.num < 0 ? Fraction{-x.den, -x.num} : Fraction{x.den, x.num}; }

Fraction divide(Fraction x, Fraction y) { return mul(x, inverse(y)); }

Fraction add(Fraction x, Fraction y) {
    Whole g = gcd(x.den, y.den);
    Whole u = times(x.num, y.den / g), v = times(y.num, x.den / g);
    Whole t = plus(u, v), h = gcd(t, g);
    return {t / h, times(x.den / g, y.den / h)};
}

Fraction sub(Fraction x, Fraction y) { return add(x, {-y.num, y.den}); }

// x <= y by whole parts and swapped rests; both are not below 0
bool at_most(Fraction x, Fraction y) {
    for (;;) {
        Whole p = x.num / x.den, q = y.num / y.den;
        if (p != q) return p < q;
        Whole r = x.num % x.den, s = y.num % y.den;
        if (r == 0) return true;
        if (s == 0) return false;
        Fraction next{y.den, s};
        y = {x.den, r};
        x = next;
    }
}

Fraction parse(const std::string &text) {
    auto slash = text.find('/');
    if (slash != std::string::npos) {
        Whole num = std::stoll(text.substr(0, slash)), den = std::stoll(text.substr(slash + 1));
        Whole g = gcd(num, den);
        return {num / g, den / g};
    }
    auto point = text.find('.');
    if (point == std::string::npos) return {std::stoll(text), 1};
    std::string digits = text.substr(0, point) + text.substr(point + 1);
    Whole num = std::stoll(digits), den = 1;
    for (size_t i = point + 1; i < text.size(); i++) den *= 10;
    Whole g = gcd(num, den);
    return {num / g, den / g};
}

std::string decimal(Whole x) {
    if (x == 0) return "0";
    std::string digits;
    for (; x > 0; x /= 10) digits.insert(digits.begin(), char('0' + int(x % 10)));
    return digits;
}

std::string text(Fraction x) { return x.den == 1 ? decimal(x.num) : decimal(x.num) + "/" + decimal(x.den); }

struct Case {
    Fraction alpha;
    std::vector<std::string> names;
    std::vector<Fraction> p, weights, edges;
};

Case read_case() {
    Case c;
    std::map<std::string, size_t> places;
    std::string line;
    while (std::getline(std::cin, line)) {
        std::istringstream words(line);
        std::string first, word;
        words >> first;
        if (first == "alpha") {
            words >> word;
            c.alpha = parse(word);
        } else if (first == "hypotheses") {
            while (words >> word) {
                places.emplace(word, c.names.size());
                c.names.push_back(word);
            }
            c.edges.resize(c.names.size() * c.names.size());
        } else if (first == "p") {
            while (words >> word) c.p.push_back(parse(word));
        } else if (first == "weights") {
            while (words >> word) c.weights.push_back(parse(word));
        } else if (first == "edge") {
            std::string from, to;
            words >> from >> to >> word;
            c.edges[places[from] * c.names.size() + places[to]] = parse(word);
        }
    }
    return c;
}

void remove(Case &c, std::vector<bool> &live, size_t j) {
    size_t m = c.names.size();
    auto old_weights = c.weights, old = c.edges;
    for (size_t l = 0; l < m; l++)
        if (live[l] && l != j) c.weights[l] = add(old_weights[l], mul(old_weights[j], old[j * m + l]));
    for (size_t l = 0; l < m; l++) {
        if (!live[l] || l == j) continue;
        Fraction left = sub({1, 1}, mul(old[l * m + j], old[j * m + l]));
        for (size_t k = 0; k < m; k++) {
            if (!live[k] || k == j || k == l) continue;
            c.edges[l * m + k] = left.num == 0 ? Fraction{} : divide(add(old[l * m + k], mul(old[l * m + j], old[j * m + k])), left);
        }
    }
    live[j] = false;
}

// What the local test says of each set, depth first: a set leaves out one more than the one before it, and its graph is
// copied from there. Sets are numbered by their members.
struct Sets {
    size_t m;
    std::vector<Fraction> thresholds;
    std::vector<bool> rejected;
    std::vector<unsigned> order;

    void visit(const Case &c, const std::vector<bool> &live, size_t first, unsigned set) {
        order.push_back(set);
        for (size_t k = 0; k < m; k++)
            if (live[k] && c.weights[k].num > 0 && at_most(thresholds[k], c.weights[k])) rejected[set] = true;
        for (size_t j = first; j < m; j++) {
            Case next = c;
            std::vector<bool> left = live;
            remove(next, left, j);
            visit(next, left, j + 1, set & ~(1u << j));
        }
    }
};

// The bound of each set, as `welungad bounds` prints them.
int bounds(const Case &c) {
    size_t m = c.names.size();
    unsigned count = 1u << m;
    Sets sets{m, {}, std::vector<bool>(count), {}};
    for (Fraction p : c.p) sets.thresholds.push_back(divide(p, c.alpha));
    sets.visit(c, std::vector<bool>(m, true), 0, count - 1);
    std::vector<bool> &closed = sets.rejected;
    for (unsigned set = count; set-- > 0;)
        for (size_t k = 0; k < m; k++)
            if (!(set >> k & 1) && !closed[set | 1u << k]) closed[set] = false;
    std::vector<int> kept(count, 0);
    for (unsigned set = 1; set < count; set++) {
        if (!closed[set]) kept[set] = __builtin_popcount(set);
        else
            for (size_t k = 0; k < m; k++)
                if (set >> k & 1) kept[set] = std::max(kept[set], kept[set & ~(1u << k)]);
    }
    std::string out = "bounds " + std::to_string(m) + "\n";
    for (unsigned set : sets.order) {
        if (set == 0) continue;
        out += "bound " + std::to_string(__builtin_popcount(set) - kept[set]) + " of";
        for (size_t k = 0; k < m; k++)
            if (set >> k & 1) out += " " + c.names[k];
        out += "\n";
    }
    std::cout << out << "end\n";
    return 0;
}

// The text of the decision by the first legal hypothesis.
std::string decide(Case c) {
    size_t m = c.names.size();
    std::vector<bool> live(m, true);
    std::string out = "alpha " + text(c.alpha) + "\n";
    for (size_t step = 1;; step++) {
        size_t j = 0;
        while (j < m && !(live[j] && c.weights[j].num > 0 && at_most(divide(c.p[j], c.alpha), c.weights[j]))) j++;
        if (j == m) break;
        out += "step " + std::to_string(step) + " " + c.names[j] + " p " + text(c.p[j]) + " weight " + text(c.weights[j]) + "\n";
        remove(c, live, j);
    }
    for (size_t k = 0; k < m; k++)
        if (live[k]) out += "kept " + c.names[k] + " p " + text(c.p[k]) + " weight " + text(c.weights[k]) + "\n";
    out += "rejected";
    for (size_t k = 0; k < m; k++)
        if (!live[k]) out += " " + c.names[k];
    return out + "\n";
}

// The text of the adjusted values: a second run, which removes the hypothesis with the least ratio of p-value and weight as long
// as that is at most 1.
std::string adjust(Case c) {
    size_t m = c.names.size();
    std::vector<bool> live(m, true), reached(m, false);
    std::vector<Fraction> values(m, Fraction{1, 1});
    Fraction before;
    for (;;) {
        size_t least = m;
        Fraction ratio;
        for (size_t k = 0; k < m; k++) {
            if (!live[k] || c.weights[k].num == 0) continue;
            Fraction own = divide(c.p[k], c.weights[k]);
            if (least < m && at_most(ratio, own)) continue;
            least = k;
            ratio = own;
        }
        if (least == m || !at_most(ratio, {1, 1})) break;
        if (at_most(before, ratio)) before = ratio;
        values[least] = before;
        reached[least] = true;
        remove(c, live, least);
    }
    std::string out;
    for (size_t k = 0; k < m; k++)
        out += "adjusted " + c.names[k] + " " + text(values[k]) + (reached[k] ? "\n" : " not reached\n");
    return out;
}

int main(int count, char **words) {
    Case c = read_case();
    if (count > 1 && std::string(words[1]) == "bounds") return bounds(c);
    std::cout << decide(c) << adjust(c) << "end\n";
}
