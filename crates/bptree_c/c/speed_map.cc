/* Times of the map from byte strings beside std::map<std::string, uint64_t>, in turn: for each number
   of pairs in the arguments a line for each call, the median of its times of some turns in
   nanoseconds a call. The keys are 16 random letters. */
#include "sweep_bptree.h"
#include <algorithm>
#include <chrono>
#include <cstdio>
#include <cstdlib>
#include <map>
#include <string>
#include <vector>

namespace {

constexpr int turns = 5;

uint64_t dice = 0x9e3779b97f4a7c15;

uint64_t roll() {
    dice ^= dice << 13;
    dice ^= dice >> 7;
    dice ^= dice << 17;
    return dice;
}

std::string word() {
    std::string letters(16, ' ');
    for (char &letter : letters) letter = static_cast<char>('a' + roll() % 26);
    return letters;
}

void shuffle(std::vector<std::string> &keys) {
    for (size_t i = keys.size(); i > 1; i--) std::swap(keys[i - 1], keys[roll() % i]);
}

const uint8_t *bytes_of(const std::string &key) { return reinterpret_cast<const uint8_t *>(key.data()); }

/* The map from byte strings, by its calls. */
struct Dict {
    bptree_dict dict = {};
    Dict() {
        if (!bptree_dict_new(&dict)) std::exit(2);
    }
    ~Dict() { bptree_dict_free(&dict); }
    Dict(const Dict &) = delete;
    Dict &operator=(const Dict &) = delete;
    static constexpr const char *name = "c bytes";
    uint64_t put(const std::string &key, uint64_t value) {
        uint64_t old = 0;
        return bptree_dict_put(&dict, bytes_of(key), key.size(), value, &old);
    }
    uint64_t get(const std::string &key) const {
        uint64_t value = 0;
        bptree_dict_get(&dict, bytes_of(key), key.size(), &value);
        return value;
    }
    uint64_t del(const std::string &key) {
        uint64_t old = 0;
        return bptree_dict_del(&dict, bytes_of(key), key.size(), &old);
    }
};

/* The map of the C++ library. */
struct Map {
    std::map<std::string, uint64_t> map;
    static constexpr const char *name = "std::map";
    uint64_t put(const std::string &key, uint64_t value) { return map.insert_or_assign(key, value).second; }
    uint64_t get(const std::string &key) const {
        const auto found = map.find(key);
        return found == map.end() ? 0 : found->second;
    }
    uint64_t del(const std::string &key) { return map.erase(key); }
};

constexpr const char *calls[] = {"insert", "get", "remove"};
using Times = std::vector<double>[3];

template <typename Call> void take(std::vector<double> &times, size_t n, Call call) {
    const auto start = std::chrono::steady_clock::now();
    call();
    const std::chrono::duration<double, std::nano> spent = std::chrono::steady_clock::now() - start;
    times.push_back(spent.count() / static_cast<double>(n));
}

template <typename T> uint64_t turn(const std::vector<std::string> &keys, const std::vector<std::string> &others, Times &times) {
    T it;
    uint64_t sum = 0;
    take(times[0], keys.size(), [&] {
        for (size_t i = 0; i < keys.size(); i++) sum += it.put(keys[i], i);
    });
    take(times[1], others.size(), [&] {
        for (const std::string &key : others) sum += it.get(key);
    });
    take(times[2], others.size(), [&] {
        for (const std::string &key : others) sum += it.del(key);
    });
    return sum;
}

template <typename T> void print(size_t n, Times &times) {
    for (int call = 0; call < 3; call++) {
        std::sort(times[call].begin(), times[call].end());
        std::printf("%zu %s %s %.1f\n", n, T::name, calls[call], times[call][times[call].size() / 2]);
    }
}

} // namespace

int main(int count, char **arguments) {
    uint64_t sum = 0;
    for (int i = 1; i < count; i++) {
        const size_t n = std::strtoull(arguments[i], nullptr, 10);
        std::vector<std::string> keys(n);
        for (std::string &key : keys) key = word();
        Times dict, map;
        for (int t = 0; t < (n < 100000 ? 20 * turns : turns); t++) {
            shuffle(keys);
            std::vector<std::string> others = keys;
            shuffle(others);
            sum += turn<Dict>(keys, others, dict);
            sum += turn<Map>(keys, others, map);
        }
        print<Dict>(n, dict);
        print<Map>(n, map);
    }
    std::fprintf(stderr, "%llu\n", static_cast<unsigned long long>(sum));
    return 0;
}
