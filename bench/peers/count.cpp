// Lists all frequent itemsets of a FIMI file with their counts, by nothing but rows of bits: count FILE COUNT.
// It shares no code with basket or with what it is to judge: each set is the bits that its items' rows have in common.
#include <cstdint>
#include <cstdio>
#include <cstdlib>
#include <fstream>
#include <map>
#include <sstream>
#include <string>
#include <vector>

using Row = std::vector<std::uint64_t>;

struct Item {
    long name;
    Row row;
};

static long least;

static long ones(const Row &row) {
    long sum = 0;
    for (std::uint64_t word : row) sum += __builtin_popcountll(word);
    return sum;
}

// All frequent sets that begin with a prefix and go on with one of these items, which are frequent with it.
static void extend(const std::string &prefix, const std::vector<Item> &items) {
    for (std::size_t at = 0; at < items.size(); at++) {
        std::string set = prefix + std::to_string(items[at].name) + ' ';
        std::printf("%s(%ld)\n", set.c_str(), ones(items[at].row));
        std::vector<Item> longer;
        for (std::size_t next = at + 1; next < items.size(); next++) {
            Row both(items[at].row);
            for (std::size_t word = 0; word < both.size(); word++) both[word] &= items[next].row[word];
            if (ones(both) >= least) longer.push_back({items[next].name, std::move(both)});
        }
        extend(set, longer);
    }
}

int main(int count, char **words) {
    if (count != 3) return 2;
    std::ifstream file(words[1]);
    least = std::atol(words[2]);
    std::map<long, std::vector<std::size_t>> found;
    std::string line;
    std::size_t baskets = 0;
    for (; std::getline(file, line); baskets++) {
        std::istringstream text(line);
        for (long item; text >> item;) found[item].push_back(baskets);
    }
    std::vector<Item> items;
    for (auto &[name, places] : found) {
        Row row((baskets + 63) / 64);
        for (std::size_t place : places) row[place / 64] |= std::uint64_t(1) << place % 64;
        if (ones(row) >= least) items.push_back({name, std::move(row)});
    }
    extend("", items);
}
