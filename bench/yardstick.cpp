// The yardstick of `make bench`: frequent items and itemsets as a C++ program finds them, without a proof.
//
//     yardstick items --min M < file        yardstick sets --min M < file
//
// M is a count, a percentage as 5%, or a fraction as 1/200; the file is FIMI text without weights and mark. It writes
// the bytes of `basket items` and `basket sets`.
//
// `items` counts in a table by the items' numbers. `sets` codes the baskets by ranks, the rarest frequent item first.
// It is Eclat, depth first: the class of an item is mined as a database of its own, of the baskets that have the item
// and of the later items that are frequent in them. Up to 64 such items make each basket one word; equal words are
// merged, and an item's cover is a row of bits over the words that are left. A class whose cover is sparse gets words
// and rows of its own. The sets of each size are sorted by radix at the end.
#include <sys/stat.h>
#include <unistd.h>

#include <algorithm>
#include <cstdint>
#include <cstdio>
#include <cstdlib>
#include <cstring>
#include <memory>
#include <numeric>
#include <string>
#include <vector>

using u8 = std::uint8_t;
using u32 = std::uint32_t;
using u64 = std::uint64_t;

constexpr u32 NONE = ~u32(0);

[[noreturn]] static void refuse(const char* why) {
    std::fprintf(stderr, "yardstick: %s\n", why);
    std::exit(2);
}

static u32 ones(u64 bits) { return u32(__builtin_popcountll(bits)); }
static u32 lowest(u64 bits) { return u32(__builtin_ctzll(bits)); }  // place of the lowest one
static u32 width(u64 number) { return 64 - u32(__builtin_clzll(number | 1)); }  // in base two, at least one

struct Baskets {
    struct Count { u32 baskets = 0, line = 0; };  // that have a number, and the last line that has it
    std::unique_ptr<u32[]> items;  // of one basket behind those of another, each once
    std::vector<u32> ends;
    std::vector<Count> counts = std::vector<Count>(1 << 16);
    u64 total = 0;
    // The baskets of standard input. Where only counts are wanted, no items are kept.
    explicit Baskets(bool is_kept) {
        struct stat file;
        if (fstat(0, &file) != 0 || !S_ISREG(file.st_mode)) refuse("standard input is to be a file");
        // A line feed behind the file ends each line, so nothing below looks for the end within one.
        std::unique_ptr<u8[]> text(new u8[size_t(file.st_size) + 1]);
        size_t size = 0;
        for (ssize_t got; (got = read(0, &text[size], size_t(file.st_size) - size)) > 0;) size += size_t(got);
        text[size] = '\n';
        items.reset(new u32[size / 2 + 1]);
        u32* next = items.get();
        u32 line = 1;
        for (const u8 *at = text.get(), *end = at + size; at < end; line++, at++) {
            u32* begun = next;
            while (*at != '\n') {
                u64 number = u64(*at++) - '0';
                if (number == u64(' ') - '0' || number == u64('\t') - '0' || number == u64('\r') - '0') continue;
                if (number > 9) refuse("a byte is no digit or blank");
                for (u32 digit; (digit = u32(*at) - '0') <= 9; at++)
                    if ((number = number * 10 + digit) >> 28) refuse("a number is too large for a table");
                if (number >= counts.size()) counts.resize(std::max<size_t>(number + 1, 2 * counts.size()));
                Count& count = counts[number];
                if (count.line == line) continue;
                count.line = line, count.baskets++;
                *next++ = u32(number);
            }
            total += next != begun;
            if (!is_kept) next = begun;
            else if (next != begun) ends.push_back(u32(next - items.get()));
        }
    }
};

// The least count that meets a minimum: at least the share of all baskets, and at least one.
static u32 least_count(const char* word, u64 total) {
    char* end;
    u64 number = std::strtoull(word, &end, 10), over = 0;
    bool is_share = *end == '%' || *end == '/';
    if (*end == '%') over = 100, end++;
    else if (*end == '/') over = std::strtoull(end + 1, &end, 10);
    if (*word < '0' || *word > '9' || *end || is_share != (over > 0) || (number | over) > NONE) refuse("bad --min");
    u64 least = is_share ? (number * total + over - 1) / over : number;
    return u32(std::min<u64>(std::max<u64>(least, 1), NONE));
}

struct Name {
    char text[16];
    u32 length;
    explicit Name(u32 number) : length(u32(std::snprintf(text, sizeof text, "%u ", number))) {}
};

struct Out {
    char buffer[1 << 18];
    size_t used = 0;
    ~Out() { flush(); }
    void flush() {
        if (std::fwrite(buffer, 1, used, stdout) != used || std::fflush(stdout) != 0) refuse("cannot write");
        used = 0;
    }
    void name(const Name& name) {
        if (used + 64 > sizeof buffer) flush();
        std::memcpy(buffer + used, name.text, sizeof name.text);
        used += name.length;
    }
    void count(u64 count) {  // behind a name, which leaves room for it
        char digits[20], *from = digits + 20;
        do *--from = char('0' + count % 10);
        while (count /= 10);
        buffer[used++] = '(';
        while (from < digits + 20) buffer[used++] = *from++;
        buffer[used++] = ')', buffer[used++] = '\n';
    }
};

// The sets that were found, by size. A set is one or more words, each of some items, the first item highest, and its
// count behind them. Items are known by their order, so the order of the words is that of the report.
class Found {
    static constexpr u32 DIGIT = 11, MASK = (1 << DIGIT) - 1;
    u32 bits, in_word;
    std::vector<std::vector<u64>> of_size;

    u32 items_in(u32 word, u32 size) { return std::min(in_word, size - word * in_word); }
    // Radix sort of records of some words and a count, the lowest digit first.
    void sort(std::vector<u64>& sets, u32 words, u32 size) {
        std::vector<u64> sorted(sets.size());
        for (u32 word = words; word-- > 0;)
            for (u32 shift = 0; shift < bits * items_in(word, size); shift += DIGIT) {
                size_t places[MASK + 2] = {0};
                for (size_t i = word; i < sets.size(); i += words + 1)
                    places[(sets[i] >> shift & MASK) + 1] += words + 1;
                for (u32 digit = 0; digit < MASK; digit++) places[digit + 1] += places[digit];
                for (size_t i = 0; i < sets.size(); i += words + 1) {
                    size_t& place = places[sets[i + word] >> shift & MASK];
                    for (u32 k = 0; k <= words; k++) sorted[place++] = sets[i + k];
                }
                sets.swap(sorted);
            }
    }

  public:
    explicit Found(size_t items) : bits(width(items)), in_word(64 / bits) {}
    void add(const u32* rising, u32 size, u32 count) {
        if (of_size.size() <= size) of_size.resize(size + 1);
        std::vector<u64>& sets = of_size[size];
        for (u32 from = 0; from < size; from += in_word) {
            sets.push_back(0);
            for (u32 i = from; i < std::min(size, from + in_word); i++) sets.back() = sets.back() << bits | rising[i];
        }
        sets.push_back(count);
    }
    void write(const std::vector<Name>& names, Out& out) {
        for (u32 size = 1; size < of_size.size(); size++) {
            std::vector<u64> sets = std::move(of_size[size]);
            u32 words = (size - 1) / in_word + 1;
            sort(sets, words, size);
            for (const u64 *set = sets.data(), *end = set + sets.size(); set < end; set += words + 1) {
                for (u32 word = 0; word < words; word++)
                    for (u32 left = items_in(word, size); left-- > 0;)
                        out.name(names[set[word] >> left * bits & ((u64(1) << bits) - 1)]);
                out.count(set[words]);
            }
        }
    }
};

// The set at which the search stands, its items rising, and where the sets go that it meets.
struct Prefix {
    Found& found;
    u32 items[512], size = 0;
    // Puts an item to its place, which it returns.
    u32 push(u32 item) {
        u32 at = size++;
        for (; at && items[at - 1] > item; at--) items[at] = items[at - 1];
        items[at] = item;
        return at;
    }
    void pop(u32 at) {
        for (size--; at < size; at++) items[at] = items[at + 1];
    }
    void add(u32 item, u32 count) {
        u32 at = push(item);
        found.add(items, size, count);
        pop(at);
    }
};

// A basket of a class of at most 64 items, a bit for each item, and how many are equal to it.
struct Word { u64 items; u32 weight; };

// Mines classes of at most 64 items.
class Words {
    // A frequent item of a class, with the baskets that have it as bits over the words of a node.
    struct Member { u32 bit, count; u64* cover; };
    // The words of a class, and the planes of their weights, each a bit of all weights; none where each weighs 1.
    struct Node { const std::vector<Word>& baskets; size_t length; u32 planes; u64* plane; };
    Prefix& prefix;
    u32 least;
    const u32* names = nullptr;
    // What one class has at a time, by the size of its prefix: rows of bits, and a node's words.
    std::vector<std::vector<u64>> rows = std::vector<std::vector<u64>>(512);
    std::vector<std::vector<Word>> words = std::vector<std::vector<Word>>(512);
    std::vector<u32> table;

    // Merges baskets that have the same of some items, and drops those that have one or none. The greatest weight.
    u32 merge(std::vector<Word>& baskets, u64 of) {
        u32 digits = width(baskets.size()) + 1, mask = (1u << digits) - 1, kept = 0, most = 1;
        table.assign(mask + 1, 0);
        for (Word basket : baskets) {
            u64 items = basket.items & of;
            if ((items & (items - 1)) == 0) continue;
            u32 at = u32(items * 0x9E3779B97F4A7C15u >> (64 - digits));
            while (table[at] && baskets[table[at] - 1].items != items) at = (at + 1) & mask;
            if (!table[at]) baskets[kept] = {items, 0}, table[at] = ++kept;
            most = std::max(most, baskets[table[at] - 1].weight += basket.weight);
        }
        baskets.resize(kept);
        return most;
    }
    // Lists the sets of the prefix and a member and later members, those of one member being listed.
    void grow(const Node& node, const Member* members, u32 size) {
        for (u32 i = 0; i + 1 < size; i++) {
            u32 at = prefix.push(names[members[i].bit]);
            if (!remade(node, members + i, size - i)) join(node, members + i, size - i);
            prefix.pop(at);
        }
    }
    void join(const Node& node, const Member* members, u32 size) {
        Member joined[64];
        u32 kept = 0;
        std::vector<u64>& own = rows[prefix.size];
        own.resize(std::max(own.size(), node.length * (size - 1)));
        u64* both = own.data();
        for (u32 j = 1; j < size; j++) {
            u32 count = 0;
            for (size_t i = 0; i < node.length; i++) both[i] = members[0].cover[i] & members[j].cover[i];
            for (size_t i = 0; node.planes == 0 && i < node.length; i++) count += ones(both[i]);
            for (u32 p = 0; p < node.planes; p++) {
                u32 of_plane = 0;
                for (size_t i = 0; i < node.length; i++) of_plane += ones(both[i] & node.plane[p * node.length + i]);
                count += of_plane << p;
            }
            if (count < least) continue;
            prefix.add(names[members[j].bit], count);
            joined[kept++] = {members[j].bit, count, both};
            both += node.length;
        }
        grow(node, joined, kept);
    }
    // Mines the first member's class as a node of its own, if its cover is so sparse that this pays.
    bool remade(const Node& node, const Member* members, u32 size) {
        if (node.length < 4 || size < 10) return false;
        size_t baskets = 0;
        for (size_t i = 0; i < node.length; i++) baskets += ones(members[0].cover[i]);
        if (baskets > node.length * 16) return false;
        u64 later = 0;
        for (u32 j = 1; j < size; j++) later |= u64(1) << members[j].bit;
        std::vector<Word>& own = words[prefix.size];
        own.clear();
        for (size_t i = 0; i < node.length; i++)
            for (u64 rest = members[0].cover[i]; rest; rest &= rest - 1) {
                const Word& basket = node.baskets[i * 64 + lowest(rest)];
                if (basket.items & later) own.push_back({basket.items & later, basket.weight});
            }
        mine(own, names);
        return true;
    }

  public:
    Words(Prefix& prefix, u32 least) : prefix(prefix), least(least) {}
    // Lists the sets of the prefix and some items of these baskets, which are used up. Items are named by their bits.
    void mine(std::vector<Word>& baskets, const u32* names_by_bit) {
        u32 counts[64] = {0}, size = 0;
        for (const Word& basket : baskets)
            for (u64 rest = basket.items; rest; rest &= rest - 1) counts[lowest(rest)] += basket.weight;
        names = names_by_bit;
        Member members[64];
        u64 kept = 0, *of_bit[64];
        for (u32 bit = 0; bit < 64; bit++) {
            if (counts[bit] < least) continue;
            kept |= u64(1) << bit;
            members[size++] = {bit, counts[bit], nullptr};
            prefix.add(names[bit], counts[bit]);
        }
        if (size < 2) return;
        u32 most = merge(baskets, kept);
        Node node{baskets, (baskets.size() + 63) / 64, most > 1 ? width(most) : 0, nullptr};
        rows[prefix.size].assign(node.length * (size + node.planes), 0);
        u64* row = rows[prefix.size].data();
        for (u32 i = 0; i < size; i++, row += node.length) members[i].cover = of_bit[members[i].bit] = row;
        node.plane = row;
        for (size_t i = 0; i < baskets.size(); i++) {
            u64 bit = u64(1) << i % 64, weight = node.planes ? baskets[i].weight : 0;
            for (u64 rest = baskets[i].items; rest; rest &= rest - 1) of_bit[lowest(rest)][i / 64] |= bit;
            for (; weight; weight &= weight - 1) node.plane[lowest(weight) * node.length + i / 64] |= bit;
        }
        grow(node, members, size);
    }
};

// A class of more items: their names by number, and baskets of rising numbers, each ended by `size`, above them all.
struct Lists { u32 size; std::vector<u32> names, items; };

// Mines classes of any number of items.
class Search {
    Prefix& prefix;
    u32 least;
    Words words;
    std::vector<Word> baskets;

  public:
    Search(Prefix& prefix, u32 least) : prefix(prefix), least(least), words(prefix, least) {}
    // Lists the sets of the prefix and some numbers of these baskets, each of which is frequent.
    void mine(const Lists& all) {
        std::vector<u32> counts(all.size), first(all.size + 2), numbers(all.size), seen;
        for (u32 item : all.items) first[item + 1]++;
        for (u32 i = 0; i < all.size; i++) prefix.add(all.names[i], first[i + 1]), first[i + 1] += first[i];
        // For each number, where the rest of its baskets begins. The last places are there to be looked at ahead.
        std::vector<u32> next = first, places(all.items.size() + 8);
        for (u32 at = 0; at < all.items.size(); at++) places[next[all.items[at]]++] = at + 1;
        for (u32 item = 0; item < all.size; item++) {
            seen.clear();
            for (u32 i = first[item]; i < first[item + 1]; i++) {
                __builtin_prefetch(&all.items[places[i + 8]]);
                for (const u32* at = &all.items[places[i]]; *at != all.size; at++)
                    if (counts[*at]++ == 0) seen.push_back(*at);
            }
            std::sort(seen.begin(), seen.end());
            Lists own{0, {}, {}};
            for (u32 other : seen) {
                numbers[other] = counts[other] < least ? NONE : own.size++;
                if (numbers[other] != NONE) own.names.push_back(all.names[other]);
                counts[other] = 0;
            }
            if (own.size == 0) continue;
            for (u32 i = first[item]; i < first[item + 1]; i++) {
                __builtin_prefetch(&all.items[places[i + 8]]);
                u64 word = 0;
                size_t begun = own.items.size();
                for (const u32* at = &all.items[places[i]]; *at != all.size; at++) {
                    u32 number = numbers[*at];
                    if (number == NONE) continue;
                    own.size <= 64 ? void(word |= u64(1) << number) : own.items.push_back(number);
                }
                if (word) baskets.push_back({word, 1});
                if (own.items.size() > begun) own.items.push_back(own.size);
            }
            u32 at = prefix.push(all.names[item]);
            own.size <= 64 ? words.mine(baskets, own.names.data()) : mine(own);
            prefix.pop(at);
            baskets.clear();
        }
    }
};

static void write_sets(Baskets& given, const std::vector<u32>& numbers, u32 least, Out& out) {
    auto count = [&](u32 item) { return given.counts[numbers[item]].baskets; };
    Lists all{u32(numbers.size()), std::vector<u32>(numbers.size()), {}};
    std::iota(all.names.begin(), all.names.end(), 0);
    std::stable_sort(all.names.begin(), all.names.end(), [&](u32 one, u32 other) { return count(one) < count(other); });
    std::vector<u32> ranks(given.counts.size(), NONE);
    for (u32 rank = 0; rank < all.size; rank++) ranks[numbers[all.names[rank]]] = rank;
    u32 from = 0;
    for (u32 end : given.ends) {
        size_t begun = all.items.size();
        for (; from < end; from++)
            if (ranks[given.items[from]] != NONE) all.items.push_back(ranks[given.items[from]]);
        std::sort(all.items.begin() + long(begun), all.items.end());
        if (all.items.size() > begun) all.items.push_back(all.size);
    }
    given.items.reset();
    Found found(numbers.size());
    Prefix prefix{found, {}};
    Search(prefix, least).mine(all);
    found.write({numbers.begin(), numbers.end()}, out);
}

int main(int count, char** words) {
    std::string command = count == 4 ? words[1] : "";
    if ((command != "items" && command != "sets") || std::strcmp(words[2], "--min") != 0)
        refuse("usage: yardstick items|sets --min N|P%|n/d < file");
    static Out out;
    Baskets given(command == "sets");
    u32 least = least_count(words[3], given.total);
    std::vector<u32> numbers;
    for (u32 number = 0; number < given.counts.size(); number++)
        if (given.counts[number].baskets >= least) numbers.push_back(number);
    if (command == "sets") return write_sets(given, numbers, least, out), 0;
    for (u32 number : numbers) out.name(Name(number)), out.count(given.counts[number].baskets);
}
