// Searches a text of two pieces, as a gap buffer has them, by the C++ header. It prints bindings/cpp/example.stdout.
#include <zorfelith.hpp>

#include <cstdio>
#include <string>
#include <vector>
#if __cplusplus >= 202002L
#include <ranges>
#endif

// The bytes of a range of the text.
static std::string copied(zorfelith::text text, zorfelith::range range) {
    std::string all;
    for (const zorfelith::chunk &chunk : text)
        all.append(reinterpret_cast<const char *>(chunk.bytes), chunk.len);
    return all.substr(range.start, range.end - range.start);
}

// All dates, each with the year from its group.
static void dates(zorfelith::text text) {
    zorfelith::regex regex(R"((?P<year>\d{4})-(\d{2})-(\d{2}))");
    const std::size_t year = regex.group_number(0, "year").value_or(0);
    for (const zorfelith::match &found : regex.matches(text)) {
        const auto groups = regex.groups_of(text, found);
        std::printf("%zu..%zu, year %s\n", found.start, found.end, copied(text, (*groups)[year].value()).c_str());
    }
    std::printf("group 1 is %s, and group 2 has %s\n", regex.group_name(0, 1)->c_str(), regex.group_name(0, 2) ? "a name" : "none");
}

// Many patterns at once, and a regex that is moved.
static void rules(zorfelith::text text) {
    const std::vector<zorfelith::chunk> patterns{"due", "paid", "[0-9]{4}"};
    zorfelith::settings settings{};
    settings.kind = ZF_LEFTMOST_LONGEST;
    zorfelith::regex made = zorfelith::regex::of_patterns(patterns, settings);
    zorfelith::regex regex = std::move(made);
    for (std::size_t pattern : regex.which_patterns(text))
        std::printf("pattern %zu has a match\n", pattern);
    if (const auto found = regex.find(text, {12, ZF_NONE}))
        std::printf("from 12 on, pattern %zu is at %zu\n", found->pattern, found->start);
    std::printf("before 4: %s\n", regex.is_match(text, {0, 4}) ? "yes" : "no");
    try {
        made.is_match(text);
    } catch (const zorfelith::error &error) {
        std::printf("status %u: %s\n", error.status(), error.what());
    }
}

// What is refused.
static void refused(const char *pattern) {
    try {
        zorfelith::regex regex(pattern);
    } catch (const zorfelith::error &error) {
        std::printf("status %u: %s\n", error.status(), error.what());
    }
}

// An empty text, and two loops over one regex at once.
static void loops() {
    zorfelith::regex regex("x*");
    for (const zorfelith::match &found : regex.matches({}))
        std::printf("in the empty text: %zu..%zu\n", found.start, found.end);
    const zorfelith::chunk text[] = {"ax", std::string_view(), "xb"};
    zorfelith::matches outer = regex.matches(text);
    for (auto it = outer.begin(); it != outer.end(); ++it) {
        std::size_t inner = 0;
        for (const zorfelith::match &found : regex.matches(text, {it->end, ZF_NONE}))
            inner += found.end - found.start;
        std::printf("%zu..%zu, then %zu bytes\n", it->start, it->end, inner);
    }
}

// More matches than are found at once.
static void many() {
    const std::vector<zorfelith::chunk> text(1000, "ax");
    zorfelith::regex regex("x*");
    std::size_t count = 0, end = 0;
    for (const zorfelith::match &found : regex.matches(text)) {
        count++;
        end = found.end;
    }
    std::printf("%zu matches, the last up to %zu\n", count, end);
}

// One match at a place, the last before one, a final one, all and one replaced, one by a window, and what is of patterns alone.
static void places(zorfelith::text text) {
    zorfelith::regex regex(R"((\d{4})-(\d{2})-\d{2})");
    std::printf("at 4: %s, at 5: %s\n", regex.match_at(text, {4}) ? "yes" : "no", regex.match_at(text, {5}) ? "yes" : "no");
    std::printf("before 21: %zu\n", regex.find_last(text, 21)->start);
    std::size_t from = 0;
    std::printf("final: %zu\n", regex.find_partial(text, from, from)->end);
    std::printf("%s\n", regex.replace(text, "${2}/${1}").c_str());
    std::printf("%s\n", regex.replace_one(text, "${2}/${1}", 5)->second.c_str());
    zorfelith::match found{};
    const std::uint32_t status = regex.find_in_window(text, zorfelith::window{100, 1}, from = 104, found);
    std::printf("by a window: %u, %zu\n", status, found.start);
    const auto fault = zorfelith::explain("a(b");
    std::printf("%zu..%zu: %s\n", fault->where.start, fault->where.end, fault->words.c_str());
    std::printf("%s, %d\n", zorfelith::escape("1+1").c_str(), zorfelith::version() == ZF_VERSION);
}

// A list that is kept under an edit, and another regex of the same patterns.
static void lists() {
    zorfelith::regex words("[a-z]+");
    const zorfelith::chunk before[] = {"one t", "wo three"}, after[] = {"one two, two", " three"};
    words.live_new(before);
    const zorfelith::change made = words.live_edit({7, 7}, 5, after);
    std::printf("%zu stay, %zu went, %zu came\n", made.first, made.dropped, made.added);
    for (std::size_t i = 0; i < words.live_size(); i++)
        std::printf("%zu..%zu\n", words.live_get(i)->start, words.live_get(i)->end);
    std::printf("from 5: %zu, before 9: %zu, in 8..10: %zu\n", words.live_next(5)->start, words.live_previous(9)->start, words.live_window({8, 10}).size());
    zorfelith::regex other = words.share();
    words.live_free();
    try {
        other.live_size();
    } catch (const zorfelith::error &error) {
        std::printf("status %u: %s\n", error.status(), error.what());
    }
    std::printf("%d\n", other.is_match(before));
}

// A text that keeps its chunks, and is edited in place.
static void edits() {
    const std::vector<zorfelith::chunk> lines{"one tw", "o\n", "three\n"}, others{"o, 2", "2\n"};
    zorfelith::prepared text(lines);
    zorfelith::regex words("([a-z]+)|[0-9]+");
    text.edit(1, 2, others);
    for (const zorfelith::match &found : words.find_all(text))
        std::printf("%zu..%zu\n", found.start, found.end);
    std::printf("%d %d\n", words.match_at(text, {5}).has_value(), (*words.find_groups(text, {9}))[1].has_value());
    try {
        text.edit(0, 5, others);
    } catch (const zorfelith::error &error) {
        std::printf("status %u: %s\n", error.status(), error.what());
    }
}

#if __cplusplus >= 202002L
static_assert(std::ranges::input_range<zorfelith::matches>);
#endif

int main() {
    const std::vector<zorfelith::chunk> text{"due 20", "26-11-22, paid 2026-12-0", "1"};
    dates(text);
    rules(text);
    refused("a(b");
    refused("a\xff");
    loops();
    many();
    places(text);
    lists();
    edits();
    return 0;
}
