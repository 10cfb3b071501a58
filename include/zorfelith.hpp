// Zorfelith for C++17 and later: regex search over text in chunks.
//
// A text is an array of chunks, each a pointer and a length. Nothing of it is copied. The answers are those of the whole text, wherever it is
// cut. All places are in bytes of the whole text. zorfelith.h says what each call does.
//
// What you owe:
//   - The bytes behind a chunk are there while a call runs that is given it, and don't change then. A `matches` keeps the text: its chunks
//     stay, and neither change nor move, until it is gone.
//   - A regex is used by one thread at a time. Different ones may be used by different threads at once, also where `share` made one from the
//     other. A regex that was moved from is empty: it may be assigned to and destroyed, and each search by it throws.
//   - The text that `live_edit` is given is that of the list, edited as the call says.
//   - 256 KiB of stack are left where a regex is made.
//
// What isn't an answer is thrown, as an `error`.
#ifndef ZORFELITH_HPP
#define ZORFELITH_HPP

#include "zorfelith.h"

#include <array>
#include <cstddef>
#include <cstdint>
#include <iterator>
#include <optional>
#include <stdexcept>
#include <string>
#include <string_view>
#include <type_traits>
#include <utility>
#include <vector>

#if __cplusplus >= 202002L
#include <span>
#endif

namespace zorfelith {
#if __cplusplus >= 202002L
inline namespace cxx20 {
#else
inline namespace cxx17 {
#endif

// How patterns are read, and which match is sought. `settings{}` has the defaults.
using settings = zf_settings;

// A match: the number of its pattern, where it starts, and where it ends.
using match = zf_match;

// What an edit changed in a live list: the matches before `first` stay, `dropped` went from there on, and `added` came in their place. The bytes
// from `start` to `end` of the new text are to be drawn anew.
using change = zf_change;

// A part of a text, whose bytes are the chunks that a search is given: where it begins, and whether the text ends with it, if not 0.
using window = zf_window;

// Some bytes: a chunk of a text, or a pattern. It borrows them.
struct chunk : zf_bytes {
    chunk() noexcept : zf_bytes{zf_none, 0} {}
    chunk(const std::uint8_t *bytes, std::size_t len) noexcept : zf_bytes{len == 0 ? zf_none : bytes, len} {}
    chunk(const std::byte *bytes, std::size_t len) noexcept : chunk(reinterpret_cast<const std::uint8_t *>(bytes), len) {}
    chunk(const char *bytes, std::size_t len) noexcept : chunk(reinterpret_cast<const std::uint8_t *>(bytes), len) {}

    // The bytes of what is a string_view, a string, or a C string without its 0.
    template <class S, class = std::enable_if_t<std::is_convertible_v<const S &, std::string_view>>>
    chunk(const S &text) : chunk(std::string_view(text)) {}
    chunk(std::string_view text) noexcept : chunk(text.data(), text.size()) {}
#if __cplusplus >= 202002L
    chunk(std::span<const std::byte> bytes) noexcept : chunk(bytes.data(), bytes.size()) {}
    chunk(std::span<const std::uint8_t> bytes) noexcept : chunk(bytes.data(), bytes.size()) {}
#endif
};

// An array of chunks is handed to the library as it lies.
static_assert(sizeof(chunk) == sizeof(zf_bytes) && alignof(chunk) == alignof(zf_bytes), "a chunk is a zf_bytes");

#if __cplusplus >= 202002L
// Chunks that lie one behind another: a text, or a list of patterns.
using text = std::span<const chunk>;
#else
// Chunks that lie one behind another: a text, or a list of patterns. It borrows them.
class text {
  public:
    text() noexcept = default;
    text(const chunk *first, std::size_t count) noexcept : first_(first), count_(count) {}
    template <std::size_t N> text(const chunk (&chunks)[N]) noexcept : first_(chunks), count_(N) {}

    // The chunks of a vector, an array, or what else has `data` and `size`.
    template <class C, class = std::enable_if_t<std::is_convertible_v<decltype(std::declval<const C &>().data()), const chunk *>>>
    text(const C &chunks) noexcept : first_(chunks.data()), count_(chunks.size()) {}

    const chunk *data() const noexcept { return first_; }
    std::size_t size() const noexcept { return count_; }
    bool empty() const noexcept { return count_ == 0; }
    const chunk *begin() const noexcept { return first_; }
    const chunk *end() const noexcept { return first_ + count_; }
    const chunk &operator[](std::size_t i) const noexcept { return first_[i]; }

  private:
    const chunk *first_ = nullptr;
    std::size_t count_ = 0;
};
#endif

// A start and an end in bytes. `range{}` is the whole text.
struct range {
    std::size_t start = 0;
    std::size_t end = ZF_NONE;
};

// Why there is no answer.
class error : public std::runtime_error {
  public:
    explicit error(zf_refused refused) : std::runtime_error(words(refused)), refused_(refused) {}
    explicit error(std::uint32_t status) : error(zf_refused{status, 0, 0}) {}

    // The status, as ZF_SYNTAX.
    std::uint32_t status() const noexcept { return refused_.status; }

    // The number of the pattern that was refused, with ZF_SYNTAX and ZF_NOT_UTF8.
    std::size_t pattern() const noexcept { return refused_.pattern; }

    // The byte of that pattern at which the fault was met, with ZF_SYNTAX.
    std::size_t at() const noexcept { return refused_.at; }

  private:
    static std::string words(const zf_refused &refused) {
        switch (refused.status) {
        case ZF_EMPTY: return "the regex or the text was moved from";
        case ZF_TOO_LONG: return "the text is too long";
        case ZF_OUTSIDE: return "the range is outside of the text";
        case ZF_NOT_UTF8: return "pattern " + std::to_string(refused.pattern) + " isn't UTF-8";
        case ZF_UNKNOWN: return "the settings are of a newer version";
        case ZF_SYNTAX: return "pattern " + std::to_string(refused.pattern) + " isn't read: byte " + std::to_string(refused.at);
        case ZF_TOO_LARGE: return "the patterns are too large";
        case ZF_MEMORY: return "out of memory";
        case ZF_NO_KIND: return "there is no such kind of match";
        case ZF_NO_LIST: return "the regex keeps no live list";
        case ZF_MISFIT: return "the text doesn't have the length that the edit gives";
        case ZF_NO_STREAM: return "the regex keeps no stream";
        case ZF_FINISHED: return "the stream was finished";
        case ZF_LIMIT: return "the stream would keep more bytes than its limit";
        case ZF_NO_STEPPER: return "the regex keeps no search in slices";
        default: return "status " + std::to_string(refused.status);
        }
    }

    zf_refused refused_;
};

// A match and its groups.
class captures {
  public:
    captures(const match &found, std::vector<zf_group> groups) : found_(found), groups_(std::move(groups)) {}

    const match &found() const noexcept { return found_; }

    // How many groups the pattern has, the whole match among them.
    std::size_t size() const noexcept { return groups_.size(); }

    // Where a group matched; none if it took no part, or if there is no such group. Group 0 is the whole match.
    std::optional<range> operator[](std::size_t group) const noexcept {
        if (group >= groups_.size() || groups_[group].start == ZF_NONE)
            return std::nullopt;
        return range{groups_[group].start, groups_[group].end};
    }

  private:
    match found_;
    std::vector<zf_group> groups_;
};

// A fault in the text of a pattern: the part of it that is at fault, and a line that says what is wrong.
struct fault {
    range where;
    std::string words;
};

// What is wrong with the text of a pattern; nothing if it is read as one.
inline std::optional<fault> explain(std::string_view pattern, const settings &with = settings{}) {
    const chunk text(pattern);
    zf_fault met{};
    std::string words(64, ' ');
    std::uint32_t status = ZF_SHORT;
    while (status == ZF_SHORT) {
        status = zf_explain(text.bytes, text.len, &with, sizeof with, &met, reinterpret_cast<std::uint8_t *>(words.data()), words.size());
        if (status == ZF_SHORT || status == ZF_FOUND)
            words.resize(met.len);
    }
    if (status == ZF_DONE)
        return std::nullopt;
    if (status != ZF_FOUND)
        throw error(status);
    return fault{range{met.start, met.end}, words};
}

// The pattern that matches a text in UTF-8 and nothing else.
inline std::string escape(std::string_view text) {
    const chunk plain(text);
    std::string pattern(2 * text.size(), ' ');
    std::size_t len = 0;
    const std::uint32_t status = zf_escape(plain.bytes, plain.len, reinterpret_cast<std::uint8_t *>(pattern.data()), pattern.size(), &len);
    if (status != ZF_DONE)
        throw error(status);
    pattern.resize(len);
    return pattern;
}

// The version of the library, as ZF_VERSION is that of the header.
inline std::uint32_t version() noexcept { return zf_version(); }

// A prepared text: its chunks with the places where they begin, edited in place. A search of it counts no chunks, and any regex may search it.
// It keeps where the chunks lie: their bytes stay there and don't change until an edit takes them out, or it is gone. It is used by one thread
// at a time. One that was moved from is empty.
class prepared {
  public:
    explicit prepared(text chunks) { told(zf_text_new(&text_, first(chunks), chunks.size())); }

    prepared(prepared &&other) noexcept : text_(std::exchange(other.text_, zf_text{0, nullptr})) {}
    prepared &operator=(prepared &&other) noexcept {
        if (this != &other) {
            zf_text_free(&text_);
            text_ = std::exchange(other.text_, zf_text{0, nullptr});
        }
        return *this;
    }
    prepared(const prepared &) = delete;
    prepared &operator=(const prepared &) = delete;
    ~prepared() { zf_text_free(&text_); }

    // Replaces the chunks from the index `start` on and before the index `end` by others. If that is refused, all is as it was.
    void edit(std::size_t start, std::size_t end, text others) { told(zf_text_edit(&text_, start, end, first(others), others.size())); }

  private:
    friend class regex;

    static void told(std::uint32_t status) {
        if (status != ZF_DONE)
            throw error(status);
    }

    // Where the chunks begin, which is never null.
    static const zf_bytes *first(text in) noexcept {
        static const zf_bytes none{zf_none, 0};
        return in.empty() ? &none : in.data();
    }

    zf_text text_{0, nullptr};
};

class matches;

// Compiled patterns, with all that searches by them need.
class regex {
  public:
    explicit regex(std::string_view pattern, const settings &with = settings{}) {
        const chunk one(pattern);
        compile(text(&one, 1), with);
    }

    // A regex of many patterns. There may be none.
    static regex of_patterns(text patterns, const settings &with = settings{}) {
        regex made;
        made.compile(patterns, with);
        return made;
    }

    regex(regex &&other) noexcept : handle_(std::exchange(other.handle_, zf_handle{0, nullptr})) {}
    regex &operator=(regex &&other) noexcept {
        if (this != &other) {
            zf_free(&handle_);
            handle_ = std::exchange(other.handle_, zf_handle{0, nullptr});
        }
        return *this;
    }
    regex(const regex &) = delete;
    regex &operator=(const regex &) = delete;
    ~regex() { zf_free(&handle_); }

    // Another regex of the same patterns, which aren't compiled again: for another thread, or for the list of another text.
    regex share() {
        regex other;
        told(zf_share(&handle_, &other.handle_));
        return other;
    }

    // Whether there is a match in the range.
    bool is_match(text in, range within = {}) {
        return told(zf_is_match(&handle_, first(in), in.size(), within.start, within.end));
    }

    // The match in the range.
    std::optional<match> find(text in, range within = {}) {
        match found{};
        if (!told(zf_find(&handle_, first(in), in.size(), within.start, within.end, &found)))
            return std::nullopt;
        return found;
    }

    // The match that begins where the range does.
    std::optional<match> match_at(text in, range within = {}) {
        match found{};
        if (!told(zf_match_at(&handle_, first(in), in.size(), within.start, within.end, &found)))
            return std::nullopt;
        return found;
    }

    // The last match that begins before a place, of those that `matches` gives.
    std::optional<match> find_last(text in, std::size_t place, range within = {}) {
        match found{};
        if (!told(zf_find_last(&handle_, first(in), in.size(), within.start, within.end, place, &found)))
            return std::nullopt;
        return found;
    }

    // What the beginning of a text tells of a search from `start` on: the match of each text that goes on from it; or none, and no match of such a
    // text begins before `from`, which is then set.
    std::optional<match> find_partial(text in, std::size_t start, std::size_t &from) {
        match found{};
        if (!told(zf_find_partial(&handle_, first(in), in.size(), start, &found, &from)))
            return std::nullopt;
        return found;
    }

    // The match of the whole text from `from` to `end`, by a window of it. ZF_FOUND: it is `found`. ZF_DONE: there is none. ZF_MORE_AFTER: the window
    // ends too early; `from` was raised to where the search goes on, in a window that begins four bytes before it or earlier. ZF_MORE_BEFORE: the
    // window lacks some of the four bytes before `from`.
    std::uint32_t find_in_window(text in, const window &part, std::size_t &from, match &found, std::size_t end = ZF_NONE) {
        const std::uint32_t status = zf_window_find(&handle_, first(in), in.size(), &part, &from, end, &found);
        if (status != ZF_MORE_AFTER && status != ZF_MORE_BEFORE)
            told(status);
        return status;
    }

    // The match from `start` on, and the bytes that a template puts in its place.
    std::optional<std::pair<match, std::string>> replace_one(text in, std::string_view by, std::size_t start = 0) {
        const chunk made_of(by);
        std::string out;
        zf_replacement one{};
        std::uint32_t status = ZF_SHORT;
        while (status == ZF_SHORT) {
            status = zf_replace_one(&handle_, first(in), in.size(), start, made_of.bytes, made_of.len, bytes(out), out.size(), &one);
            if (status == ZF_SHORT || status == ZF_FOUND)
                out.resize(one.len);
        }
        if (status == ZF_DONE)
            return std::nullopt;
        if (status != ZF_FOUND)
            throw error(zf_refused{status, 0, one.at});
        return std::pair(one.found, out);
    }

    // The whole text with each match replaced by a template: in it `${1}` and `${name}` are the bytes of a group, and `$$` is a `$`. A fault in
    // the template is thrown with ZF_SYNTAX; `at` is a byte of the template.
    std::string replace(text in, std::string_view by) {
        const chunk made_of(by);
        std::string out;
        zf_replaced told_of{};
        std::uint32_t status = replace_into(out, in, made_of, told_of);
        if (status == ZF_SHORT) {
            out.resize(told_of.len);
            status = replace_into(out, in, made_of, told_of);
        }
        if (status != ZF_DONE)
            throw error(zf_refused{status, 0, told_of.at});
        return out;
    }

    // The match in the range with its groups.
    std::optional<captures> find_groups(text in, range within = {}) {
        match found{};
        std::vector<zf_group> groups(most_groups());
        if (!told(zf_find_groups(&handle_, first(in), in.size(), within.start, within.end, &found, groups.data(), groups.size())))
            return std::nullopt;
        groups.resize(group_count(found.pattern));
        return captures(found, std::move(groups));
    }

    // The same of a prepared text.
    std::optional<match> find(prepared &in, range within = {}) { return find_within(in, zf_bounds{within.start, within.end, 0}); }
    std::optional<match> match_at(prepared &in, range within = {}) { return find_within(in, zf_bounds{within.start, within.end, 1}); }
    std::optional<captures> find_groups(prepared &in, range within = {}) {
        match found{};
        std::vector<zf_group> groups(most_groups());
        if (!told(zf_text_find_groups(&handle_, &in.text_, within.start, within.end, &found, groups.data(), groups.size())))
            return std::nullopt;
        groups.resize(group_count(found.pattern));
        return captures(found, std::move(groups));
    }

    std::optional<match> find_partial(prepared &in, std::size_t start, std::size_t &from) {
        match found{};
        if (!told(zf_text_find_partial(&handle_, &in.text_, start, &found, &from)))
            return std::nullopt;
        return found;
    }

    // The live list of a prepared text, and that list under an edit of bytes, which `edit` made before.
    void live_new(prepared &in) { told(zf_text_live_new(&handle_, &in.text_)); }
    change live_edit(range replaced, std::size_t inserted, prepared &now) {
        change made{};
        told(zf_text_live_edit(&handle_, replaced.start, replaced.end, inserted, &now.text_, &made));
        return made;
    }

    // The matches of a prepared text in the range, from left to right, at most so many.
    std::vector<match> find_all(prepared &in, range within = {}, std::size_t most = 1024) {
        std::vector<match> batch(most > 0 ? most : 1);
        zf_progress progress{0, within.start};
        told(zf_restart(&handle_, within.start, 0));
        told(zf_text_next(&handle_, &in.text_, within.end, batch.data(), most, &progress));
        batch.resize(progress.count);
        return batch;
    }

    // The groups of a match that a search of the same text gave.
    std::optional<captures> groups_of(text in, const match &found) { return find_groups(in, range{found.start, found.end}); }

    // The numbers of the patterns that have a match in the range, the least first.
    std::vector<std::size_t> which_patterns(text in, range within = {}) {
        std::vector<std::uint8_t> marks(pattern_count());
        told(zf_which_patterns(&handle_, first(in), in.size(), within.start, within.end, marks.data(), marks.size()));
        std::vector<std::size_t> out;
        for (std::size_t pattern = 0; pattern < marks.size(); pattern++)
            if (marks[pattern] != 0)
                out.push_back(pattern);
        return out;
    }

    // The matches in the range, from left to right, as a range to loop over. It borrows the regex and the chunks.
    zorfelith::matches matches(text in, range within = {}) &;
    zorfelith::matches matches(text in, range within = {}) && = delete;

    // Makes the list of all matches of the text, and keeps it, in place of another one.
    void live_new(text in) { told(zf_live_new(&handle_, first(in), in.size())); }

    // Keeps the list under an edit: the bytes of `replaced` were replaced by `inserted` others, and the text is the whole text as it is now. It has
    // to be the text of the call before on the list but for that edit. Out of memory there is no list any more.
    change live_edit(range replaced, std::size_t inserted, text now) {
        change made{};
        told(zf_live_edit(&handle_, replaced.start, replaced.end, inserted, first(now), now.size(), &made));
        return made;
    }

    // Frees the list.
    void live_free() { told(zf_live_free(&handle_)); }

    // How many matches the list has.
    std::size_t live_size() {
        std::size_t len = 0;
        told(zf_live_len(&handle_, &len));
        return len;
    }

    // The match of the list with this index, if there is one.
    std::optional<match> live_get(std::size_t index) {
        match found{};
        if (!told(zf_live_get(&handle_, index, &found)))
            return std::nullopt;
        return found;
    }

    // The first match of the list that begins at the place or later.
    std::optional<match> live_next(std::size_t place) {
        match found{};
        if (!told(zf_live_next(&handle_, place, &found)))
            return std::nullopt;
        return found;
    }

    // The last match of the list that begins before the place.
    std::optional<match> live_previous(std::size_t place) {
        match found{};
        if (!told(zf_live_previous(&handle_, place, &found)))
            return std::nullopt;
        return found;
    }

    // The matches of the list that touch the range, at most so many.
    std::vector<match> live_window(range window, std::size_t most = 1024) {
        std::vector<match> batch(most > 0 ? most : 1);
        std::size_t count = 0;
        told(zf_live_window(&handle_, window.start, window.end, batch.data(), most, &count));
        batch.resize(count);
        return batch;
    }

    // Begins a stream of which nothing has come yet, and keeps it, in place of another one.
    void stream_new() { told(zf_stream_new(&handle_)); }

    // Lets the stream keep at most so many bytes.
    void stream_limit(std::size_t limit) { told(zf_stream_limit(&handle_, limit)); }

    // Feeds the next bytes of the stream. If that is refused, nothing of them was taken.
    void stream_feed(const chunk &next) { told(zf_stream_feed(&handle_, next.bytes, next.len)); }

    // The next match of the stream that nothing that follows can change, if there is one yet.
    std::optional<match> stream_next() {
        match found{};
        if (!told(zf_stream_next(&handle_, &found)))
            return std::nullopt;
        return found;
    }

    // Says that no more follows.
    void stream_finish() { told(zf_stream_finish(&handle_)); }

    // The bytes that the stream keeps. `start` is set to where the first of them stands in the stream.
    std::string stream_kept(std::size_t &start) {
        zf_kept kept{};
        std::string out;
        std::uint32_t status = ZF_SHORT;
        while (status == ZF_SHORT) {
            out.resize(kept.len + 1);
            status = zf_stream_kept(&handle_, reinterpret_cast<std::uint8_t *>(out.data()), out.size(), &kept);
        }
        told(status);
        out.resize(kept.len);
        start = kept.start;
        return out;
    }

    // Frees the stream.
    void stream_free() { told(zf_stream_free(&handle_)); }

    // Makes a search in slices from `start` on, and keeps it, in place of another one.
    void step_new(std::size_t start = 0) { told(zf_step_new(&handle_, start)); }

    // Begins anew from `start` on.
    void step_start(std::size_t start) { told(zf_step_start(&handle_, start)); }

    // Searches about so many bytes more. ZF_FOUND: it is `found`. ZF_DONE: there is none. ZF_MORE_AFTER: more bytes decide it.
    std::uint32_t step_resume(text in, std::size_t budget, match &found) {
        const std::uint32_t status = zf_step_resume(&handle_, first(in), in.size(), budget, &found);
        if (status != ZF_MORE_AFTER)
            told(status);
        return status;
    }

    // How many bytes of the text were looked at.
    std::size_t step_position() {
        std::size_t position = 0;
        told(zf_step_position(&handle_, &position));
        return position;
    }

    // Frees the search in slices.
    void step_free() { told(zf_step_free(&handle_)); }

    std::size_t pattern_count() {
        std::size_t count = 0;
        told(zf_pattern_count(&handle_, &count));
        return count;
    }

    // How many groups a pattern has, the whole match among them; 0 if there is no such pattern.
    std::size_t group_count(std::size_t pattern) {
        std::size_t count = 0;
        const std::uint32_t status = zf_group_count(&handle_, pattern, &count);
        return status == ZF_ABSENT ? 0 : (told(status), count);
    }

    // The name of a group, if it has one.
    std::optional<std::string> group_name(std::size_t pattern, std::size_t group) {
        std::string name;
        std::size_t len = 0;
        std::uint32_t status = zf_group_name(&handle_, pattern, group, bytes(name), name.size(), &len);
        if (status == ZF_SHORT) {
            name.resize(len);
            status = zf_group_name(&handle_, pattern, group, bytes(name), name.size(), &len);
        }
        if (status == ZF_ABSENT)
            return std::nullopt;
        told(status);
        return name;
    }

    // The number of the first group of that name, if there is one.
    std::optional<std::size_t> group_number(std::size_t pattern, std::string_view name) {
        const chunk named(name);
        std::size_t number = 0;
        const std::uint32_t status = zf_group_number(&handle_, pattern, named.bytes, named.len, &number);
        if (status == ZF_ABSENT)
            return std::nullopt;
        told(status);
        return number;
    }

    // About how many bytes the patterns and their cache take.
    std::size_t memory() {
        std::size_t count = 0;
        told(zf_memory(&handle_, &count));
        return count;
    }

    // The same by parts.
    zf_parts memory_parts() {
        zf_parts parts{};
        told(zf_memory_parts(&handle_, &parts));
        return parts;
    }

  private:
    friend class zorfelith::matches;

    regex() noexcept = default;

    std::optional<match> find_within(prepared &in, const zf_bounds &bounds) {
        match found{};
        if (!told(zf_text_find(&handle_, &in.text_, &bounds, &found)))
            return std::nullopt;
        return found;
    }

    std::uint32_t replace_into(std::string &out, text in, const chunk &by, zf_replaced &told_of) {
        return zf_replace(&handle_, first(in), in.size(), by.bytes, by.len, bytes(out), out.size(), &told_of);
    }

    void compile(text patterns, const settings &with) {
        zf_refused refused{};
        if (zf_compile(&handle_, first(patterns), patterns.size(), &with, sizeof with, &refused) != ZF_DONE)
            throw error(refused);
    }

    // Whether a search found a match; throws if it gave no answer.
    static bool told(std::uint32_t status) {
        if (status != ZF_DONE && status != ZF_FOUND)
            throw error(status);
        return status == ZF_FOUND;
    }

    static const zf_bytes *first(text in) noexcept { return prepared::first(in); }

    static std::uint8_t *bytes(std::string &name) noexcept { return reinterpret_cast<std::uint8_t *>(name.data()); }

    // At least 1, so that the places for groups lie somewhere.
    std::size_t most_groups() {
        std::size_t most = 1;
        const std::size_t patterns = pattern_count();
        for (std::size_t pattern = 0; pattern < patterns; pattern++)
            if (const std::size_t count = group_count(pattern); count > most)
                most = count;
        return most;
    }

    zf_handle handle_{0, nullptr};
};

// The matches of a text, found in batches. Its iterators are input iterators: it is gone over once. Each batch begins where the one before
// ended, whatever else the regex was asked between them.
class matches {
  public:
    struct sentinel {};

    class iterator {
      public:
        using iterator_category = std::input_iterator_tag;
        using value_type = match;
        using difference_type = std::ptrdiff_t;
        using pointer = const match *;
        using reference = const match &;

        iterator() noexcept = default;
        explicit iterator(matches *of) noexcept : of_(of) {}
        reference operator*() const noexcept { return of_->batch_[of_->at_]; }
        pointer operator->() const noexcept { return &**this; }
        iterator &operator++() {
            of_->advance();
            return *this;
        }
        void operator++(int) { ++*this; }
        bool is_end() const noexcept { return of_ == nullptr || of_->at_ == of_->len_; }

        friend bool operator==(const iterator &it, sentinel) noexcept { return it.is_end(); }
#if __cplusplus < 202002L
        friend bool operator==(sentinel, const iterator &it) noexcept { return it.is_end(); }
        friend bool operator!=(const iterator &it, sentinel) noexcept { return !it.is_end(); }
        friend bool operator!=(sentinel, const iterator &it) noexcept { return !it.is_end(); }
#endif

      private:
        matches *of_ = nullptr;
    };

    matches(regex &by, text in, range within) noexcept : by_(&by), in_(in), next_(within.start), end_(within.end) {}

    iterator begin() {
        if (!is_begun_)
            fill();
        return iterator(this);
    }
    sentinel end() const noexcept { return {}; }

  private:
    void fill() {
        zf_progress progress{0, next_};
        regex::told(zf_restart(&by_->handle_, next_, follows_));
        regex::told(zf_next(&by_->handle_, regex::first(in_), in_.size(), end_, batch_.data(), batch_.size(), &progress));
        is_begun_ = true;
        at_ = 0;
        len_ = progress.count;
        next_ = progress.next;
        follows_ = follows_ != 0 || len_ != 0;
    }

    void advance() {
        at_++;
        if (at_ == len_ && len_ == batch_.size())
            fill();
    }

    regex *by_;
    text in_;
    std::size_t next_;
    std::size_t end_;
    std::uint8_t follows_ = 0;
    bool is_begun_ = false;
    std::size_t at_ = 0;
    std::size_t len_ = 0;
    std::array<match, 256> batch_{};
};

inline matches regex::matches(text in, range within) & { return zorfelith::matches(*this, in, within); }

} // inline namespace
} // namespace zorfelith

#endif
