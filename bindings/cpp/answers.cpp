// Answers the requests that bindings/c/answers.c tells of, by the C++ header.
#include <zorfelith.hpp>

#include <algorithm>
#include <cstring>
#include <iostream>
#include <sstream>

using zorfelith::chunk;
using zorfelith::range;

// The bytes that a word writes in hexadecimal.
static std::string bytes_of(const std::string &word) {
    std::string out;
    if (word != "-")
        for (std::size_t i = 0; i + 1 < word.size(); i += 2)
            out.push_back(static_cast<char>(std::stoi(word.substr(i, 2), nullptr, 16)));
    return out;
}

// The text in chunks of that length, or in one.
static std::vector<chunk> cut_up(const std::string &text, std::size_t cut) {
    std::vector<chunk> out;
    if (cut == 0)
        out.push_back(text);
    for (std::size_t at = 0; cut != 0 && at < text.size(); at += cut)
        out.emplace_back(text.data() + at, std::min(cut, text.size() - at));
    return out;
}

static std::string shown(const zorfelith::match &found) {
    return std::to_string(found.pattern) + ":" + std::to_string(found.start) + "-" + std::to_string(found.end);
}

static std::string groups_shown(const zorfelith::captures &found) {
    std::string line = "status 1 " + shown(found.found()) + " of " + std::to_string(found.size());
    for (std::size_t group = 0; group < found.size(); group++) {
        const auto span = found[group];
        line += span ? " " + std::to_string(span->start) + "-" + std::to_string(span->end) : " .";
    }
    return line;
}

// Each match, and from its own range the same one with its groups.
static std::string all_shown(zorfelith::regex &regex, zorfelith::text text, range within) {
    std::string line = "all";
    for (const zorfelith::match &found : regex.matches(text, within)) {
        const auto same = regex.groups_of(text, found);
        line += " " + shown(same && same->found().pattern == found.pattern && same->found().end == found.end ? found : zorfelith::match{});
    }
    return line;
}

static std::string answer(char kind, zorfelith::regex &regex, zorfelith::text text, range within) {
    if (kind == 'a')
        return all_shown(regex, text, within);
    if (kind == 'm')
        return regex.is_match(text, within) ? "status 1" : "status 0";
    if (kind == 'w') {
        std::string line = "which";
        for (std::size_t pattern : regex.which_patterns(text, within))
            line += " " + std::to_string(pattern);
        return line;
    }
    if (kind == 'f') {
        const auto found = regex.find(text, within);
        return found ? "status 1 " + shown(*found) : "status 0";
    }
    const auto found = regex.find_groups(text, within);
    return found ? groups_shown(*found) : "status 0";
}

int main() {
    std::string line;
    while (std::getline(std::cin, line)) {
        std::istringstream words(line);
        std::string kind, flags, end, word;
        std::size_t cut, batch, start, count;
        words >> kind >> flags >> cut >> batch >> start >> end >> count;
        std::vector<std::string> patterns;
        for (std::size_t i = 0; i < count && words >> word; i++)
            patterns.push_back(bytes_of(word));
        words >> word;
        const std::string bytes = bytes_of(word);
        const std::vector<chunk> text = cut_up(bytes, cut), texts(patterns.begin(), patterns.end());
        zorfelith::settings settings{};
        for (char &flag : flags)
            flag = static_cast<char>(flag - '0');
        std::memcpy(&settings, flags.data(), flags.size() - 1);
        settings.full = static_cast<std::size_t>(flags.back());
        try {
            zorfelith::regex regex = zorfelith::regex::of_patterns(texts, settings);
            try {
                std::cout << (kind == "r" ? "compiled" : answer(kind[0], regex, text, range{start, end == "end" ? ZF_NONE : std::stoul(end)}));
            } catch (const zorfelith::error &error) {
                std::cout << (kind == "a" ? "all status " : "status ") << error.status();
            }
        } catch (const zorfelith::error &error) {
            std::cout << "refused " << error.status() << " " << error.pattern() << " " << error.at();
        }
        std::cout << "\n";
    }
    return 0;
}
