// Asks by `urlpattern.hpp` what the lines of standard input say, and compares the answers: those lines that `.ci/bindings` writes for `rows.c`,
// which explains them. The last line counts the answers that are as they should be.
#include "urlpattern.hpp"

#include <cstdio>
#include <iostream>
#include <map>

namespace {

using urlpattern::component;
using urlpattern::list;
using urlpattern::match;
using urlpattern::status;
using words = std::vector<std::string>;

// The text of a hexadecimal word. `-` is no text.
std::string text_of(const words &line, std::size_t at) {
    std::string text;
    if (at < line.size() && line[at] != "-") {
        for (std::size_t digit = 0; digit + 1 < line[at].size(); digit += 2) {
            text.push_back(static_cast<char>(std::stoi(line[at].substr(digit, 2), nullptr, 16)));
        }
    }
    return text;
}

// Rows do not tell a URL that is not matched from what is no URL.
bool is_wanted(status found, const std::string &wanted) {
    status number = static_cast<status>(std::stoul(wanted));
    return found == number || (number == status::no_match && found == status::no_url);
}

bool is_added(list &patterns, bool is_init, const words &line) {
    bool ignores = line[2] == "1";
    std::string text = text_of(line, 3), base = text_of(line, 4);
    status found = is_init ? patterns.add_init(text, ignores) : patterns.add(text, base, ignores);
    if (found == status::refused && !is_init && list::diagnose(text, base, ignores)->reason.empty()) {
        return false;
    }
    return is_wanted(found, line[1]);
}

// A map has the same pieces whatever the order in which they are put in.
std::map<std::string, int> pieces(const std::string &text) {
    std::map<std::string, int> all;
    for (std::size_t at = 0, end = 0; (end = text.find('\3', at)) != std::string::npos; at = end + 1) {
        all[text.substr(at, end + 1 - at)]++;
    }
    return all;
}

std::string groups_text(list &patterns, const match &found) {
    std::string text;
    for (const urlpattern_span &span : found.spans) {
        component of = static_cast<component>(span.component);
        std::string name = *patterns.group_name(found.index, of, span.group);
        auto captured = patterns.captured(found, of, name);
        text += '\1' + std::to_string(span.component) + name + '\2';
        text += captured ? "+" + std::string(*captured) : std::string();
        text += '\3';
    }
    return text;
}

bool is_linked(list &patterns, const words &line) {
    std::string text = text_of(line, 2);
    std::vector<urlpattern::group> groups;
    std::size_t at = 0;
    auto number = [&] {
        std::size_t used = 0, found = std::stoul(line[3].substr(at), &used);
        at += used + 1;
        return found;
    };
    while (line[3] != "-" && at < line[3].size()) {
        component of = static_cast<component>(number());
        std::size_t name = number(), name_length = number(), start = number(), length = number();
        std::string_view all = text;
        groups.push_back({of, all.substr(name, name_length), all.substr(start, length)});
    }
    auto url = line.size() > 5 ? patterns.generate(0, static_cast<component>(std::stoul(line[5])), groups) : patterns.link(0, groups);
    return is_wanted(url.code(), line[1]) && (url ? *url == text_of(line, 4) : !url->empty());
}

bool is_covered(list &patterns, list &others, const words &line) {
    auto between = patterns.covers(0, others, 0), within = patterns.covers(0, patterns, 1);
    component of = static_cast<component>(std::stoul(line[2]));
    auto overlap = patterns.overlaps(0, others, 0), overlap_within = patterns.overlaps(0, patterns, 1);
    if (!is_wanted(overlap.code(), line[3]) || overlap_within.code() != overlap.code()
        || bool(patterns.counterexample(0, others, 0)) != (between.first == status::no_match)) {
        return false;
    }
    return is_wanted(between.first, line[1]) && between.second == of && between == within;
}

bool is_matched(list &patterns, const words &line) {
    std::string url = text_of(line, 2), base = text_of(line, 3);
    auto json = patterns.exec(0, url, base);
    auto missed = patterns.mismatch(0, url, base);
    bool names_component = (missed.first == status::no_match) == (missed.second != component::none);
    return is_wanted(json.code(), line[1]) && (!json || *json == text_of(line, 4))
        && patterns.test(0, url, base) == json.code() && missed.first == json.code() && names_component;
}

bool is_init_matched(list &patterns, const words &line) {
    std::string init = text_of(line, 2);
    auto json = patterns.exec_of_init(0, init);
    auto found = patterns.captures_of_init(0, init), first = patterns.first_match_of_init(init);
    return is_wanted(json.code(), line[1]) && found.code() == json.code() && first.code() == json.code()
        && (!json || (*json == text_of(line, 3) && pieces(groups_text(patterns, *found)) == pieces(text_of(line, 4))));
}

bool is_whole(list &patterns, const words &line) {
    auto text = patterns.text(0);
    list again;
    return is_wanted(text.code(), line[1])
        && (!text || (*text == text_of(line, 3) && again.add(*text, {}, line[2] == "1") == status::done
                      && patterns.is_same(0, again, 0) == status::done && patterns.is_same(0, patterns, 0) == status::done));
}

bool is_answered(list &patterns, list &others, const words &line) {
    const std::string &word = line[0];
    if (word == "add" || word == "init") {
        patterns = list();
        return is_added(patterns, word == "init", line);
    }
    if (word == "more" || word == "more_init") {
        return is_added(patterns, word == "more_init", line);
    }
    if (word == "other" || word == "other_init") {
        others = list();
        return is_added(others, word == "other_init", line);
    }
    if (word == "exec") {
        return is_matched(patterns, line);
    }
    if (word == "groups") {
        auto found = patterns.captures(0, text_of(line, 2), text_of(line, 3));
        return is_wanted(found.code(), line[1])
            && (!found || pieces(groups_text(patterns, *found)) == pieces(text_of(line, 4)));
    }
    if (word == "first" || word == "first_init") {
        bool is_init = word == "first_init";
        auto found = is_init ? patterns.first_match_of_init(text_of(line, 2)) : patterns.first_match(text_of(line, 2), text_of(line, 3));
        return is_wanted(found.code(), line[1]) && (!found || std::to_string(found->index) == line[is_init ? 3 : 4]);
    }
    if (word == "match_init") {
        return is_init_matched(patterns, line);
    }
    if (word == "whole") {
        return is_whole(patterns, line);
    }
    if (word == "text") {
        auto text = patterns.text_of(0, static_cast<component>(std::stoul(line[1])));
        return text && *text == text_of(line, 2);
    }
    if (word == "custom" || word == "meaning") {
        return is_wanted(word == "custom" ? patterns.has_regexp_groups(0) : patterns.has_meaning(0), line[1]);
    }
    return word == "link" || word == "generate" ? is_linked(patterns, line) : is_covered(patterns, others, line);
}

// The first of two patterns is the first match of some texts, and covers the other.
bool is_reached() {
    list patterns;
    for (const char *text : {"https://example.com/*", "https://example.com/a"}) {
        if (patterns.add(text) != status::done) {
            return false;
        }
    }
    auto json = patterns.reach_of_each();
    const std::string end = ",[0]]";
    if (!json || json->size() <= 1 + end.size() || json->substr(json->size() - end.size()) != end) {
        return false;
    }
    auto first = patterns.first_match_of_init(json->substr(1, json->size() - 1 - end.size()));
    return first && first->index == 0;
}

} // namespace

int main() {
    list patterns, others;
    unsigned passed = 0, failed = 0, number = 0;
    for (std::string text; std::getline(std::cin, text);) {
        words line(1);
        for (char c : text) {
            if (c == ' ') {
                line.emplace_back();
            } else {
                line.back().push_back(c);
            }
        }
        number++;
        if (is_answered(patterns, others, line)) {
            passed++;
        } else if (failed++ < 20) {
            std::printf("line %u: C++ has another answer\n", number);
        }
    }
    std::printf("%u passed, %u failed\n", passed, failed);
    return failed != 0 || !urlpattern::is_same_version() || !is_reached();
}
