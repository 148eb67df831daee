/* Included by `urlpattern.hpp`: what calls report and return, in C++17. */
#ifndef URLPATTERN_VALUES_HPP
#define URLPATTERN_VALUES_HPP

#include "urlpattern.h"

#include <algorithm>
#include <cstddef>
#include <cstdint>
#include <optional>
#include <string>
#include <string_view>
#include <utility>
#include <vector>

namespace urlpattern {

/* What a call reports. The one of zeros is `no_match`. */
enum class [[nodiscard]] status : std::uint32_t {
    no_match = URLPATTERN_NO_MATCH,
    done = URLPATTERN_DONE,
    no_url = URLPATTERN_NO_URL,
    no_path = URLPATTERN_NO_PATH,
    too_long = URLPATTERN_TOO_LONG,
    not_utf8 = URLPATTERN_NOT_UTF8,
    refused = URLPATTERN_REFUSED,
    out_of_memory = URLPATTERN_OUT_OF_MEMORY,
    no_pattern = URLPATTERN_NO_PATTERN,
    too_small = URLPATTERN_TOO_SMALL,
    unknown = URLPATTERN_UNKNOWN,
    shared = URLPATTERN_SHARED,
    not_allowed = URLPATTERN_NOT_ALLOWED,
    name_taken = URLPATTERN_NAME_TAKEN,
    not_a_method = URLPATTERN_NOT_A_METHOD
};

enum class component : std::uint32_t {
    protocol = URLPATTERN_PROTOCOL,
    username = URLPATTERN_USERNAME,
    password = URLPATTERN_PASSWORD,
    hostname = URLPATTERN_HOSTNAME,
    port = URLPATTERN_PORT,
    pathname = URLPATTERN_PATHNAME,
    search = URLPATTERN_SEARCH,
    hash = URLPATTERN_HASH,
    none = URLPATTERN_NO_COMPONENT
};

/* The outcome of a call: its status, and its value if that is `done`, or, for a link or a generated
 * text, the reason if it is `refused`. The value of a temporary outcome is returned by itself. */
template <class Value> class [[nodiscard]] result {
  public:
    result(urlpattern_status number, Value value)
        : code_(static_cast<status>(number)), value_(std::move(value)) {}

    explicit operator bool() const { return code_ == status::done; }
    status code() const { return code_; }
    const Value &operator*() const & { return value_; }
    Value operator*() && { return std::move(value_); }
    const Value *operator->() const { return &value_; }

  private:
    status code_;
    Value value_;
};

/* A text that is given for a group. */
struct group {
    component of;
    std::string_view name;
    std::string_view text;
};

/* Why a pattern is refused, and the bytes at fault, from `start` to `end`, of the text that
 * `subject` names as `urlpattern_place` does. */
struct refusal {
    std::string reason;
    std::uint32_t subject = 0;
    std::size_t start = 0, end = 0;
};

/* A match: the index of the pattern, and what its groups captured. */
class match {
  public:
    std::size_t index = 0;

    /* What a group captured, by its number in its component; nothing if it took no part. The view
     * is of this match, which is therefore no temporary one. */
    std::optional<std::string_view> operator()(component of, std::size_t number) const & {
        for (const urlpattern_span &span : spans) {
            if (span.component == static_cast<urlpattern_component_number>(of)
                && span.group == number && span.took_part) {
                return std::string_view(text).substr(span.start, span.length);
            }
        }
        return std::nullopt;
    }
    std::optional<std::string_view> operator()(component of, std::size_t number) const && = delete;

    std::string text;
    std::vector<urlpattern_span> spans;
};

/* Whether the library is of the version of this header. */
inline bool is_same_version() {
    return urlpattern_version() / 1000 == URLPATTERN_VERSION / 1000;
}

/* What the classes share. */
namespace details {

inline status to_status(urlpattern_status number) { return static_cast<status>(number); }

inline urlpattern_component_number to_number(component of) {
    return static_cast<urlpattern_component_number>(of);
}

/* Names and texts of groups as one text, and where each of them lies. */
inline std::pair<std::string, std::vector<urlpattern_given>> joined(
    const std::vector<group> &groups) {
    std::string text;
    std::vector<urlpattern_given> given;
    for (const group &each : groups) {
        std::size_t start = text.size() + each.name.size();
        given.push_back({to_number(each.of), text.size(), each.name.size(), start,
                         each.text.size()});
        text.append(each.name).append(each.text);
    }
    return {std::move(text), std::move(given)};
}

/* Calls what writes a text, with as much room as it needs. */
template <class Call> result<std::string> written(Call call) {
    std::string text(256, '\0');
    std::size_t needed = 0;
    urlpattern_status status = call(text.data(), text.size(), &needed);
    while (status == URLPATTERN_TOO_SMALL) {
        text.resize(needed);
        status = call(text.data(), text.size(), &needed);
    }
    bool is_written = status == URLPATTERN_DONE || status == URLPATTERN_REFUSED;
    text.resize(is_written ? std::min(needed, text.size()) : 0);
    return {status, std::move(text)};
}

/* Calls what writes a match, with as much room as it needs. */
template <class Call> result<match> matched(std::size_t index, Call call) {
    match found;
    found.index = index;
    urlpattern_sizes sizes = {256, 16};
    urlpattern_status status = URLPATTERN_TOO_SMALL;
    while (status == URLPATTERN_TOO_SMALL) {
        found.text.resize(std::max(sizes.bytes, found.text.size()));
        found.spans.resize(std::max(sizes.spans, found.spans.size()));
        status = call(found, &sizes);
    }
    found.text.resize(status == URLPATTERN_DONE ? sizes.bytes : 0);
    found.spans.resize(status == URLPATTERN_DONE ? sizes.spans : 0);
    return {status, std::move(found)};
}

} // namespace details

} // namespace urlpattern

#endif
