/* URL patterns for C++17, over the functions of `urlpattern.h`, which says what each of them does.
 * Nothing here throws but the strings and vectors of the standard library.
 *
 *     urlpattern::list routes;
 *     if (routes.add("https://example.com/users/:id") != urlpattern::status::done) {
 *         return 1;
 *     }
 *     if (auto match = routes.first_match("https://example.com/users/7")) {
 *         auto id = routes.captured(*match, urlpattern::component::pathname, "id"); // "7"
 *     }
 *
 * Threads. A list may go from thread to thread, and one call at a time has it: no method is const,
 * but those that touch no patterns. To match in several threads at once, give each a list of its
 * own to the same patterns, by `share`.
 */
#ifndef URLPATTERN_HPP
#define URLPATTERN_HPP

#include "urlpattern_values.hpp"

namespace urlpattern {

/* Patterns in their order, as the routes of a router, which this object frees. */
class list {
  public:
    list() = default;
    list(list &&other) noexcept : handle_(std::exchange(other.handle_, urlpattern_list{})) {}
    list &operator=(list &&other) noexcept {
        std::swap(handle_, other.handle_);
        return *this;
    }
    list(const list &) = delete;
    list &operator=(const list &) = delete;
    ~list() { urlpattern_free(&handle_); }

    status add(std::string_view pattern, std::string_view base = {}, bool ignore_case = false) {
        return details::to_status(urlpattern_add(&handle_, pattern.data(), pattern.size(),
                                                 base.data(), base.size(), ignore_case));
    }

    status add_init(std::string_view json, bool ignore_case = false) {
        return details::to_status(
            urlpattern_add_init(&handle_, json.data(), json.size(), ignore_case));
    }

    /* Another list of the same patterns, for another thread; nothing if memory ran out. */
    std::optional<list> share() {
        std::optional<list> other(std::in_place);
        if (urlpattern_share(&handle_, &other->handle_) != URLPATTERN_DONE) {
            other.reset();
        }
        return other;
    }

    status test(std::size_t index, std::string_view url, std::string_view base = {}) {
        return details::to_status(urlpattern_test(&handle_, index, url.data(), url.size(),
                                                  base.data(), base.size()));
    }

    /* The first component that does not match, if the status is `no_match`. */
    std::pair<status, component> mismatch(std::size_t index, std::string_view url,
                                          std::string_view base = {}) {
        urlpattern_component_number number = URLPATTERN_NO_COMPONENT;
        urlpattern_status status = urlpattern_mismatch(&handle_, index, url.data(), url.size(),
                                                       base.data(), base.size(), &number);
        return {details::to_status(status), static_cast<component>(number)};
    }

    result<std::string> exec(std::size_t index, std::string_view url, std::string_view base = {}) {
        return details::written([&](char *buffer, std::size_t room, std::size_t *needed) {
            return urlpattern_exec(&handle_, index, url.data(), url.size(), base.data(),
                                   base.size(), buffer, room, needed);
        });
    }

    result<match> captures(std::size_t index, std::string_view url, std::string_view base = {}) {
        return details::matched(index, [&](match &found, urlpattern_sizes *sizes) {
            return urlpattern_captures(&handle_, index, url.data(), url.size(), base.data(),
                                       base.size(), found.text.data(), found.text.size(),
                                       found.spans.data(), found.spans.size(), sizes);
        });
    }

    result<match> captures_of_path(std::size_t index, std::string_view path) {
        return details::matched(index, [&](match &found, urlpattern_sizes *sizes) {
            return urlpattern_captures_of_path(&handle_, index, path.data(), path.size(),
                                               found.text.data(), found.text.size(),
                                               found.spans.data(), found.spans.size(), sizes);
        });
    }

    result<match> first_match(std::string_view url, std::string_view base = {}) {
        return details::matched(0, [&](match &found, urlpattern_sizes *sizes) {
            return urlpattern_first_captures(&handle_, url.data(), url.size(), base.data(),
                                             base.size(), &found.index, found.text.data(),
                                             found.text.size(), found.spans.data(),
                                             found.spans.size(), sizes);
        });
    }

    result<match> first_match_of_path(std::string_view path) {
        return details::matched(0, [&](match &found, urlpattern_sizes *sizes) {
            return urlpattern_first_captures_of_path(&handle_, path.data(), path.size(),
                                                     &found.index, found.text.data(),
                                                     found.text.size(), found.spans.data(),
                                                     found.spans.size(), sizes);
        });
    }

    /* Matches eight texts, which are parts of one. */
    result<match> captures_of_texts(std::size_t index, std::string_view text,
                                    const urlpattern_parts &parts) {
        return details::matched(index, [&](match &found, urlpattern_sizes *sizes) {
            return urlpattern_captures_of_texts(&handle_, index, text.data(), text.size(), &parts,
                                                found.text.data(), found.text.size(),
                                                found.spans.data(), found.spans.size(), sizes);
        });
    }

    result<match> first_match_of_texts(std::string_view text, const urlpattern_parts &parts) {
        return details::matched(0, [&](match &found, urlpattern_sizes *sizes) {
            return urlpattern_first_captures_of_texts(&handle_, text.data(), text.size(), &parts,
                                                      &found.index, found.text.data(),
                                                      found.text.size(), found.spans.data(),
                                                      found.spans.size(), sizes);
        });
    }

    /* Matches an init, an object of JSON. */
    result<match> captures_of_init(std::size_t index, std::string_view json) {
        return details::matched(index, [&](match &found, urlpattern_sizes *sizes) {
            return urlpattern_captures_of_init(&handle_, index, json.data(), json.size(),
                                               found.text.data(), found.text.size(),
                                               found.spans.data(), found.spans.size(), sizes);
        });
    }

    result<match> first_match_of_init(std::string_view json) {
        return details::matched(0, [&](match &found, urlpattern_sizes *sizes) {
            return urlpattern_first_captures_of_init(&handle_, json.data(), json.size(),
                                                     &found.index, found.text.data(),
                                                     found.text.size(), found.spans.data(),
                                                     found.spans.size(), sizes);
        });
    }

    result<std::string> exec_of_init(std::size_t index, std::string_view json) {
        return details::written([&](char *buffer, std::size_t room, std::size_t *needed) {
            return urlpattern_exec_of_init(&handle_, index, json.data(), json.size(), buffer, room,
                                           needed);
        });
    }

    /* What the group of this name captured in a match of this list; nothing if it took no part, or
     * the pattern has no such group. The view is of the match, which is therefore no temporary
     * one. */
    std::optional<std::string_view> captured(const match &found, component of,
                                             std::string_view name) {
        for (const urlpattern_span &span : found.spans) {
            if (span.component == static_cast<urlpattern_component_number>(of)
                && *group_name(found.index, of, span.group) == name) {
                return found(of, span.group);
            }
        }
        return std::nullopt;
    }
    std::optional<std::string_view> captured(const match &&found, component of,
                                             std::string_view name) = delete;

    result<std::string> group_name(std::size_t index, component of, std::size_t number) {
        return details::written([&](char *buffer, std::size_t room, std::size_t *needed) {
            return urlpattern_group_name(&handle_, index, details::to_number(of), number, buffer,
                                         room, needed);
        });
    }

    result<std::string> text_of(std::size_t index, component of) {
        return details::written([&](char *buffer, std::size_t room, std::size_t *needed) {
            return urlpattern_component(&handle_, index, details::to_number(of), buffer, room,
                                        needed);
        });
    }

    /* The URL of a pattern with these groups; with the status `refused`, why there is none. */
    result<std::string> link(std::size_t index, const std::vector<group> &groups) {
        auto [text, given] = details::joined(groups);
        return details::written([&, &text = text, &given = given](char *buffer, std::size_t room,
                                                                  std::size_t *needed) {
            return urlpattern_link(&handle_, index, text.data(), text.size(), given.data(),
                                   given.size(), buffer, room, needed);
        });
    }

    /* The text of a component with these groups; with the status `refused`, why there is none. */
    result<std::string> generate(std::size_t index, component of,
                                 const std::vector<group> &groups) {
        auto [text, given] = details::joined(groups);
        return details::written([&, &text = text, &given = given](char *buffer, std::size_t room,
                                                                  std::size_t *needed) {
            return urlpattern_generate(&handle_, index, details::to_number(of), text.data(),
                                       text.size(), given.data(), given.size(), buffer, room,
                                       needed);
        });
    }

    /* The pattern as one text, a constructor string; with the status `no_match` there is none. */
    result<std::string> text(std::size_t index) {
        return details::written([&](char *buffer, std::size_t room, std::size_t *needed) {
            return urlpattern_text(&handle_, index, buffer, room, needed);
        });
    }

    /* Whether a pattern is the same as one of another list or of this one. */
    status is_same(std::size_t index, list &others, std::size_t other) {
        return details::to_status(urlpattern_is_same(&handle_, index, &others.handle_, other));
    }

    status has_regexp_groups(std::size_t index) {
        return details::to_status(urlpattern_has_regexp_groups(&handle_, index));
    }

    status has_meaning(std::size_t index) {
        return details::to_status(urlpattern_has_meaning(&handle_, index));
    }

    /* Whether a pattern covers the asked one of another list or of this one, and the component to
     * which that is due. */
    std::pair<status, component> covers(std::size_t index, list &others, std::size_t asked) {
        urlpattern_component_number number = URLPATTERN_NO_COMPONENT;
        urlpattern_status status =
            urlpattern_covers(&handle_, index, &others.handle_, asked, &number);
        return {details::to_status(status), static_cast<component>(number)};
    }

    /* Why it is not known whether a pattern covers the asked one, if it is not: a number of
     * `urlpattern_covering_reason_number`. */
    result<std::uint32_t> covering_reason(std::size_t index, list &others, std::size_t asked) {
        std::uint32_t reason = 0;
        urlpattern_status status =
            urlpattern_covering_reason(&handle_, index, &others.handle_, asked, &reason);
        return {status, reason};
    }

    /* Texts that the asked pattern matches and the other one does not, as an init in JSON; with the
     * status `no_match` there are none. */
    result<std::string> counterexample(std::size_t index, list &others, std::size_t asked) {
        return details::written([&](char *buffer, std::size_t room, std::size_t *needed) {
            return urlpattern_counterexample(&handle_, index, &others.handle_, asked, buffer, room,
                                             needed);
        });
    }

    /* Texts that both patterns match, as an init in JSON; with the status `no_match` there are
     * none. */
    result<std::string> overlaps(std::size_t index, list &others, std::size_t other) {
        return details::written([&](char *buffer, std::size_t room, std::size_t *needed) {
            return urlpattern_overlaps(&handle_, index, &others.handle_, other, buffer, room,
                                       needed);
        });
    }

    /* Of each pattern, texts whose first match it is, or the earlier patterns that cover it, as
     * `urlpattern_reach_of_each` writes them in JSON. */
    result<std::string> reach_of_each() {
        return details::written([&](char *buffer, std::size_t room, std::size_t *needed) {
            return urlpattern_reach_of_each(&handle_, buffer, room, needed);
        });
    }

    /* Why `add` refuses these texts. */
    static result<refusal> diagnose(std::string_view pattern, std::string_view base = {},
                                    bool ignore_case = false) {
        urlpattern_place place{};
        auto found = details::written([&](char *buffer, std::size_t room, std::size_t *needed) {
            return urlpattern_diagnose(pattern.data(), pattern.size(), base.data(), base.size(),
                                       ignore_case, buffer, room, needed, &place);
        });
        return refused(found, place);
    }

    /* Why `add_init` refuses an init. */
    static result<refusal> diagnose_init(std::string_view json, bool ignore_case = false) {
        urlpattern_place place{};
        auto found = details::written([&](char *buffer, std::size_t room, std::size_t *needed) {
            return urlpattern_diagnose_init(json.data(), json.size(), ignore_case, buffer, room,
                                            needed, &place);
        });
        return refused(found, place);
    }

  private:
    static result<refusal> refused(const result<std::string> &found,
                                   const urlpattern_place &place) {
        refusal why;
        if (found) {
            why = {*found, place.subject, place.start, place.end};
        }
        return {static_cast<urlpattern_status>(found.code()), std::move(why)};
    }

    urlpattern_list handle_ = URLPATTERN_EMPTY;
};

} // namespace urlpattern

#include "urlpattern_policy.hpp"
#include "urlpattern_router.hpp"
#include "urlpattern_static_routes.hpp"

#endif
