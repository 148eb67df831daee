/* Included by `urlpattern.hpp`: routers, in C++17.
 *
 *     urlpattern::router routes;
 *     if (routes.insert_init("GET", R"({"pathname":"/users/:id"})") != urlpattern::status::done) {
 *         return 1;
 *     }
 *     if (auto match = routes.at("GET", "/users/7")) {
 *         auto id = routes.captured(*match, urlpattern::component::pathname, "id"); // "7"
 *     }
 */
#include "urlpattern.hpp"

#ifndef URLPATTERN_ROUTER_HPP
#define URLPATTERN_ROUTER_HPP

#include "urlpattern_values.hpp"

namespace urlpattern {

/* Routes in their order, each with a pattern and the method that it serves, which this object
 * frees. What threads may do with it is as of a list. */
class router {
  public:
    router() = default;
    router(router &&other) noexcept : handle_(std::exchange(other.handle_, urlpattern_router{})) {}
    router &operator=(router &&other) noexcept {
        std::swap(handle_, other.handle_);
        return *this;
    }
    router(const router &) = delete;
    router &operator=(const router &) = delete;
    ~router() { urlpattern_router_free(&handle_); }

    /* Appends a route for a method, or for every method if that is empty, with a name unless that
     * is empty. With the status `name_taken` another route has the name; with `not_a_method` the
     * method is no token, or empty where there is a name. */
    status insert(std::string_view method, std::string_view pattern, std::string_view base = {},
                  std::string_view name = {}, bool ignore_case = false) {
        return details::to_status(urlpattern_router_insert(
            &handle_, name.data(), name.size(), method.data(), method.size(), pattern.data(),
            pattern.size(), base.data(), base.size(), ignore_case));
    }

    /* Appends a route whose pattern is an init, an object of JSON. */
    status insert_init(std::string_view method, std::string_view json, std::string_view name = {},
                       bool ignore_case = false) {
        return details::to_status(urlpattern_router_insert_init(
            &handle_, name.data(), name.size(), method.data(), method.size(), json.data(),
            json.size(), ignore_case));
    }

    /* Another router of the same routes, for another thread; nothing if memory ran out. Without
     * routes nothing is shared. */
    std::optional<router> share() {
        std::optional<router> other(std::in_place);
        if (urlpattern_router_share(&handle_, &other->handle_) != URLPATTERN_DONE) {
            other.reset();
        }
        return other;
    }

    /* The route that serves a request for a path: its index, and its match. With the status
     * `no_match` no route matches, as for 404; with `not_allowed` some do, but none serves the
     * method, as for 405. */
    result<match> at(std::string_view method, std::string_view path) {
        return details::matched(0, [&](match &found, urlpattern_sizes *sizes) {
            return urlpattern_router_at(&handle_, method.data(), method.size(), path.data(),
                                        path.size(), &found.index, found.text.data(),
                                        found.text.size(), found.spans.data(), found.spans.size(),
                                        sizes);
        });
    }

    /* The route that serves a request for a URL. */
    result<match> at_url(std::string_view method, std::string_view url,
                         std::string_view base = {}) {
        return details::matched(0, [&](match &found, urlpattern_sizes *sizes) {
            return urlpattern_router_at_url(&handle_, method.data(), method.size(), url.data(),
                                            url.size(), base.data(), base.size(), &found.index,
                                            found.text.data(), found.text.size(),
                                            found.spans.data(), found.spans.size(), sizes);
        });
    }

    /* The methods of the routes that match a path, for the header `Allow`, where `at` reports
     * `not_allowed`. */
    result<std::string> allowed(std::string_view method, std::string_view path) {
        return details::written([&](char *buffer, std::size_t room, std::size_t *needed) {
            return urlpattern_router_allowed(&handle_, method.data(), method.size(), path.data(),
                                             path.size(), buffer, room, needed);
        });
    }

    /* The methods of the routes that match a URL, where `at_url` reports `not_allowed`. */
    result<std::string> allowed_at_url(std::string_view method, std::string_view url,
                                       std::string_view base = {}) {
        return details::written([&](char *buffer, std::size_t room, std::size_t *needed) {
            return urlpattern_router_allowed_at_url(&handle_, method.data(), method.size(),
                                                    url.data(), url.size(), base.data(),
                                                    base.size(), buffer, room, needed);
        });
    }

    /* The URL of the route with this name, with these groups percent-encoded; with the status
     * `no_match` no route has the name, and with `refused` the text says why there is none. */
    result<std::string> link(std::string_view name, const std::vector<group> &groups) {
        auto [text, given] = details::joined(groups);
        return details::written([&, &text = text, &given = given](
                                    char *buffer, std::size_t room, std::size_t *needed) {
            return urlpattern_router_link(&handle_, name.data(), name.size(), text.data(),
                                          text.size(), given.data(), given.size(), buffer, room,
                                          needed);
        });
    }

    result<std::string> group_name(std::size_t index, component of, std::size_t number) {
        return details::written([&](char *buffer, std::size_t room, std::size_t *needed) {
            return urlpattern_router_group_name(&handle_, index, details::to_number(of), number,
                                                buffer, room, needed);
        });
    }

    /* What the group of this name captured in a match of this router; nothing if it took no part,
     * or the route has no such group. The view is of the match, which is therefore no temporary
     * one. */
    std::optional<std::string_view> captured(const match &found, component of,
                                             std::string_view name) {
        for (const urlpattern_span &span : found.spans) {
            if (span.component == static_cast<urlpattern_component_number>(of)
                && *group_name(found.index, of, span.group) == name) {
                return found(of, span.group);
            }
        }
        return std::nullopt;
    }
    std::optional<std::string_view> captured(const match &&found, component of,
                                             std::string_view name) = delete;

  private:
    urlpattern_router handle_ = URLPATTERN_EMPTY;
};

} // namespace urlpattern

#endif
