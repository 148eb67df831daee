/* Included by `urlpattern.hpp`: static routes of service workers, in C++17.
 *
 *     urlpattern::static_routes routes;
 *     if (routes.read("https://example.com/sw.js", json) != urlpattern::status::done) {
 *         for (const urlpattern::route_fault &fault : routes.faults()) { .. }
 *     }
 *     auto [status, rule] = routes.decide({"https://example.com/img/a.png"});
 */
#include "urlpattern.hpp"

#ifndef URLPATTERN_STATIC_ROUTES_HPP
#define URLPATTERN_STATIC_ROUTES_HPP

#include "urlpattern_values.hpp"

namespace urlpattern {

/* A fault of rules, with the words that say why, and the text at fault of a pattern that is
 * rejected. */
struct route_fault {
    urlpattern_route_fault place;
    std::string reason;
    std::optional<std::string> text;
};

/* A request that a service worker gets. */
struct route_request {
    std::string_view url;
    std::string_view method = "GET";
    std::string_view mode = "cors";
    std::string_view destination = {};
    bool is_running = true;
};

/* The static routes of a service worker, or their faults, which this object frees. What threads may
 * do with it is as of a list. */
class static_routes {
  public:
    static_routes() = default;
    static_routes(static_routes &&other) noexcept
        : handle_(std::exchange(other.handle_, urlpattern_static_routes{})) {}
    static_routes &operator=(static_routes &&other) noexcept {
        std::swap(handle_, other.handle_);
        return *this;
    }
    static_routes(const static_routes &) = delete;
    static_routes &operator=(const static_routes &) = delete;
    ~static_routes() { urlpattern_static_routes_free(&handle_); }

    /* Reads rules in place of what is there, as `urlpattern_static_routes_read` does. */
    status read(std::string_view script, std::string_view json, bool has_handler = true) {
        return details::to_status(urlpattern_static_routes_read(
            &handle_, script.data(), script.size(), json.data(), json.size(), has_handler));
    }

    /* The faults of the rules, if these are rejected. */
    [[nodiscard]] std::vector<route_fault> faults() {
        std::vector<route_fault> found;
        for (route_fault fault; is_written(found.size(), fault);) {
            found.push_back(std::move(fault));
            fault = route_fault{};
        }
        return found;
    }

    /* The index of the rule that decides about a request, if the status is `done`. */
    [[nodiscard]] std::pair<status, std::size_t> decide(const route_request &of) {
        std::size_t rule = 0;
        urlpattern_status found = urlpattern_static_routes_decide(
            &handle_, of.url.data(), of.url.size(), of.method.data(), of.method.size(),
            of.mode.data(), of.mode.size(), of.destination.data(), of.destination.size(),
            of.is_running, &rule);
        return {details::to_status(found), rule};
    }

    /* The source of a rule, and its name in JSON or that of its cache; nothing if there is no such
     * rule. */
    [[nodiscard]] std::optional<std::pair<urlpattern_route_source, std::string>> source(
        std::size_t rule) {
        std::uint32_t number = 0;
        auto name = text_of([&](char *buffer, std::size_t size, std::size_t *needed) {
            return urlpattern_static_routes_source(&handle_, rule, &number, buffer, size, needed);
        });
        if (!name) {
            return std::nullopt;
        }
        return std::pair(static_cast<urlpattern_route_source>(number), std::move(*name));
    }

  private:
    /* What a call writes, with as much room as it needs. */
    template <typename Call> std::optional<std::string> text_of(Call call) {
        std::string text;
        std::size_t needed = 0;
        urlpattern_status found = call(text.data(), 0, &needed);
        if (found == URLPATTERN_TOO_SMALL) {
            text.resize(needed);
            found = call(text.data(), text.size(), &needed);
        }
        return found == URLPATTERN_DONE ? std::optional(std::move(text)) : std::nullopt;
    }

    bool is_written(std::size_t index, route_fault &fault) {
        auto reason = text_of([&](char *buffer, std::size_t size, std::size_t *needed) {
            return urlpattern_static_routes_fault(&handle_, index, buffer, size, needed,
                                                  &fault.place);
        });
        fault.text = text_of([&](char *buffer, std::size_t size, std::size_t *needed) {
            return urlpattern_static_routes_text_at_fault(&handle_, index, buffer, size, needed);
        });
        if (reason) {
            fault.reason = std::move(*reason);
        }
        return reason.has_value();
    }

    urlpattern_static_routes handle_ = URLPATTERN_EMPTY;
};

} // namespace urlpattern

#endif
