/* Included by `urlpattern.hpp`: policies, in C++17.
 *
 *     urlpattern::policy policy;
 *     if (policy.allow("https://example.com/docs/:page") != urlpattern::status::done) {
 *         return 1;
 *     }
 *     bool is_allowed = policy.allows("https://example.com/docs/index.html"); // true
 */
#include "urlpattern.hpp"

#ifndef URLPATTERN_POLICY_HPP
#define URLPATTERN_POLICY_HPP

#include "urlpattern_values.hpp"

namespace urlpattern {

/* What a policy decides. `allow` alone allows; the one of zeros denies. */
enum class [[nodiscard]] decision : std::uint32_t {
    deny = URLPATTERN_DENY,
    allow = URLPATTERN_ALLOW,
    deny_no_url = URLPATTERN_DENY_NO_URL,
    deny_too_long = URLPATTERN_DENY_TOO_LONG,
    deny_not_utf8 = URLPATTERN_DENY_NOT_UTF8,
    deny_out_of_memory = URLPATTERN_DENY_OUT_OF_MEMORY,
    deny_credentials = URLPATTERN_DENY_CREDENTIALS
};

/* Rules in their order, each of which allows or denies the URLs that its pattern matches, which
 * this object frees. What threads may do with it is as of a list. */
class policy {
  public:
    policy() = default;
    policy(policy &&other) noexcept : handle_(std::exchange(other.handle_, urlpattern_policy{})) {}
    policy &operator=(policy &&other) noexcept {
        std::swap(handle_, other.handle_);
        return *this;
    }
    policy(const policy &) = delete;
    policy &operator=(const policy &) = delete;
    ~policy() { urlpattern_policy_free(&handle_); }

    status allow(std::string_view pattern, std::string_view base = {}, bool ignore_case = false) {
        return add(true, pattern, base, ignore_case);
    }

    status deny(std::string_view pattern, std::string_view base = {}, bool ignore_case = false) {
        return add(false, pattern, base, ignore_case);
    }

    status allow_init(std::string_view json, bool ignore_case = false) {
        return add_init(true, json, ignore_case);
    }

    status deny_init(std::string_view json, bool ignore_case = false) {
        return add_init(false, json, ignore_case);
    }

    /* Sets what is decided apart from the rules, as `urlpattern_policy_set_options` does. */
    status set_options(bool default_allows, bool plain_spelling, bool denies_credentials) {
        return details::to_status(urlpattern_policy_set_options(
            &handle_, default_allows, plain_spelling, denies_credentials));
    }

    /* Another policy of the same rules, for another thread; nothing if memory ran out. Without
     * rules only options are copied, and each may be added to. */
    std::optional<policy> share() {
        std::optional<policy> other(std::in_place);
        if (urlpattern_policy_share(&handle_, &other->handle_) != URLPATTERN_DONE) {
            other.reset();
        }
        return other;
    }

    /* What is decided about a URL, and the index of the rule that decides, if one does. */
    [[nodiscard]] std::pair<decision, std::optional<std::size_t>> decide(
        std::string_view url, std::string_view base = {}) {
        std::size_t rule = URLPATTERN_NO_RULE;
        urlpattern_decision found = urlpattern_policy_decide(
            &handle_, url.data(), url.size(), base.data(), base.size(), &rule);
        std::optional<std::size_t> index;
        if (rule != URLPATTERN_NO_RULE) {
            index = rule;
        }
        return {static_cast<decision>(found), index};
    }

    /* Whether a URL is allowed. */
    [[nodiscard]] bool allows(std::string_view url, std::string_view base = {}) {
        return decide(url, base).first == decision::allow;
    }

  private:
    status add(bool allows, std::string_view pattern, std::string_view base, bool ignore_case) {
        return details::to_status(urlpattern_policy_add(&handle_, allows, pattern.data(),
                                                        pattern.size(), base.data(), base.size(),
                                                        ignore_case));
    }

    status add_init(bool allows, std::string_view json, bool ignore_case) {
        return details::to_status(urlpattern_policy_add_init(&handle_, allows, json.data(),
                                                             json.size(), ignore_case));
    }

    urlpattern_policy handle_ = URLPATTERN_EMPTY;
};

} // namespace urlpattern

#endif
