/* Makes each call of the library once, and compares what it reports. `.ci/bindings` runs it with each request for memory refused in
 * turn: it then ends with URLPATTERN_OUT_OF_MEMORY, unless it gets on without the memory. It ends with WRONG if a call reports another
 * status, or if a handle has other patterns than those that were appended. */
#include "urlpattern.h"

#include <string.h>

enum { ROOM = 4096, SPANS = 32, RIGHT = 0, WRONG = 99 };

static char text[ROOM];
static urlpattern_list patterns = URLPATTERN_EMPTY, others = URLPATTERN_EMPTY;
static urlpattern_router router = URLPATTERN_EMPTY, other_router = URLPATTERN_EMPTY;
static urlpattern_policy policy = URLPATTERN_EMPTY, other_policy = URLPATTERN_EMPTY;
static urlpattern_static_routes static_routes = URLPATTERN_EMPTY;
static size_t appended, inserted;
static int outcome = RIGHT;

/* Whether a call reports what it should, or a value is the wanted one. Otherwise memory ran out, or something is wrong. */
static bool is(uint32_t status, uint32_t wanted) {
    if (status != wanted) {
        outcome = status == URLPATTERN_OUT_OF_MEMORY ? URLPATTERN_OUT_OF_MEMORY : WRONG;
    }
    return status == wanted;
}

/* Whether a call appends a pattern, as `is` says. */
static bool is_appended(uint32_t status) {
    appended += status == URLPATTERN_DONE;
    return is(status, URLPATTERN_DONE);
}

/* Whether a call appends a route, as `is` says. */
static bool is_inserted(uint32_t status) {
    inserted += status == URLPATTERN_DONE;
    return is(status, URLPATTERN_DONE);
}

static bool are_appended(void) {
    static const char pattern[] = "https://example.com/:a/(b|c)", path[] = ":x/*", base[] = "https://example.com";
    static const char init[] = "{\"protocol\":\"https\",\"pathname\":\"/:x\"}", by_path[] = "{\"pathname\":\"/:x/(\\\\bb|c)\"}";
    return is_appended(urlpattern_add(&patterns, pattern, sizeof pattern - 1, "", 0, false))
        && is_appended(urlpattern_add(&patterns, path, sizeof path - 1, base, sizeof base - 1, true))
        && is_appended(urlpattern_add_init(&patterns, init, sizeof init - 1, false))
        && is_appended(urlpattern_add_init(&patterns, by_path, sizeof by_path - 1, false))
        && is(urlpattern_add(&others, pattern, sizeof pattern - 1, "", 0, false), URLPATTERN_DONE);
}

static bool are_matched(void) {
    static const char url[] = "https://example.com/x/b", path[] = "/x/b", base[] = "https://example.com";
    static const urlpattern_parts parts = { { 0, 5 }, { 0, 0 }, { 0, 0 }, { 8, 11 }, { 0, 0 }, { 19, 4 }, { 0, 0 }, { 0, 0 } };
    static urlpattern_span spans[SPANS];
    const size_t length = sizeof url - 1, path_length = sizeof path - 1, base_length = sizeof base - 1;
    urlpattern_sizes sizes;
    size_t index = 0, needed = 0;
    urlpattern_component_number component = URLPATTERN_PROTOCOL;
    return is(urlpattern_test(&patterns, 0, url, length, "", 0), URLPATTERN_DONE)
        && is(urlpattern_test(&patterns, 0, path, path_length, base, base_length), URLPATTERN_DONE)
        && is(urlpattern_first(&patterns, url, length, "", 0, &index), URLPATTERN_DONE)
        && is(urlpattern_mismatch(&patterns, 2, url, length, "", 0, &component), URLPATTERN_NO_MATCH)
        && is(component, URLPATTERN_PATHNAME)
        && is(urlpattern_exec(&patterns, 0, url, length, "", 0, text, ROOM, &needed), URLPATTERN_DONE)
        && is(urlpattern_captures(&patterns, 0, url, length, "", 0, text, ROOM, spans, SPANS, &sizes), URLPATTERN_DONE)
        && is(urlpattern_first_captures(&patterns, url, length, "", 0, &index, text, ROOM, spans, SPANS, &sizes), URLPATTERN_DONE)
        && is(urlpattern_captures_of_path(&patterns, 3, path, path_length, text, ROOM, spans, SPANS, &sizes), URLPATTERN_DONE)
        && is(urlpattern_captures_of_texts(&patterns, 0, url, length, &parts, text, ROOM, spans, SPANS, &sizes), URLPATTERN_DONE)
        && is(urlpattern_first_captures_of_texts(&patterns, url, length, &parts, &index, text, ROOM, spans, SPANS, &sizes), URLPATTERN_DONE)
        && is(urlpattern_first_captures_of_path(&patterns, path, path_length, &index, text, ROOM, spans, SPANS, &sizes), URLPATTERN_DONE);
}

static bool are_inits_matched(void) {
    static const char init[] = "{\"pathname\":\"/x/b\",\"baseURL\":\"https://example.com\"}";
    static urlpattern_span spans[SPANS];
    const size_t length = sizeof init - 1;
    urlpattern_sizes sizes;
    size_t index = 0, needed = 0;
    return is(urlpattern_captures_of_init(&patterns, 0, init, length, text, ROOM, spans, SPANS, &sizes), URLPATTERN_DONE)
        && is(urlpattern_first_captures_of_init(&patterns, init, length, &index, text, ROOM, spans, SPANS, &sizes), URLPATTERN_DONE)
        && is(urlpattern_exec_of_init(&patterns, 0, init, length, text, ROOM, &needed), URLPATTERN_DONE);
}

static bool are_linked(void) {
    static const char groups[] = "a\xc3\xa9" "0b";
    static const urlpattern_given given[] = { { URLPATTERN_PATHNAME, 0, 1, 1, 2 }, { URLPATTERN_PATHNAME, 3, 1, 4, 1 } };
    size_t needed = 0;
    return is(urlpattern_link(&patterns, 0, groups, sizeof groups - 1, given, 2, text, ROOM, &needed), URLPATTERN_DONE)
        && is(urlpattern_link(&patterns, 0, groups, sizeof groups - 1, given, 1, text, ROOM, &needed), URLPATTERN_REFUSED)
        && is(urlpattern_generate(&patterns, 0, URLPATTERN_PATHNAME, groups, sizeof groups - 1, given, 2, text, ROOM, &needed), URLPATTERN_DONE)
        && is(urlpattern_generate(&patterns, 0, URLPATTERN_PATHNAME, groups, sizeof groups - 1, given, 1, text, ROOM, &needed), URLPATTERN_REFUSED)
        && is(urlpattern_group_name(&patterns, 0, URLPATTERN_PATHNAME, 0, text, ROOM, &needed), URLPATTERN_DONE)
        && is(urlpattern_component(&patterns, 0, URLPATTERN_PATHNAME, text, ROOM, &needed), URLPATTERN_DONE)
        && is(urlpattern_has_regexp_groups(&patterns, 0), URLPATTERN_DONE)
        && is(urlpattern_has_meaning(&patterns, 0), URLPATTERN_DONE)
        && is(urlpattern_has_meaning(&patterns, 1), URLPATTERN_DONE);
}

static bool are_compared(void) {
    urlpattern_component_number component = URLPATTERN_PROTOCOL;
    uint32_t reason = 0;
    size_t needed = 0;
    return is(urlpattern_text(&patterns, 0, text, ROOM, &needed), URLPATTERN_DONE)
        && is(urlpattern_text(&patterns, 3, text, ROOM, &needed), URLPATTERN_DONE)
        && is(urlpattern_is_same(&patterns, 0, &others, 0), URLPATTERN_DONE)
        && is(urlpattern_is_same(&patterns, 0, &patterns, 1), URLPATTERN_NO_MATCH)
        && is(urlpattern_covers(&patterns, 0, &patterns, 2, &component), URLPATTERN_NO_MATCH)
        && is(urlpattern_covers(&patterns, 1, &others, 0, &component), URLPATTERN_DONE)
        && is(urlpattern_covers(&patterns, 3, &others, 0, &component), URLPATTERN_UNKNOWN)
        && is(urlpattern_covers(&patterns, 0, &others, 0, &component), URLPATTERN_DONE)
        && is(urlpattern_covering_reason(&patterns, 0, &others, 0, &reason), URLPATTERN_NO_MATCH)
        && is(urlpattern_covering_reason(&patterns, 3, &others, 0, &reason), URLPATTERN_DONE)
        && is(reason, URLPATTERN_CUSTOM_EXPRESSION)
        && is(urlpattern_covering_reason(&patterns, 3, &patterns, 0, &reason), URLPATTERN_DONE)
        && is(urlpattern_counterexample(&patterns, 0, &patterns, 2, text, ROOM, &needed), URLPATTERN_DONE)
        && is(urlpattern_counterexample(&patterns, 0, &others, 0, text, ROOM, &needed), URLPATTERN_NO_MATCH)
        && is(urlpattern_overlaps(&patterns, 0, &others, 0, text, ROOM, &needed), URLPATTERN_DONE)
        && is(urlpattern_overlaps(&patterns, 3, &patterns, 0, text, ROOM, &needed), URLPATTERN_UNKNOWN)
        && is(urlpattern_reach_of_each(&patterns, text, ROOM, &needed), URLPATTERN_DONE);
}

static bool are_diagnosed(void) {
    static const char pattern[] = "https://example.com/{a", init[] = "{\"pathname\":\"/(\"}";
    urlpattern_place place;
    size_t needed = 0;
    return is(urlpattern_diagnose(pattern, sizeof pattern - 1, "", 0, false, text, ROOM, &needed, &place), URLPATTERN_DONE)
        && is(urlpattern_diagnose_init(init, sizeof init - 1, false, text, ROOM, &needed, &place), URLPATTERN_DONE);
}

/* Whether another handle has the patterns until it is freed. */
static bool are_shared(void) {
    static const char url[] = "https://example.com/x/b";
    const size_t length = sizeof url - 1;
    bool is_shared = is(urlpattern_share(&patterns, &others), URLPATTERN_DONE)
        && is(urlpattern_test(&others, 0, url, length, "", 0), URLPATTERN_DONE)
        && is(urlpattern_add(&patterns, url, length, "", 0, false), URLPATTERN_SHARED);
    urlpattern_free(&others);
    return is_shared && is_appended(urlpattern_add(&patterns, url, length, "", 0, false));
}

static bool are_inserted(void) {
    static const char pattern[] = "https://example.com/:a/(b|c)", init[] = "{\"pathname\":\"/:x/(b|c)\"}";
    return is_inserted(urlpattern_router_insert(&router, "page", 4, "GET", 3, pattern, sizeof pattern - 1, "", 0, false))
        && is_inserted(urlpattern_router_insert_init(&router, "", 0, "POST", 4, init, sizeof init - 1, false))
        && is_inserted(urlpattern_router_insert_init(&router, "", 0, "PUT", 3, init, sizeof init - 1, true));
}

/* Whether a handle without routes reports that none matches or has a name, and a second route of one name is not added. */
static bool are_none_routed(void) {
    static const char url[] = "https://example.com/x/b", init[] = "{\"pathname\":\"/:x\"}", groups[] = "ax";
    static const urlpattern_given given[] = { { URLPATTERN_PATHNAME, 0, 1, 1, 1 } };
    static urlpattern_span spans[SPANS];
    const size_t length = sizeof url - 1;
    urlpattern_sizes sizes;
    size_t index = 0, needed = 0;
    return is(urlpattern_router_at_url(&other_router, "GET", 3, url, length, "", 0, &index, text, ROOM, spans, SPANS, &sizes), URLPATTERN_NO_MATCH)
        && is(urlpattern_router_allowed_at_url(&other_router, "GET", 3, url, length, "", 0, text, ROOM, &needed), URLPATTERN_NO_MATCH)
        && is(urlpattern_router_link(&other_router, "page", 4, groups, 2, given, 1, text, ROOM, &needed), URLPATTERN_NO_MATCH)
        && is(urlpattern_router_insert_init(&router, "page", 4, "PUT", 3, init, sizeof init - 1, false), URLPATTERN_NAME_TAKEN)
        && is(urlpattern_router_insert_init(&router, "", 0, "a b", 3, init, sizeof init - 1, false), URLPATTERN_NOT_A_METHOD);
}

static bool are_routed(void) {
    static const char url[] = "https://example.com/x/b", path[] = "/x/b", groups[] = "ax0b";
    static const urlpattern_given given[] = { { URLPATTERN_PATHNAME, 0, 1, 1, 1 }, { URLPATTERN_PATHNAME, 2, 1, 3, 1 } };
    static urlpattern_span spans[SPANS];
    const size_t length = sizeof url - 1, path_length = sizeof path - 1;
    urlpattern_sizes sizes;
    size_t index = 0, needed = 0;
    return is(urlpattern_router_at(&router, "POST", 4, path, path_length, &index, text, ROOM, spans, SPANS, &sizes), URLPATTERN_DONE)
        && is(urlpattern_router_at_url(&router, "GET", 3, url, length, "", 0, &index, text, ROOM, spans, SPANS, &sizes), URLPATTERN_DONE)
        && is(urlpattern_router_at(&router, "GET", 3, path, path_length, &index, text, ROOM, spans, SPANS, &sizes), URLPATTERN_NOT_ALLOWED)
        && is(urlpattern_router_allowed(&router, "GET", 3, path, path_length, text, ROOM, &needed), URLPATTERN_DONE)
        && is(needed, sizeof "POST, PUT" - 1)
        && is(urlpattern_router_allowed_at_url(&router, "HEAD", 4, url, length, "", 0, text, ROOM, &needed), URLPATTERN_NO_MATCH)
        && is(urlpattern_router_link(&router, "page", 4, groups, sizeof groups - 1, given, 2, text, ROOM, &needed), URLPATTERN_DONE)
        && is(urlpattern_router_link(&router, "page", 4, groups, sizeof groups - 1, given, 1, text, ROOM, &needed), URLPATTERN_REFUSED)
        && is(urlpattern_router_group_name(&router, 0, URLPATTERN_PATHNAME, 0, text, ROOM, &needed), URLPATTERN_DONE)
        && is(urlpattern_router_share(&router, &other_router), URLPATTERN_DONE)
        && is(urlpattern_router_insert(&router, "", 0, "", 0, url, length, "", 0, false), URLPATTERN_SHARED);
}

/* Whether the policy decides as its rules say. What it has no memory for it denies. */
static bool are_decided(void) {
    static const char pattern[] = "https://example.com/:a/(b|c)", init[] = "{\"pathname\":\"/x/*\"}", url[] = "https://example.com/x/%62";
    size_t rule = 0;
    return is(urlpattern_policy_add(&policy, false, pattern, sizeof pattern - 1, "", 0, false), URLPATTERN_DONE)
        && is(urlpattern_policy_add_init(&policy, true, init, sizeof init - 1, false), URLPATTERN_DONE)
        && is(urlpattern_policy_set_options(&policy, false, true, true), URLPATTERN_DONE)
        && is(urlpattern_policy_decide(&policy, url, sizeof url - 1, "", 0, &rule), URLPATTERN_DENY)
        && is(urlpattern_policy_decide(&policy, url, sizeof url - 4, "", 0, &rule), URLPATTERN_ALLOW)
        && is(urlpattern_policy_share(&policy, &other_policy), URLPATTERN_DONE)
        && is(urlpattern_policy_set_options(&policy, true, true, true), URLPATTERN_SHARED);
}

/* Whether static routes are read, or have their fault, and decide as they say. */
static bool are_static_routes_read(void) {
    static const char script[] = "https://example.com/sw.js", url[] = "https://example.com/x/a", faulty[] = "{\"condition\":{\"urlPattern\":\"/(\"}}";
    static const char json[] = "[{\"condition\":{\"urlPattern\":{\"pathname\":\"/x/:a\"},\"requestMethod\":\"post\"},\"source\":{\"cacheName\":\"v1\"}}]";
    urlpattern_route_fault fault;
    uint32_t source = 0;
    size_t rule = 9, needed = 0;
    return is(urlpattern_static_routes_read(&static_routes, script, sizeof script - 1, faulty, sizeof faulty - 1, true), URLPATTERN_REFUSED)
        && is(urlpattern_static_routes_fault(&static_routes, 1, text, ROOM, &needed, &fault), URLPATTERN_DONE)
        && is(fault.reason, URLPATTERN_FAULT_REJECTED)
        && is(urlpattern_static_routes_text_at_fault(&static_routes, 1, text, ROOM, &needed), URLPATTERN_DONE)
        && is(urlpattern_static_routes_read(&static_routes, script, sizeof script - 1, json, sizeof json - 1, true), URLPATTERN_DONE)
        && is(urlpattern_static_routes_decide(&static_routes, url, sizeof url - 1, "post", 4, "cors", 4, "", 0, true, &rule), URLPATTERN_DONE)
        && is((uint32_t)rule, 0)
        && is(urlpattern_static_routes_source(&static_routes, rule, &source, text, ROOM, &needed), URLPATTERN_DONE)
        && is(source, URLPATTERN_SOURCE_NAMED_CACHE);
}

/* How many routes the handle has. Needs no memory. */
static size_t count_routes(void) {
    size_t index = 0, needed = 0;
    while (urlpattern_router_group_name(&router, index, URLPATTERN_PATHNAME, 0, text, ROOM, &needed) == URLPATTERN_DONE) {
        index++;
    }
    return index;
}

/* How many patterns the handle has. Needs no memory. */
static size_t count(void) {
    size_t index = 0, needed = 0;
    while (urlpattern_component(&patterns, index, URLPATTERN_PATHNAME, text, ROOM, &needed) == URLPATTERN_DONE) {
        index++;
    }
    return index;
}

int main(void) {
    (void)(is(urlpattern_version(), URLPATTERN_VERSION)
           && are_appended() && are_matched() && are_inits_matched() && are_linked() && are_compared() && are_diagnosed() && are_shared()
           && are_inserted() && are_none_routed() && are_routed() && are_decided() && are_static_routes_read());
    if (count() != appended || count_routes() != inserted) {
        outcome = WRONG;
    }
    urlpattern_free(&patterns);
    urlpattern_free(&others);
    urlpattern_router_free(&router);
    urlpattern_router_free(&other_router);
    urlpattern_policy_free(&policy);
    urlpattern_policy_free(&other_policy);
    urlpattern_static_routes_free(&static_routes);
    return outcome;
}
