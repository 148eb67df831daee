/* Asks what no row says: texts that are not UTF-8, null pointers, long texts, paths, inits, patterns that are the same, and handles that share
 * patterns. The last line counts the answers that are as they should be.
 */
#include "urlpattern.h"

#include <stdio.h>
#include <string.h>

enum { ROOM = 4096, SPANS = 32, NO_STATUS = 255 };

static char buffer[ROOM], group[ROOM];
static urlpattern_span spans[SPANS];
static urlpattern_list patterns = URLPATTERN_EMPTY, others = URLPATTERN_EMPTY;
static unsigned passed, failed;

static void compare(bool is_right, int line, uint32_t status) {
    if (is_right) {
        passed++;
    } else {
        failed++;
        printf("cases.c, line %d: another answer, with status %u\n", line, status);
    }
}

/* Whether each text that is not UTF-8 is reported, and first that there is no such pattern. */
static void ask_bytes(void) {
    static const char url[] = "https://example.com/a", bad[] = "\xc3";
    static const char bad_json[] = "{\"hash\":\"\xc3\"}";
    const size_t length = sizeof url - 1, json = sizeof bad_json - 1;
    size_t number = 0;
    urlpattern_component_number component = URLPATTERN_PROTOCOL;
    urlpattern_sizes sizes;
    urlpattern_place place;
    urlpattern_list none = URLPATTERN_EMPTY;
    uint32_t status = urlpattern_add(&patterns, url, length, "", 0, false);
    compare(status == URLPATTERN_DONE, __LINE__, status);
    uint32_t statuses[] = {
        urlpattern_add(&patterns, bad, 1, "", 0, false),
        urlpattern_add(&patterns, "/a", 2, bad, 1, false),
        urlpattern_add_init(&patterns, bad_json, json, false),
        urlpattern_test(&patterns, 0, bad, 1, "", 0),
        urlpattern_test(&patterns, 0, url, length, bad, 1),
        urlpattern_first(&patterns, bad, 1, "", 0, &number),
        urlpattern_mismatch(&patterns, 0, bad, 1, "", 0, &component),
        urlpattern_exec(&patterns, 0, bad, 1, "", 0, buffer, ROOM, &number),
        urlpattern_captures(&patterns, 0, bad, 1, "", 0, buffer, ROOM, spans, SPANS, &sizes),
        urlpattern_first_captures(&patterns, bad, 1, "", 0, &number, buffer, ROOM, spans, SPANS,
                                  &sizes),
        urlpattern_captures_of_path(&patterns, 0, bad, 1, buffer, ROOM, spans, SPANS, &sizes),
        urlpattern_first_captures_of_path(&patterns, bad, 1, &number, buffer, ROOM, spans, SPANS,
                                          &sizes),
        urlpattern_captures_of_init(&patterns, 0, bad_json, json, buffer, ROOM, spans, SPANS, &sizes),
        urlpattern_first_captures_of_init(&patterns, bad_json, json, &number, buffer, ROOM, spans,
                                          SPANS, &sizes),
        urlpattern_exec_of_init(&patterns, 0, bad_json, json, buffer, ROOM, &number),
        urlpattern_diagnose(bad, 1, "", 0, false, buffer, ROOM, &number, &place),
        urlpattern_diagnose("(", 1, bad, 1, false, buffer, ROOM, &number, &place),
        urlpattern_diagnose_init(bad_json, json, false, buffer, ROOM, &number, &place),
    };
    for (size_t at = 0; at < sizeof statuses / sizeof statuses[0]; at++) {
        compare(statuses[at] == URLPATTERN_NOT_UTF8, __LINE__, statuses[at]);
    }
    compare(component == URLPATTERN_NO_COMPONENT, __LINE__, URLPATTERN_NOT_UTF8);
    status = urlpattern_test(&patterns, 1, bad, 1, "", 0);
    compare(status == URLPATTERN_NO_PATTERN, __LINE__, status);
    status = urlpattern_first(&none, bad, 1, "", 0, &number);
    compare(status == URLPATTERN_NO_PATTERN, __LINE__, status);
}

static uint32_t link_with(const char *groups, size_t length, urlpattern_given part,
                          size_t *needed) {
    return urlpattern_link(&patterns, 0, groups, length, &part, 1, buffer, ROOM, needed);
}

/* Whether each part of the text of a link has to be UTF-8, and the text as a whole need not be. */
static void ask_parts(void) {
    static const char pattern[] = "https://example.com/:id", groups[] = "id\xc3\xa9\xff";
    static const urlpattern_given whole = { URLPATTERN_PATHNAME, 0, 2, 2, 2 };
    static const urlpattern_given cut = { URLPATTERN_PATHNAME, 0, 2, 2, 1 };
    static const urlpattern_given bad = { URLPATTERN_PATHNAME, 0, 2, 4, 1 };
    static const char url[] = "https://example.com/%C3%A9";
    size_t needed = 0, length = sizeof groups - 1;
    urlpattern_free(&patterns);
    uint32_t status = urlpattern_add(&patterns, pattern, sizeof pattern - 1, "", 0, false);
    compare(status == URLPATTERN_DONE, __LINE__, status);
    status = link_with(groups, length, whole, &needed);
    compare(status == URLPATTERN_DONE && needed == sizeof url - 1 && memcmp(buffer, url, needed) == 0, __LINE__, status);
    status = link_with(groups, length, cut, &needed);
    compare(status == URLPATTERN_NO_PATTERN, __LINE__, status);
    status = link_with(groups, length, bad, &needed);
    compare(status == URLPATTERN_NO_PATTERN, __LINE__, status);
    urlpattern_free(&patterns);
}

/* Whether null pointers are empty texts, buffers and arrays. */
static void ask_nulls(void) {
    static const char init[] = "{}", url[] = "https://example.com/";
    urlpattern_sizes sizes = { 9, 9 };
    size_t needed = 0;
    urlpattern_free(&patterns);
    uint32_t status = urlpattern_add(&patterns, NULL, 0, url, sizeof url - 1, false);
    compare(status == URLPATTERN_DONE, __LINE__, status);
    status = urlpattern_add_init(&patterns, init, sizeof init - 1, false);
    compare(status == URLPATTERN_DONE, __LINE__, status);
    status = urlpattern_test(&patterns, 0, url, sizeof url - 1, NULL, 0);
    compare(status == URLPATTERN_DONE, __LINE__, status);
    status = urlpattern_test(&patterns, 0, NULL, 0, NULL, 0);
    compare(status == URLPATTERN_NO_URL, __LINE__, status);
    status = urlpattern_captures(&patterns, 1, url, sizeof url - 1, NULL, 0, NULL, 0, NULL, 0, &sizes);
    compare(status == URLPATTERN_TOO_SMALL && sizes.bytes > 0 && sizes.spans == URLPATTERN_NO_COMPONENT, __LINE__, status);
    status = urlpattern_component(&patterns, 0, URLPATTERN_PROTOCOL, NULL, 0, &needed);
    compare(status == URLPATTERN_TOO_SMALL && needed == 5, __LINE__, status);
    status = urlpattern_text(&patterns, 0, NULL, 0, &needed);
    compare(status == URLPATTERN_TOO_SMALL && needed > 0, __LINE__, status);
    status = urlpattern_captures_of_init(&patterns, 1, init, sizeof init - 1, NULL, 0, NULL, 0, &sizes);
    compare(status == URLPATTERN_TOO_SMALL && sizes.bytes == 0 && sizes.spans == URLPATTERN_NO_COMPONENT, __LINE__, status);
    status = urlpattern_exec_of_init(&patterns, 1, NULL, 0, NULL, 0, &needed);
    compare(status == URLPATTERN_REFUSED, __LINE__, status);
    status = urlpattern_link(&patterns, 0, NULL, 0, NULL, 0, NULL, 0, &needed);
    compare(status == URLPATTERN_TOO_SMALL && needed == sizeof url - 1, __LINE__, status);
}

/* Whether texts of 16 MB are reported, and no shorter ones. */
static void ask_long_texts(void) {
    enum { LONG = 1 << 24 };
    static char url[LONG] = "https://example.com/";
    memset(url + 20, 'a', LONG - 20);
    uint32_t status = urlpattern_test(&patterns, 1, url, LONG, "", 0);
    compare(status == URLPATTERN_TOO_LONG, __LINE__, status);
    status = urlpattern_test(&patterns, 1, "/", 1, url, LONG);
    compare(status == URLPATTERN_TOO_LONG, __LINE__, status);
    status = urlpattern_test(&patterns, 1, url, LONG - 1, "", 0);
    compare(status == URLPATTERN_DONE, __LINE__, status);
}

/* What each call on an init reports, if that is the same; the index is that of the first match. */
static uint32_t init_status(size_t at, const char *json, size_t length, size_t *index) {
    urlpattern_sizes sizes;
    size_t needed = 0;
    uint32_t status = urlpattern_captures_of_init(&patterns, at, json, length, buffer, ROOM, spans, SPANS, &sizes);
    bool is_same = urlpattern_exec_of_init(&patterns, at, json, length, buffer, ROOM, &needed) == status;
    is_same &= urlpattern_first_captures_of_init(&patterns, json, length, index, buffer, ROOM, spans, SPANS, &sizes) == status;
    return is_same ? status : NO_STATUS;
}

/* Whether inits are matched with what they inherit, and what is none, or no URL, is reported. */
static void ask_inits(void) {
    enum { LONG = 1 << 24 };
    static const struct {
        const char *json;
        urlpattern_status wanted;
    } asked[] = {
        { "{\"pathname\":\"users/7\",\"baseURL\":\"https://example.com/x\"}", URLPATTERN_DONE },
        { "{\"protocol\":\"HTTPS\",\"hostname\":\"EXAMPLE.com\",\"pathname\":\"/a/../users/7\",\"port\":null,\"x\":1}", URLPATTERN_DONE },
        { "{\"pathname\":\"/users/7\"}", URLPATTERN_NO_MATCH },
        { "{}", URLPATTERN_NO_MATCH },
        { "{\"protocol\":\"no URL\"}", URLPATTERN_NO_URL },
        { "{\"baseURL\":\"no URL\"}", URLPATTERN_NO_URL },
        { "{\"pathname\":7}", URLPATTERN_REFUSED },
        { "[]", URLPATTERN_REFUSED },
        { "", URLPATTERN_REFUSED },
    };
    static const char pattern[] = "https://example.com/users/:id";
    static char json[LONG];
    urlpattern_list none = URLPATTERN_EMPTY;
    urlpattern_sizes sizes;
    size_t index = 9;
    urlpattern_free(&patterns);
    uint32_t status = urlpattern_add(&patterns, pattern, sizeof pattern - 1, "", 0, false);
    compare(status == URLPATTERN_DONE, __LINE__, status);
    for (size_t at = 0; at < sizeof asked / sizeof asked[0]; at++) {
        index = 9;
        status = init_status(0, asked[at].json, strlen(asked[at].json), &index);
        compare(status == (uint32_t)asked[at].wanted && index == (status == URLPATTERN_DONE ? 0 : 9), __LINE__, status);
    }
    memset(json, ' ', LONG);
    status = init_status(0, json, LONG, &index);
    compare(status == URLPATTERN_TOO_LONG, __LINE__, status);
    memcpy(json, "{}", 2);
    status = init_status(0, json, LONG - 1, &index);
    compare(status == URLPATTERN_NO_MATCH, __LINE__, status);
    status = urlpattern_captures_of_init(&patterns, 1, "", 0, buffer, ROOM, spans, SPANS, &sizes);
    compare(status == URLPATTERN_NO_PATTERN, __LINE__, status);
    status = urlpattern_exec_of_init(&patterns, 1, "", 0, buffer, ROOM, &index);
    compare(status == URLPATTERN_NO_PATTERN, __LINE__, status);
    status = urlpattern_first_captures_of_init(&none, "", 0, &index, buffer, ROOM, spans, SPANS, &sizes);
    compare(status == URLPATTERN_NO_PATTERN, __LINE__, status);
}

/* Whether patterns are the same that have the same parts, names and options, however they are written. */
static void ask_same(void) {
    static const char text[] = "https://example.com/users/:id", named[] = "https://example.com/users/:it", *const base = text;
    static const char init[] = "{\"protocol\":\"https\",\"hostname\":\"example.com\",\"port\":\"\",\"pathname\":\"/users{/:id}\"}";
    const size_t length = sizeof text - 1;
    urlpattern_list none = URLPATTERN_EMPTY;
    urlpattern_free(&patterns);
    urlpattern_free(&others);
    uint32_t added[] = {
        urlpattern_add(&patterns, text, length, "", 0, false),
        urlpattern_add_init(&patterns, init, sizeof init - 1, false),
        urlpattern_add(&patterns, "/users/:id", 10, base, 19, false),
        urlpattern_add(&patterns, named, sizeof named - 1, "", 0, false),
        urlpattern_add(&patterns, text, length, "", 0, true),
        urlpattern_add(&others, text, length, "", 0, false),
    };
    for (size_t at = 0; at < sizeof added / sizeof added[0]; at++) {
        compare(added[at] == URLPATTERN_DONE, __LINE__, added[at]);
    }
    for (size_t at = 0; at < 5; at++) {
        uint32_t wanted = at < 3 ? URLPATTERN_DONE : URLPATTERN_NO_MATCH;
        uint32_t status = urlpattern_is_same(&patterns, at, &others, 0);
        compare(status == wanted, __LINE__, status);
        status = urlpattern_is_same(&patterns, 0, &patterns, at);
        compare(status == wanted, __LINE__, status);
    }
    uint32_t missing[] = {
        urlpattern_is_same(&patterns, 5, &patterns, 0), urlpattern_is_same(&patterns, 0, &patterns, 5),
        urlpattern_is_same(&patterns, 5, &others, 0),   urlpattern_is_same(&patterns, 0, &others, 1),
        urlpattern_is_same(&none, 0, &others, 0),       urlpattern_is_same(&others, 0, &none, 0),
    };
    for (size_t at = 0; at < sizeof missing / sizeof missing[0]; at++) {
        compare(missing[at] == URLPATTERN_NO_PATTERN, __LINE__, missing[at]);
    }
    urlpattern_free(&patterns);
    urlpattern_free(&others);
}

/* Whether the first of two patterns is the first match of some texts, and covers the other. */
static void ask_reached(void) {
    static const char every[] = "https://example.com/*", one[] = "https://example.com/a";
    static const char end[] = ",[0]]";
    const size_t end_length = sizeof end - 1;
    urlpattern_list none = URLPATTERN_EMPTY;
    urlpattern_sizes sizes;
    size_t needed = 0, again = 0, index = 9;
    urlpattern_free(&patterns);
    uint32_t status = urlpattern_add(&patterns, every, sizeof every - 1, "", 0, false);
    compare(status == URLPATTERN_DONE, __LINE__, status);
    status = urlpattern_add(&patterns, one, sizeof one - 1, "", 0, false);
    compare(status == URLPATTERN_DONE, __LINE__, status);
    status = urlpattern_reach_of_each(&patterns, buffer, ROOM, &needed);
    bool is_right = status == URLPATTERN_DONE && needed > 1 + end_length && buffer[0] == '[';
    compare(is_right && memcmp(buffer + needed - end_length, end, end_length) == 0, __LINE__, status);
    size_t length = is_right ? needed - 1 - end_length : 0;
    status = urlpattern_first_captures_of_init(&patterns, buffer + 1, length, &index, group, ROOM, spans, SPANS, &sizes);
    compare(status == URLPATTERN_DONE && index == 0, __LINE__, status);
    status = urlpattern_reach_of_each(&patterns, NULL, 0, &again);
    compare(status == URLPATTERN_TOO_SMALL && again == needed, __LINE__, status);
    status = urlpattern_reach_of_each(&none, buffer, ROOM, &needed);
    compare(status == URLPATTERN_NO_PATTERN, __LINE__, status);
    urlpattern_free(&patterns);
}

/* Whether the first pattern of a handle captures `7` of a path. */
static uint32_t path_status(urlpattern_list *list, const char *path, size_t *index) {
    urlpattern_sizes sizes = { 0, 0 };
    uint32_t status = urlpattern_first_captures_of_path(list, path, strlen(path), index, buffer, ROOM, spans, SPANS, &sizes);
    if (status == URLPATTERN_DONE) {
        uint32_t again = urlpattern_captures_of_path(list, *index, path, strlen(path), group, ROOM, spans, SPANS, &sizes);
        bool is_same = again == status && sizes.bytes == 1 && sizes.spans == URLPATTERN_NO_COMPONENT && buffer[0] == group[0];
        return is_same && buffer[0] == '7' ? status : NO_STATUS;
    }
    return status;
}

/* Whether a path is matched by itself, whatever it looks like. */
static void ask_paths(void) {
    static const char host[] = "https://example.com/*", route[] = "{\"pathname\":\"/users/:id\"}";
    urlpattern_list none = URLPATTERN_EMPTY;
    size_t index = 9;
    urlpattern_free(&patterns);
    uint32_t status = urlpattern_add(&patterns, host, sizeof host - 1, "", 0, false);
    compare(status == URLPATTERN_DONE, __LINE__, status);
    status = urlpattern_add_init(&patterns, route, sizeof route - 1, false);
    compare(status == URLPATTERN_DONE, __LINE__, status);
    status = path_status(&patterns, "/users/7", &index);
    compare(status == URLPATTERN_DONE && index == 1, __LINE__, status);
    static const char *const others_than_paths[] = { "", "users/7", "https://example.com/users/7", "/users/7?a", "/users/7#a", "/users/7\n" };
    for (size_t at = 0; at < sizeof others_than_paths / sizeof others_than_paths[0]; at++) {
        status = path_status(&patterns, others_than_paths[at], &index);
        compare(status == URLPATTERN_NO_PATH, __LINE__, status);
    }
    static const char *const unmatched[] = { "//evil.example/users/7", "/users/7/", "\\evil.example/users/7" };
    for (size_t at = 0; at < 2; at++) {
        status = path_status(&patterns, unmatched[at], &index);
        compare(status == URLPATTERN_NO_MATCH, __LINE__, status);
    }
    status = path_status(&patterns, unmatched[2], &index);
    compare(status == URLPATTERN_NO_PATH, __LINE__, status);
    status = path_status(&none, "?", &index);
    compare(status == URLPATTERN_NO_PATTERN, __LINE__, status);
}

/* Whether a handle that another version made counts as empty, and is not freed. */
static void ask_other_version(void) {
    static const char url[] = "https://example.com/";
    urlpattern_list old = { 1, &old };
    uint32_t status = urlpattern_test(&old, 0, url, sizeof url - 1, "", 0);
    compare(status == URLPATTERN_NO_PATTERN, __LINE__, status);
    old = (urlpattern_list){ 1, &old };
    urlpattern_free(&old);
    compare(old.made_by == 0, __LINE__, old.made_by);
}

/* Whether eight texts are matched that are parts of one, and a part that is none is reported. */
static void ask_texts(void) {
    static const char url[] = "https://example.com/users/7\xc3\xa9", pattern[] = "https://example.com/users/:id";
    static const urlpattern_part none = { 0, 0 };
    urlpattern_parts parts = { { 0, 5 }, none, none, { 8, 11 }, none, { 19, 8 }, none, none };
    urlpattern_sizes sizes = { 0, 0 };
    size_t index = 9, length = sizeof url - 1;
    uint32_t status = urlpattern_add(&patterns, pattern, sizeof pattern - 1, "", 0, false);
    compare(status == URLPATTERN_DONE, __LINE__, status);
    status = urlpattern_first_captures_of_texts(&patterns, url, length, &parts, &index, buffer, ROOM, spans, SPANS, &sizes);
    compare(status == URLPATTERN_DONE && index == 0 && sizes.bytes == 7 && memcmp(buffer, "users/7", 7) == 0, __LINE__, status);
    status = urlpattern_captures_of_texts(&patterns, 2, url, length, &parts, buffer, ROOM, spans, SPANS, &sizes);
    compare(status == URLPATTERN_DONE && sizes.bytes == 1 && buffer[0] == '7', __LINE__, status);
    parts.protocol.length = 4;
    status = urlpattern_captures_of_texts(&patterns, 2, url, length, &parts, buffer, ROOM, spans, SPANS, &sizes);
    compare(status == URLPATTERN_NO_MATCH, __LINE__, status);
    parts.pathname.length = 9;
    status = urlpattern_captures_of_texts(&patterns, 2, url, length, &parts, buffer, ROOM, spans, SPANS, &sizes);
    compare(status == URLPATTERN_NOT_UTF8, __LINE__, status);
    parts.pathname.length = (size_t)-1;
    status = urlpattern_first_captures_of_texts(&patterns, url, length, &parts, &index, buffer, ROOM, spans, SPANS, &sizes);
    compare(status == URLPATTERN_NOT_UTF8 && index == 0, __LINE__, status);
    status = urlpattern_captures_of_texts(&patterns, 3, url, length, &parts, buffer, ROOM, spans, SPANS, &sizes);
    compare(status == URLPATTERN_NO_PATTERN, __LINE__, status);
}

/* Whether two handles share patterns, and each is freed by itself. */
static void ask_shared(void) {
    static const char pattern[] = "https://example.com/x";
    urlpattern_list none = URLPATTERN_EMPTY;
    size_t index = 9, length = sizeof pattern - 1;
    uint32_t status = urlpattern_add(&others, pattern, length, "", 0, false);
    compare(status == URLPATTERN_DONE, __LINE__, status);
    status = urlpattern_share(&patterns, &others);
    compare(status == URLPATTERN_DONE && others.at != patterns.at, __LINE__, status);
    status = path_status(&others, "/users/7", &index);
    compare(status == URLPATTERN_DONE && index == 1, __LINE__, status);
    status = urlpattern_test(&others, 3, pattern, length, "", 0);
    compare(status == URLPATTERN_NO_PATTERN, __LINE__, status);
    status = urlpattern_add(&patterns, pattern, length, "", 0, false);
    compare(status == URLPATTERN_SHARED, __LINE__, status);
    status = urlpattern_add_init(&others, "{}", 2, false);
    compare(status == URLPATTERN_SHARED, __LINE__, status);
    urlpattern_free(&patterns);
    status = path_status(&others, "/users/7", &index);
    compare(status == URLPATTERN_DONE, __LINE__, status);
    status = urlpattern_add(&others, pattern, length, "", 0, false);
    compare(status == URLPATTERN_DONE, __LINE__, status);
    status = urlpattern_share(&none, &others);
    compare(status == URLPATTERN_DONE && others.made_by == 0, __LINE__, status);
}

int main(void) {
    compare(urlpattern_version() == URLPATTERN_VERSION, __LINE__, URLPATTERN_DONE);
    ask_bytes();
    ask_parts();
    ask_nulls();
    ask_long_texts();
    ask_inits();
    ask_same();
    ask_reached();
    ask_paths();
    ask_texts();
    ask_shared();
    ask_other_version();
    urlpattern_free(&patterns);
    urlpattern_free(&others);
    printf("%u passed, %u failed\n", passed, failed);
    return failed != 0;
}
