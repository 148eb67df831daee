/* Routers: reads the routes and requests of `bindings/routes.txt`, asks for each request by its path and by a URL, and tries what no line
 * of it says. The last line counts the answers that are right, and the others. */
#include "urlpattern.h"

#include <stdio.h>
#include <stdlib.h>
#include <string.h>

enum { ROOM = 256, SPANS = 32 };

static urlpattern_router router = URLPATTERN_EMPTY, other = URLPATTERN_EMPTY;
static char buffer[ROOM];
static urlpattern_span spans[SPANS];
static urlpattern_sizes sizes;
static int passed, failed;

/* Counts an answer. */
static void expect(bool is_right, const char *what) {
    passed += is_right;
    failed += !is_right;
    if (!is_right) {
        printf("routes: wrong: %s\n", what);
    }
}

/* Counts an answer that is a text in the buffer. */
static void expect_text(const char *text, size_t needed, const char *what) {
    expect(needed == strlen(text) && memcmp(buffer, text, needed) == 0, what);
}

/* The name of a group, in a buffer of its own. */
static bool is_named(size_t index, const urlpattern_span *span, const char *name) {
    char found[ROOM];
    size_t needed = 0;
    urlpattern_status status =
        urlpattern_router_group_name(&router, index, span->component, span->group, found, ROOM, &needed);
    return status == URLPATTERN_DONE && needed == strlen(name) && memcmp(found, name, needed) == 0;
}

/* Whether the group `id` of a match, or nothing if there is no such group, has this text. */
static bool has_id(size_t index, const char *id) {
    for (size_t at = 0; at < sizes.spans; at++) {
        if (spans[at].component == URLPATTERN_PATHNAME && is_named(index, &spans[at], "id")) {
            return spans[at].length == strlen(id) && memcmp(buffer + spans[at].start, id, spans[at].length) == 0;
        }
    }
    return id[0] == '\0';
}

static urlpattern_status insert(const char *name, const char *method, const char *pathname) {
    char json[ROOM] = "{\"pathname\":\"";
    size_t length = strlen(json), count = strlen(pathname);
    memcpy(json + length, pathname, count);
    memcpy(json + length + count, "\"}", 2);
    const char *asked = strcmp(method, "*") == 0 ? NULL : method;
    return urlpattern_router_insert_init(&router, name, name ? strlen(name) : 0, asked, asked ? strlen(asked) : 0,
                                         json, length + count + 2, false);
}

/* Asks for a path, and for the URL with this path, if it is one. */
static void ask(const char *method, const char *path, int wanted, const char *text) {
    urlpattern_status status_of[] = { URLPATTERN_DONE, URLPATTERN_NO_MATCH, URLPATTERN_NOT_ALLOWED, URLPATTERN_NO_PATH };
    urlpattern_status status = status_of[wanted == 404 ? 1 : wanted == 405 ? 2 : wanted == 400 ? 3 : 0];
    size_t method_length = strlen(method), length = strlen(path), index = 99, needed = 0;
    expect(urlpattern_router_at(&router, method, method_length, path, length, &index, buffer, ROOM, spans, SPANS, &sizes) == status, path);
    expect(status == URLPATTERN_DONE ? index == (size_t)wanted && has_id(index, text) : index == 99, path);
    urlpattern_status allowed = urlpattern_router_allowed(&router, method, method_length, path, length, buffer, ROOM, &needed);
    expect(allowed == (wanted == 405 ? URLPATTERN_DONE : wanted == 400 ? URLPATTERN_NO_PATH : URLPATTERN_NO_MATCH), path);
    if (wanted == 405) {
        expect_text(text, needed, path);
    }
    if (wanted == 400 || path[1] == '/') {
        return;
    }
    static const char base[] = "https://example.com";
    status = urlpattern_router_at_url(&router, method, method_length, path, length, base, sizeof base - 1, &index, buffer, ROOM, spans,
                                      SPANS, &sizes);
    expect(status == status_of[wanted == 404 ? 1 : wanted == 405 ? 2 : 0], path);
    expect(status != URLPATTERN_DONE || (index == (size_t)wanted && has_id(index, text)), path);
    allowed = urlpattern_router_allowed_at_url(&router, method, method_length, path, length, base, sizeof base - 1, buffer, ROOM, &needed);
    expect(allowed == (wanted == 405 ? URLPATTERN_DONE : URLPATTERN_NO_MATCH), path);
}

static void read_lines(void) {
    char line[ROOM];
    while (fgets(line, sizeof line, stdin)) {
        char *method = strtok(line, " \n"), *path = strtok(NULL, " \n"), *text = strtok(NULL, "\n");
        if (strcmp(method, "route") == 0) {
            expect(insert(NULL, path, text) == URLPATTERN_DONE, text);
            continue;
        }
        char *found = text;
        while (*found && *found != ' ') {
            found++;
        }
        ask(method, path, atoi(text), *found ? found + 1 : found);
    }
}

static void try_links(void) {
    static const char text[] = "ida/b c0https0example.com";
    static const urlpattern_given given[] = {
        { URLPATTERN_PATHNAME, 0, 2, 2, 5 }, { URLPATTERN_PROTOCOL, 7, 1, 8, 5 }, { URLPATTERN_HOSTNAME, 13, 1, 14, 11 }
    };
    size_t needed = 0;
    expect(insert("user", "PATCH", "/users/:id") == URLPATTERN_DONE, "a name");
    expect(insert("user", "TRACE", "/users/:id") == URLPATTERN_NAME_TAKEN, "a name that is taken");
    expect(insert("user", "no token", "/users/:id") == URLPATTERN_NAME_TAKEN, "a name that is taken, and a method that is no token");
    expect(insert("page", "*", "/users/:id") == URLPATTERN_NOT_A_METHOD, "a name without a method");
    expect(insert(NULL, "no token", "/users/:id") == URLPATTERN_NOT_A_METHOD, "a method that is no token");
    expect(insert("user", "no token", "/{") == URLPATTERN_REFUSED, "a pattern that is refused, and a name and a method");
    expect(insert(NULL, "\xff", "/users/:id") == URLPATTERN_NOT_UTF8, "a method that is not UTF-8");
    expect(insert(NULL, "GET", "/{") == URLPATTERN_REFUSED, "a pattern that is refused");
    expect(urlpattern_router_link(&router, "user", 4, text, sizeof text - 1, given, 3, buffer, ROOM, &needed) == URLPATTERN_DONE, "a link");
    expect_text("https://example.com/users/a%2Fb%20c", needed, "the link");
    expect(urlpattern_router_link(&router, "user", 4, text, sizeof text - 1, given, 3, buffer, 3, &needed) == URLPATTERN_TOO_SMALL, "room");
    expect(urlpattern_router_link(&router, "user", 4, NULL, 0, NULL, 0, buffer, ROOM, &needed) == URLPATTERN_REFUSED, "no groups");
    expect(urlpattern_router_link(&router, "page", 4, NULL, 0, NULL, 0, buffer, ROOM, &needed) == URLPATTERN_NO_MATCH, "no such name");
    expect(urlpattern_router_link(&router, "user", 4, text, 3, given, 3, buffer, ROOM, &needed) == URLPATTERN_NO_PATTERN, "no such text");
}

/* What a handle without routes reports. */
static void try_none(void) {
    static const char url[] = "https://example.com/x";
    const size_t length = sizeof url - 1, from = length - 2;
    size_t index = 99, needed = 0;
    expect(urlpattern_router_at(&other, "GET", 3, url + from, 2, &index, NULL, 0, NULL, 0, &sizes) == URLPATTERN_NO_MATCH, "no routes");
    expect(urlpattern_router_at(&other, "GET", 3, "x", 1, &index, NULL, 0, NULL, 0, &sizes) == URLPATTERN_NO_PATH, "no path");
    expect(urlpattern_router_at_url(&other, "GET", 3, url, length, NULL, 0, &index, NULL, 0, NULL, 0, &sizes) == URLPATTERN_NO_MATCH, "no routes");
    expect(urlpattern_router_at_url(&other, "GET", 3, "x", 1, NULL, 0, &index, NULL, 0, NULL, 0, &sizes) == URLPATTERN_NO_URL, "no URL");
    expect(urlpattern_router_allowed(&other, "GET", 3, url + from, 2, NULL, 0, &needed) == URLPATTERN_NO_MATCH, "no routes");
    expect(urlpattern_router_allowed_at_url(&other, "\xff", 1, url, length, NULL, 0, NULL, 0, &needed) == URLPATTERN_NOT_UTF8, "no method");
    expect(urlpattern_router_link(&other, "user", 4, NULL, 0, NULL, 0, NULL, 0, &needed) == URLPATTERN_NO_MATCH, "no routes to link");
    expect(index == 99, "an index that is not written");
}

static void try_handles(void) {
    static const char path[] = "/users/me";
    const size_t length = sizeof path - 1;
    size_t index = 99, needed = 0;
    urlpattern_list list = URLPATTERN_EMPTY;
    try_none();
    expect(urlpattern_router_share(&router, &other) == URLPATTERN_DONE, "shared");
    expect(urlpattern_router_at(&other, "GET", 3, path, length, &index, NULL, 0, NULL, 0, &sizes) == URLPATTERN_TOO_SMALL, "too small");
    expect(index == 0 && sizes.spans == 8, "what is needed");
    expect(insert(NULL, "GET", "/x") == URLPATTERN_SHARED, "a shared router");
    urlpattern_router_free(&other);
    urlpattern_router_free(&other);
    expect(insert(NULL, "GET", "/x") == URLPATTERN_DONE, "a router that is not shared any more");
    expect(urlpattern_router_allowed(&router, "PUT", 3, path, length, NULL, 0, &needed) == URLPATTERN_TOO_SMALL && needed == 16, "methods");
    memcpy(&list, &router, sizeof list);
    expect(urlpattern_test(&list, 0, "https://example.com/", 20, NULL, 0) == URLPATTERN_NO_PATTERN, "a router taken for a list");
}

int main(void) {
    read_lines();
    try_links();
    try_handles();
    urlpattern_router_free(&router);
    printf("%d passed, %d failed\n", passed, failed);
    return failed != 0;
}
