/* Calls the library with random texts, handles, indices and sizes for some seconds, and ends at the first call that reports what its
 * comment in the header does not. Each text and each buffer ends where the memory begins that nothing may touch.
 *
 * Usage: fuzz SECONDS SEED */
#define _DEFAULT_SOURCE
#include "urlpattern.h"

#include <stdio.h>
#include <stdlib.h>
#include <string.h>
#include <sys/mman.h>
#include <time.h>

enum { PAGE = 4096, TEXTS = 4, BUFFER = TEXTS, SPANS, AREAS, HANDLES = 3, BYTE = 0x5a };
enum { NO = 1 << URLPATTERN_NO_MATCH, DONE = 1 << URLPATTERN_DONE, NO_URL = 1 << URLPATTERN_NO_URL, NO_PATH = 1 << URLPATTERN_NO_PATH,
       NOT_UTF8 = 1 << URLPATTERN_NOT_UTF8, REFUSED = 1 << URLPATTERN_REFUSED, NONE = 1 << URLPATTERN_NO_PATTERN, SMALL = 1 << URLPATTERN_TOO_SMALL,
       UNKNOWN = 1 << URLPATTERN_UNKNOWN, NOT_ALLOWED = 1 << URLPATTERN_NOT_ALLOWED, ADDED = DONE | NOT_UTF8 | REFUSED | 1 << URLPATTERN_SHARED,
       INSERTED = ADDED | 1 << URLPATTERN_NAME_TAKEN | 1 << URLPATTERN_NOT_A_METHOD, ASKED = NO | DONE | NONE, MATCHED = ASKED | NO_URL | NOT_UTF8,
       OF_PATH = ASKED | NO_PATH | NOT_UTF8 | SMALL, ROUTED = NO | DONE | NOT_UTF8 | SMALL, LINKED = DONE | REFUSED | NONE | SMALL,
       DECIDED = NO | DONE | NO_URL | NOT_UTF8 | 1 << URLPATTERN_DENY_CREDENTIALS };

static const char *const pieces[] = {
    "https://example.com/:id", "https://:host.com/:page/*", "/users/:id(\\d+)", "/a/b", "https://example.com/a/b?c#d", "{\"pathname\":\"/:id/:x?\"}",
    "{\"hostname\":\"*.com\",\"search\":\"a=(b|c)\"}", "{\"pathname\":\"/a\",\"baseURL\":\"https://example.com\"}", "GET", "POST", "http:", "://", "/",
    ":id", "*", "([^/]+)", "(a|b)", "(?", ")", "{", "}", "?", "+", "\\", ":", "#", "@", "[::1]", "..", "%61", "%", "\xc3\xa9", "\xff", "\xf0\x9f",
    "{\"pathname\":\"/", "\",\"", "\"}", "data:", ":8080", "a", "Z", " ", "\n", "127.1", "\\u00e9", "id", "https", "example.com",
    "[{\"condition\":{\"urlPattern\":\"/a/*\"},\"source\":\"network\"}]", "{\"condition\":{\"requestMode\":\"x\",\"urlPattern\":\"/(\"},\"source\":\"cache\"}" };

static struct { char *at; size_t length; } texts[TEXTS];
static char *areas[AREAS];
static urlpattern_list lists[HANDLES];
static urlpattern_router routers[HANDLES];
static urlpattern_policy policies[HANDLES];
static urlpattern_static_routes static_routes[HANDLES];
static urlpattern_sizes sizes;
static unsigned long long state;
static size_t room, span_room, needed;
static unsigned allowed;

static size_t below(size_t count) {
    state = state * 6364136223846793005u + 1442695040888963407u;
    return (size_t)(state >> 33) % count;
}

/* A random text at the end of its area. */
static void fill(int at) {
    char made[PAGE] = "";
    size_t length = 0, count = below(2) ? 1 : below(7), of = below(3) ? sizeof pieces / sizeof *pieces : 10;
    while (count--) {
        const char *piece = pieces[below(of)];
        memcpy(made + length, piece, strlen(piece));
        length += strlen(piece);
        made[length] = (char)below(256);
        length += below(9) == 0;
    }
    texts[at].at = length || below(2) ? memcpy(areas[at] + PAGE - length, made, length) : NULL;
    texts[at].length = length;
}

/* What a call may report, which is then made. */
#define MAY(statuses, call) (allowed = (statuses), (unsigned)(call))
#define TEXT(n) texts[n].at, texts[n].length
#define OUT areas[BUFFER] + PAGE - room, room, &needed
#define CAPTURES areas[BUFFER] + PAGE - room, room, (urlpattern_span *)(areas[SPANS] + PAGE) - span_room, span_room, &sizes

static unsigned call_list(urlpattern_list *it, urlpattern_list *other, size_t at, size_t asked, bool flag) {
    urlpattern_component_number of = (urlpattern_component_number)below(10);
    urlpattern_parts parts = { { 0, 5 }, { below(9), 0 }, { 0, 0 }, { 8, below(12) }, { 0, 0 }, { below(30), below(9) }, { 0, 0 }, { 0, 0 } };
    urlpattern_given given[] = { { of, 0, 2, 2, below(9) }, { URLPATTERN_PATHNAME, 0, below(3), below(9), below(5) } };
    urlpattern_place place;
    uint32_t reason;
    switch (below(29)) {
    case 0: urlpattern_free(it); return MAY(DONE, URLPATTERN_DONE);
    case 1: return it == other ? MAY(DONE, URLPATTERN_DONE) : MAY(DONE, urlpattern_share(it, other));
    case 2: return MAY(MATCHED, urlpattern_test(it, at, TEXT(0), TEXT(1)));
    case 3: return MAY(MATCHED, urlpattern_first(it, TEXT(0), TEXT(1), &asked));
    case 4: return MAY(MATCHED, urlpattern_mismatch(it, at, TEXT(0), TEXT(1), &of));
    case 5: return MAY(MATCHED | SMALL, urlpattern_exec(it, at, TEXT(0), TEXT(1), OUT));
    case 6: return MAY(MATCHED | SMALL, urlpattern_captures(it, at, TEXT(0), TEXT(1), CAPTURES));
    case 7: return MAY(MATCHED | SMALL, urlpattern_first_captures(it, TEXT(0), TEXT(1), &asked, CAPTURES));
    case 8: return MAY(OF_PATH, urlpattern_captures_of_path(it, at, TEXT(0), CAPTURES));
    case 9: return MAY(OF_PATH, urlpattern_first_captures_of_path(it, TEXT(0), &asked, CAPTURES));
    case 10: return MAY(ASKED | NOT_UTF8 | SMALL, urlpattern_captures_of_texts(it, at, TEXT(0), &parts, CAPTURES));
    case 11: return MAY(ASKED | NOT_UTF8 | SMALL, urlpattern_first_captures_of_texts(it, TEXT(0), &parts, &asked, CAPTURES));
    case 12: return MAY(MATCHED | REFUSED | SMALL, urlpattern_captures_of_init(it, at, TEXT(0), CAPTURES));
    case 13: return MAY(MATCHED | REFUSED | SMALL, urlpattern_first_captures_of_init(it, TEXT(0), &asked, CAPTURES));
    case 14: return MAY(MATCHED | REFUSED | SMALL, urlpattern_exec_of_init(it, at, TEXT(0), OUT));
    case 15: return MAY(LINKED, urlpattern_link(it, at, TEXT(0), given, below(3), OUT));
    case 16: return MAY(LINKED, urlpattern_generate(it, at, of, TEXT(0), given, below(3), OUT));
    case 17: return MAY(DONE | NONE | SMALL, urlpattern_group_name(it, at, of, asked, OUT));
    case 18: return MAY(DONE | NONE | SMALL, urlpattern_component(it, at, of, OUT));
    case 19: return MAY(ASKED | SMALL, urlpattern_text(it, at, OUT));
    case 20: return MAY(ASKED, flag ? urlpattern_has_meaning(it, at) : urlpattern_has_regexp_groups(it, at));
    case 21: return MAY(ASKED, urlpattern_is_same(it, at, other, asked));
    case 22: return MAY(ASKED | UNKNOWN, urlpattern_covers(it, at, other, asked, &of));
    case 23: return MAY(ASKED, urlpattern_covering_reason(it, at, other, asked, &reason));
    case 24: return MAY(ASKED | UNKNOWN | SMALL, urlpattern_counterexample(it, at, other, asked, OUT));
    case 25: return MAY(ASKED | UNKNOWN | SMALL, urlpattern_overlaps(it, at, other, asked, OUT));
    case 26: return MAY(DONE | NONE | SMALL, urlpattern_reach_of_each(it, OUT));
    case 27: return MAY(NO | DONE | NOT_UTF8 | SMALL, urlpattern_diagnose(TEXT(0), TEXT(1), flag, OUT, &place));
    default: return MAY(NO | DONE | NOT_UTF8 | REFUSED | SMALL, urlpattern_diagnose_init(TEXT(0), flag, OUT, &place));
    }
}

static unsigned call_router(urlpattern_router *it, urlpattern_router *other, size_t at, size_t group) {
    urlpattern_given given[] = { { URLPATTERN_PATHNAME, 0, 2, 2, below(9) }, { URLPATTERN_HOSTNAME, 0, below(3), below(9), below(5) } };
    size_t index;
    switch (below(8)) {
    case 0: urlpattern_router_free(it); return MAY(DONE, URLPATTERN_DONE);
    case 1: return it == other ? MAY(DONE, URLPATTERN_DONE) : MAY(DONE, urlpattern_router_share(it, other));
    case 2: return MAY(ROUTED | NO_PATH | NOT_ALLOWED, urlpattern_router_at(it, TEXT(0), TEXT(1), &index, CAPTURES));
    case 3: return MAY(ROUTED | NO_URL | NOT_ALLOWED, urlpattern_router_at_url(it, TEXT(0), TEXT(1), TEXT(2), &index, CAPTURES));
    case 4: return MAY(ROUTED | NO_PATH, urlpattern_router_allowed(it, TEXT(0), TEXT(1), OUT));
    case 5: return MAY(ROUTED | NO_URL, urlpattern_router_allowed_at_url(it, TEXT(0), TEXT(1), TEXT(2), OUT));
    case 6: return MAY(LINKED | NO | NOT_UTF8, urlpattern_router_link(it, TEXT(0), TEXT(1), given, below(3), OUT));
    default: return MAY(DONE | NONE | SMALL, urlpattern_router_group_name(it, at, (urlpattern_component_number)below(10), group, OUT));
    }
}

static unsigned call_policy(urlpattern_policy *it, urlpattern_policy *other, bool flag) {
    size_t rule = 0;
    switch (below(6)) {
    case 0: urlpattern_policy_free(it); return MAY(DONE, URLPATTERN_DONE);
    case 1: return it == other ? MAY(DONE, URLPATTERN_DONE) : MAY(DONE, urlpattern_policy_share(it, other));
    case 2: return MAY(DONE | 1 << URLPATTERN_SHARED, urlpattern_policy_set_options(it, flag, below(2), below(2)));
    default: return MAY(DECIDED, urlpattern_policy_decide(it, TEXT(0), TEXT(1), &rule));
    }
}

static unsigned call_static_routes(urlpattern_static_routes *it, size_t at, bool flag) {
    urlpattern_route_fault fault;
    uint32_t source;
    switch (below(9)) {
    case 0: urlpattern_static_routes_free(it); return MAY(DONE, URLPATTERN_DONE);
    case 1: return MAY(DONE | NONE | SMALL, urlpattern_static_routes_fault(it, at, OUT, &fault));
    case 2: return MAY(DONE | NO | NONE | SMALL, urlpattern_static_routes_text_at_fault(it, at, OUT));
    case 3: return MAY(DONE | NONE | SMALL, urlpattern_static_routes_source(it, at, &source, OUT));
    case 4: case 5: return MAY(DONE | NO | NO_URL | NOT_UTF8, urlpattern_static_routes_decide(it, TEXT(0), TEXT(1), TEXT(2), TEXT(3), flag, &at));
    default: return MAY(DONE | NO_URL | NOT_UTF8 | REFUSED, urlpattern_static_routes_read(it, TEXT(0), TEXT(1), flag));
    }
}

static unsigned call_that_adds(urlpattern_list *list, urlpattern_router *router, urlpattern_policy *policy, bool flag) {
    switch (below(6)) {
    case 0: return MAY(ADDED, urlpattern_add(list, TEXT(0), TEXT(1), flag));
    case 1: return MAY(ADDED, urlpattern_add_init(list, TEXT(0), flag));
    case 2: return MAY(INSERTED, urlpattern_router_insert(router, TEXT(2), TEXT(3), TEXT(0), TEXT(1), flag));
    case 3: return MAY(INSERTED, urlpattern_router_insert_init(router, TEXT(2), TEXT(3), TEXT(0), flag));
    case 4: return MAY(ADDED, urlpattern_policy_add(policy, below(2), TEXT(0), TEXT(1), flag));
    default: return MAY(ADDED, urlpattern_policy_add_init(policy, below(2), TEXT(0), flag));
    }
}

/* Whether a call reports what it may, with sizes that agree, and leaves the rest of the buffer as it was. */
static bool is_right(unsigned status) {
    bool has_room = needed <= room && sizes.bytes <= room && sizes.spans <= span_room;
    size_t used = sizes.bytes > needed ? sizes.bytes : needed;
    bool is_written = 1u << status & (DONE | REFUSED), is_small = 1u << status & SMALL;
    for (size_t at = is_written ? used : 0; at < room && !(is_small && sizes.bytes + sizes.spans); at++) {
        if (areas[BUFFER][PAGE - room + at] != BYTE) {
            return false;
        }
    }
    return status < 32 && (1u << status & allowed) && (!is_written || has_room) && (!is_small || !has_room);
}

/* Maps the areas, each before a page that nothing may touch. */
static bool are_mapped(void) {
    for (int at = 0; at < AREAS; at++) {
        areas[at] = mmap(NULL, 2 * PAGE, PROT_READ | PROT_WRITE, MAP_PRIVATE | MAP_ANONYMOUS, -1, 0);
        if (areas[at] == MAP_FAILED || mprotect(areas[at] + PAGE, PAGE, PROT_NONE) != 0) {
            return false;
        }
    }
    return true;
}

/* Makes a random call. */
static unsigned call(size_t kind) {
    size_t it = below(HANDLES), other = below(HANDLES);
    for (int at = 0; at < TEXTS; at++) {
        fill(at);
    }
    room = below(3) ? below(PAGE) : below(40), span_room = below(2) ? 16 : below(9), needed = 0, sizes = (urlpattern_sizes){ 0, 0 };
    memset(areas[BUFFER], BYTE, PAGE);
    switch (kind) {
    case 0: return call_router(&routers[it], &routers[other], below(4), below(4));
    case 1: return call_policy(&policies[it], &policies[other], below(2));
    case 2: return call_static_routes(&static_routes[it], below(4), below(2));
    case 3: return call_that_adds(&lists[it], &routers[it], &policies[it], below(2));
    default: return call_list(&lists[it], &lists[other], below(4), below(4), below(2));
    }
}

int main(int count, char **words) {
    if (count != 3 || !are_mapped()) {
        fprintf(stderr, "usage: fuzz SECONDS SEED\n");
        return 2;
    }
    time_t end = time(NULL) + atoi(words[1]);
    unsigned long calls = 0, done = 0;
    state = strtoul(words[2], NULL, 10);
    for (; calls % 256 || time(NULL) < end; calls++) {
        size_t kind = below(7);
        unsigned status = call(kind);
        done += status == URLPATTERN_DONE;
        if (!is_right(status)) {
            fprintf(stderr, "fuzz: after %lu calls with the seed %s one of kind %zu reports %u\n", calls, words[2], kind, status);
            return 1;
        }
    }
    for (int at = 0; at < HANDLES; at++) {
        urlpattern_free(&lists[at]);
        urlpattern_router_free(&routers[at]);
        urlpattern_policy_free(&policies[at]);
        urlpattern_static_routes_free(&static_routes[at]);
    }
    printf("fuzz: %lu calls, %lu of them done\n", calls, done);
    return 0;
}
