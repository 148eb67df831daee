/* Prints which route serves a request for a path, and what its groups capture. */
#include "urlpattern.h"

#include <stdio.h>
#include <string.h>

enum { BYTES = 4096, SPANS = 32, ROUTES = 2 };

static const char *const methods[] = { "GET", "PUT" };
static const char *const patterns[] = { "{\"pathname\":\"/users/:id\"}", "{\"pathname\":\"/users/:id/*\"}" };

int main(int count, char **words) {
    if (count != 3) {
        fprintf(stderr, "usage: router METHOD PATH\n");
        return 2;
    }
    const char *method = words[1], *path = words[2];
    urlpattern_router router = URLPATTERN_EMPTY;
    urlpattern_span spans[SPANS];
    urlpattern_sizes sizes = { 0, 0 };
    size_t route = 0, length = 0;
    char text[BYTES], name[BYTES];
    urlpattern_status status = URLPATTERN_DONE;
    for (int at = 0; status == URLPATTERN_DONE && at < ROUTES; at++) {
        status = urlpattern_router_insert_init(&router, "", 0, methods[at], strlen(methods[at]), patterns[at], strlen(patterns[at]), false);
    }
    if (status == URLPATTERN_DONE) {
        status = urlpattern_router_at(&router, method, strlen(method), path, strlen(path), &route, text, sizeof text, spans, SPANS, &sizes);
    }
    for (size_t at = 0; status == URLPATTERN_DONE && at < sizes.spans; at++) {
        const urlpattern_span *span = &spans[at];
        status = urlpattern_router_group_name(&router, route, span->component, span->group, name, sizeof name, &length);
        if (status == URLPATTERN_DONE && span->component == URLPATTERN_PATHNAME && span->took_part) {
            printf("route %zu, %.*s: %.*s\n", route, (int)length, name, (int)span->length, text + span->start);
        }
    }
    urlpattern_router_free(&router);
    return status == URLPATTERN_DONE ? 0 : status == URLPATTERN_NO_MATCH ? 1 : (int)status;
}
