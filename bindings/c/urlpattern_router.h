/* Included by `urlpattern.h`, which says what a caller guarantees.
 *
 * Routers: routes in their order, each with a pattern and the method that it serves, for requests
 * of HTTP. A route has an index from 0 on, by which a program keeps what it does for the route. */
#include "urlpattern.h"

#ifndef URLPATTERN_ROUTER_H
#define URLPATTERN_ROUTER_H

#ifdef __cplusplus
extern "C" {
#endif

/* A handle to routes. It is made, moved, shared and freed as that of patterns is. */
typedef struct urlpattern_router {
    uint32_t made_by; /* the version of the library and 1,000,000, if the handle has routes */
    void *at;
} urlpattern_router;

/* Compiles a constructor string, as `urlpattern_add` does, and appends a route with the pattern.
 * The route serves requests with this method, such as `GET`, in which case counts; no bytes: it
 * serves every method, and has no name. `urlpattern_router_link` finds a route by its name; no
 * bytes: it has none.
 * DONE, NOT_UTF8, REFUSED (the pattern is, and `urlpattern_diagnose` says why), NAME_TAKEN,
 * NOT_A_METHOD, OUT_OF_MEMORY, or SHARED (another handle has the routes, and there is one at
 * least); but for DONE, the routes are as they were. A pattern that is refused is reported first,
 * and NAME_TAKEN before NOT_A_METHOD. */
urlpattern_status urlpattern_router_insert(urlpattern_router *router, const char *name,
                                           size_t name_length, const char *method,
                                           size_t method_length, const char *text, size_t length,
                                           const char *base, size_t base_length, bool ignore_case);

/* Compiles an init, as `urlpattern_add_init` does, and appends a route with the pattern, as
 * `urlpattern_router_insert` does. `{"pathname":"/users/:id"}` is a pattern for paths.
 * DONE, NOT_UTF8, REFUSED, NAME_TAKEN, NOT_A_METHOD, OUT_OF_MEMORY, or SHARED; but for DONE, the
 * routes are as they were. */
urlpattern_status urlpattern_router_insert_init(urlpattern_router *router, const char *name,
                                                size_t name_length, const char *method,
                                                size_t method_length, const char *json,
                                                size_t length, bool ignore_case);

/* Frees the routes, unless another handle has them. The handle is empty again, so that it may be
 * used, or freed once more. */
void urlpattern_router_free(urlpattern_router *router);

/* Gives another handle the same routes, as `urlpattern_share` gives patterns. The caller passes
 * two handles, not one twice. Without routes nothing is shared: each handle may be added to.
 * DONE, or OUT_OF_MEMORY: both handles are as they were. */
urlpattern_status urlpattern_router_share(urlpattern_router *router, urlpattern_router *other);

/* Finds the route that serves a request with this method for a path by itself, which is matched as
 * by `urlpattern_captures_of_path`: the first route with the method, or for every method, that
 * matches. For `HEAD` this route counts only if it has the method `HEAD` itself; else the request
 * is served as `GET` is. Of routes for `GET`, `HEAD` and every method, in this order, which all
 * match, the second serves `HEAD`; in the order `GET`, every method, `HEAD`, the first does.
 * Writes the index of the route, and its groups as `urlpattern_captures` does.
 * DONE, NO_MATCH (no route matches, as for the status 404, or there is none), NOT_ALLOWED (a route
 * matches, but none serves the method, as for 405), NO_PATH, NOT_UTF8, OUT_OF_MEMORY, or TOO_SMALL.
 * For DONE and TOO_SMALL `index` is written; for the others it is as it was. The buffer, the array
 * and `needed` are as `urlpattern_captures` leaves them. */
urlpattern_status urlpattern_router_at(urlpattern_router *router, const char *method,
                                       size_t method_length, const char *path, size_t length,
                                       size_t *index, char *buffer, size_t room,
                                       urlpattern_span *spans, size_t span_room,
                                       urlpattern_sizes *needed);

/* Finds the route that serves a request with this method for a URL, which may be relative to a base
 * URL; no bytes: there is none. What it writes is as of `urlpattern_router_at`.
 * DONE, NO_MATCH, NOT_ALLOWED, NO_URL, TOO_LONG, NOT_UTF8, OUT_OF_MEMORY, or TOO_SMALL. */
urlpattern_status urlpattern_router_at_url(urlpattern_router *router, const char *method,
                                           size_t method_length, const char *url, size_t length,
                                           const char *base, size_t base_length, size_t *index,
                                           char *buffer, size_t room, urlpattern_span *spans,
                                           size_t span_room, urlpattern_sizes *needed);

/* Writes the methods of the routes that match a path by itself, each once, in the order of the
 * routes, as in `GET, POST`: what the header `Allow` says where `urlpattern_router_at` reports
 * NOT_ALLOWED.
 * DONE (it does so), NO_MATCH (a route serves the method, or no route matches), NO_PATH, NOT_UTF8,
 * OUT_OF_MEMORY, or TOO_SMALL. */
urlpattern_status urlpattern_router_allowed(urlpattern_router *router, const char *method,
                                            size_t method_length, const char *path, size_t length,
                                            char *buffer, size_t room, size_t *needed);

/* Writes the methods of the routes that match a URL, as `urlpattern_router_allowed` does.
 * DONE, NO_MATCH, NO_URL, TOO_LONG, NOT_UTF8, OUT_OF_MEMORY, or TOO_SMALL. */
urlpattern_status urlpattern_router_allowed_at_url(urlpattern_router *router, const char *method,
                                                   size_t method_length, const char *url,
                                                   size_t length, const char *base,
                                                   size_t base_length, char *buffer, size_t room,
                                                   size_t *needed);

/* Writes the link of the route with this name with these groups, as `urlpattern_link` does, but
 * with what is given for them percent-encoded: what a match of the link captures decodes to
 * exactly what was given.
 * DONE (the URL is written), NO_MATCH (no route has the name), REFUSED (the route has no link with
 * these groups, and the reason is written), NOT_UTF8 (the name is not), OUT_OF_MEMORY, NO_PATTERN
 * (as of `urlpattern_link`: what is given is no text), or TOO_SMALL. */
urlpattern_status urlpattern_router_link(urlpattern_router *router, const char *name,
                                         size_t name_length, const char *text, size_t length,
                                         const urlpattern_given *given, size_t count, char *buffer,
                                         size_t room, size_t *needed);

/* Writes the name of a group of the route of this index, as `urlpattern_group_name` does.
 * DONE, NO_PATTERN, or TOO_SMALL. */
urlpattern_status urlpattern_router_group_name(urlpattern_router *router, size_t index,
                                               urlpattern_component_number component, size_t group,
                                               char *buffer, size_t room, size_t *needed);

#ifdef __cplusplus
}
#endif

#endif
