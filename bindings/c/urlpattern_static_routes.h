/* Included by `urlpattern.h`, which says what a caller guarantees.
 *
 * Static routes of a service worker, as `InstallEvent.addRoutes()` takes them: rules in JSON, which
 * are checked as browsers check them. The first rule whose condition holds of a request decides
 * where its response comes from. */
#include "urlpattern.h"

#ifndef URLPATTERN_STATIC_ROUTES_H
#define URLPATTERN_STATIC_ROUTES_H

#ifdef __cplusplus
extern "C" {
#endif

/* A handle to static routes, or to the faults of some. It is made, moved and freed as that of
 * patterns is. An empty one has no rules and no faults. */
typedef struct urlpattern_static_routes {
    uint32_t made_by; /* the version of the library and 3,000,000, if the handle keeps something */
    void *at;
} urlpattern_static_routes;

/* The member of a rule or of a condition that is at fault. */
typedef enum urlpattern_route_member {
    URLPATTERN_MEMBER_NONE = 0, /* all rules together */
    URLPATTERN_MEMBER_CONDITION = 1,
    URLPATTERN_MEMBER_URL_PATTERN = 2,
    URLPATTERN_MEMBER_REQUEST_METHOD = 3,
    URLPATTERN_MEMBER_REQUEST_MODE = 4,
    URLPATTERN_MEMBER_REQUEST_DESTINATION = 5,
    URLPATTERN_MEMBER_RUNNING_STATUS = 6,
    URLPATTERN_MEMBER_OR = 7,
    URLPATTERN_MEMBER_NOT = 8,
    URLPATTERN_MEMBER_SOURCE = 9
} urlpattern_route_member;

/* Why a member is rejected. */
typedef enum urlpattern_route_reason {
    URLPATTERN_FAULT_MISSING = 1,
    URLPATTERN_FAULT_TOO_DEEP = 2,           /* within more than nine `or` and `not` */
    URLPATTERN_FAULT_EMPTY = 3,              /* a condition without a member that is known */
    URLPATTERN_FAULT_NOT_ALONE = 4,          /* `or` or `not` beside another member */
    URLPATTERN_FAULT_NOT_AN_ARRAY = 5,
    URLPATTERN_FAULT_NOT_A_TEXT = 6,
    URLPATTERN_FAULT_NOT_A_PATTERN = 7,
    URLPATTERN_FAULT_NOT_A_METHOD = 8,       /* no token of HTTP */
    URLPATTERN_FAULT_FORBIDDEN_METHOD = 9,   /* CONNECT, TRACE or TRACK */
    URLPATTERN_FAULT_UNKNOWN_NAME = 10,
    URLPATTERN_FAULT_NO_HANDLER = 11,        /* a source that needs a handler of fetch events */
    URLPATTERN_FAULT_REJECTED = 12,          /* `place` says where */
    URLPATTERN_FAULT_CUSTOM_EXPRESSION = 13, /* `place.subject` says in which component */
    URLPATTERN_FAULT_NAME = 14,              /* a name outside of hostname and pathname */
    URLPATTERN_FAULT_TOO_MANY_RULES = 15     /* more than 255 */
} urlpattern_route_reason;

/* Where the response to a request comes from. */
typedef enum urlpattern_route_source {
    URLPATTERN_SOURCE_NETWORK = 1,
    URLPATTERN_SOURCE_FETCH_EVENT = 2,
    URLPATTERN_SOURCE_CACHE = 3,
    URLPATTERN_SOURCE_NAMED_CACHE = 4,
    URLPATTERN_SOURCE_RACE = 5 /* network and handler, whichever is first */
} urlpattern_route_source;

/* A fault. */
typedef struct urlpattern_route_fault {
    size_t rule;            /* the index of the rule, or SIZE_MAX if all rules are at fault */
    uint32_t member;        /* a `urlpattern_route_member` */
    uint32_t reason;        /* a `urlpattern_route_reason` */
    urlpattern_place place; /* of a pattern: `subject` is as for an init, and `start` and `end` are
                             * in the text that `.._text_at_fault` writes */
} urlpattern_route_fault;

/* Reads rules in JSON, an array or a single one, in place of what the handle had. The URL of the
 * worker's script, without a fragment, is the base URL of patterns. `has_handler`: the worker has a handler of fetch
 * events.
 * DONE, NO_URL, TOO_LONG, NOT_UTF8, OUT_OF_MEMORY, or REFUSED: rules have faults, and the handle
 * keeps all of them, or has none if the text is no JSON. But for DONE, there are no rules. */
urlpattern_status urlpattern_static_routes_read(urlpattern_static_routes *routes,
                                                const char *script, size_t script_length,
                                                const char *json, size_t length,
                                                bool has_handler);

/* Writes the fault at an index, from 0 on, and why it is one, in words: from
 * URLPATTERN_FAULT_REJECTED on a reason by itself, before that words that go after the name of the
 * member. For DONE and TOO_SMALL `fault` is written; for NO_PATTERN nothing is promised of it.
 * DONE, NO_PATTERN: there is no such fault, or TOO_SMALL. */
urlpattern_status urlpattern_static_routes_fault(urlpattern_static_routes *routes, size_t index,
                                                 char *buffer, size_t size, size_t *needed,
                                                 urlpattern_route_fault *fault);

/* Writes the text that is at fault of a pattern that is rejected, which `place` is about.
 * DONE, NO_MATCH: the fault is another one, NO_PATTERN: there is no such fault, or TOO_SMALL. */
urlpattern_status urlpattern_static_routes_text_at_fault(urlpattern_static_routes *routes,
                                                         size_t index, char *buffer, size_t size,
                                                         size_t *needed);

/* Decides about a request: its URL, its method, its mode, such as `navigate`, its destination, such
 * as `image`, or no bytes for a call of `fetch`, and whether the worker is running, which one that
 * is starting is not. Writes the index of the rule that decides.
 * DONE, NO_MATCH: no rule does, and the handler gets the request, or the network without one,
 * NO_URL, TOO_LONG, NOT_UTF8, or OUT_OF_MEMORY; but for DONE, the index is as it was. */
urlpattern_status urlpattern_static_routes_decide(urlpattern_static_routes *routes, const char *url,
                                                  size_t length, const char *method,
                                                  size_t method_length, const char *mode,
                                                  size_t mode_length, const char *destination,
                                                  size_t destination_length, bool is_running,
                                                  size_t *rule);

/* Writes the source of the rule at an index, a `urlpattern_route_source`, and its name in JSON, or
 * that of its cache. For DONE and TOO_SMALL `source` is written; for NO_PATTERN nothing is promised
 * of it.
 * DONE, NO_PATTERN: there is no such rule, or TOO_SMALL. */
urlpattern_status urlpattern_static_routes_source(urlpattern_static_routes *routes, size_t index,
                                                  uint32_t *source, char *buffer, size_t size,
                                                  size_t *needed);

/* Frees what the handle keeps. The handle is empty again, so that it may be used, or freed once
 * more. */
void urlpattern_static_routes_free(urlpattern_static_routes *routes);

/* Null pointers: an empty text or buffer, as in `urlpattern_nulls.h`. What would be written to
 * another null pointer is dropped. */
static inline urlpattern_status urlpattern_static_routes_read_(urlpattern_static_routes *routes,
                                                               const char *script,
                                                               size_t script_length,
                                                               const char *json, size_t length,
                                                               bool has_handler) {
    return urlpattern_static_routes_read(routes, script ? script : "", script_length,
                                         json ? json : "", length, has_handler);
}

static inline urlpattern_status urlpattern_static_routes_fault_(urlpattern_static_routes *routes,
                                                                size_t index, char *buffer,
                                                                size_t size, size_t *needed,
                                                                urlpattern_route_fault *fault) {
    char none;
    size_t unused;
    urlpattern_route_fault other;
    return urlpattern_static_routes_fault(routes, index, buffer ? buffer : &none, size,
                                          needed ? needed : &unused, fault ? fault : &other);
}

static inline urlpattern_status urlpattern_static_routes_text_at_fault_(
    urlpattern_static_routes *routes, size_t index, char *buffer, size_t size, size_t *needed) {
    char none;
    size_t unused;
    return urlpattern_static_routes_text_at_fault(routes, index, buffer ? buffer : &none, size,
                                                  needed ? needed : &unused);
}

static inline urlpattern_status urlpattern_static_routes_decide_(
    urlpattern_static_routes *routes, const char *url, size_t length, const char *method,
    size_t method_length, const char *mode, size_t mode_length, const char *destination,
    size_t destination_length, bool is_running, size_t *rule) {
    size_t unused;
    return urlpattern_static_routes_decide(
        routes, url ? url : "", length, method ? method : "", method_length, mode ? mode : "",
        mode_length, destination ? destination : "", destination_length, is_running,
        rule ? rule : &unused);
}

static inline urlpattern_status urlpattern_static_routes_source_(urlpattern_static_routes *routes,
                                                                 size_t index, uint32_t *source,
                                                                 char *buffer, size_t size,
                                                                 size_t *needed) {
    char none;
    size_t unused;
    uint32_t other;
    return urlpattern_static_routes_source(routes, index, source ? source : &other,
                                           buffer ? buffer : &none, size,
                                           needed ? needed : &unused);
}

#define urlpattern_static_routes_read urlpattern_static_routes_read_
#define urlpattern_static_routes_fault urlpattern_static_routes_fault_
#define urlpattern_static_routes_text_at_fault urlpattern_static_routes_text_at_fault_
#define urlpattern_static_routes_decide urlpattern_static_routes_decide_
#define urlpattern_static_routes_source urlpattern_static_routes_source_

#ifdef __cplusplus
}
#endif

#endif
