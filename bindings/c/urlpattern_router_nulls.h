/* Included by `urlpattern.h`, at its end: null pointers for routers, as `urlpattern_nulls.h` has
 * them for patterns. */
#include "urlpattern.h"

#ifndef URLPATTERN_ROUTER_NULLS_H
#define URLPATTERN_ROUTER_NULLS_H

#ifdef __cplusplus
extern "C" {
#endif

static inline urlpattern_status urlpattern_router_insert_(
    urlpattern_router *router, const char *name, size_t name_length, const char *method,
    size_t method_length, const char *text, size_t length, const char *base, size_t base_length,
    bool ignore_case) {
    return urlpattern_router_insert(router, urlpattern_text_or_empty(name), name_length,
                                    urlpattern_text_or_empty(method), method_length,
                                    urlpattern_text_or_empty(text), length,
                                    urlpattern_text_or_empty(base), base_length, ignore_case);
}

static inline urlpattern_status urlpattern_router_insert_init_(
    urlpattern_router *router, const char *name, size_t name_length, const char *method,
    size_t method_length, const char *json, size_t length, bool ignore_case) {
    return urlpattern_router_insert_init(router, urlpattern_text_or_empty(name), name_length,
                                         urlpattern_text_or_empty(method), method_length,
                                         urlpattern_text_or_empty(json), length, ignore_case);
}

static inline urlpattern_status urlpattern_router_at_(
    urlpattern_router *router, const char *method, size_t method_length, const char *path,
    size_t length, size_t *index, char *buffer, size_t room, urlpattern_span *spans,
    size_t span_room, urlpattern_sizes *needed) {
    char no_bytes[1];
    urlpattern_span no_spans[1];
    return urlpattern_router_at(router, urlpattern_text_or_empty(method), method_length,
                                urlpattern_text_or_empty(path), length, index,
                                buffer ? buffer : no_bytes, room, spans ? spans : no_spans,
                                span_room, needed);
}

static inline urlpattern_status urlpattern_router_at_url_(
    urlpattern_router *router, const char *method, size_t method_length, const char *url,
    size_t length, const char *base, size_t base_length, size_t *index, char *buffer, size_t room,
    urlpattern_span *spans, size_t span_room, urlpattern_sizes *needed) {
    char no_bytes[1];
    urlpattern_span no_spans[1];
    return urlpattern_router_at_url(router, urlpattern_text_or_empty(method), method_length,
                                    urlpattern_text_or_empty(url), length,
                                    urlpattern_text_or_empty(base), base_length, index,
                                    buffer ? buffer : no_bytes, room, spans ? spans : no_spans,
                                    span_room, needed);
}

static inline urlpattern_status urlpattern_router_allowed_(
    urlpattern_router *router, const char *method, size_t method_length, const char *path,
    size_t length, char *buffer, size_t room, size_t *needed) {
    char no_bytes[1];
    return urlpattern_router_allowed(router, urlpattern_text_or_empty(method), method_length,
                                     urlpattern_text_or_empty(path), length,
                                     buffer ? buffer : no_bytes, room, needed);
}

static inline urlpattern_status urlpattern_router_allowed_at_url_(
    urlpattern_router *router, const char *method, size_t method_length, const char *url,
    size_t length, const char *base, size_t base_length, char *buffer, size_t room,
    size_t *needed) {
    char no_bytes[1];
    return urlpattern_router_allowed_at_url(router, urlpattern_text_or_empty(method),
                                            method_length, urlpattern_text_or_empty(url), length,
                                            urlpattern_text_or_empty(base), base_length,
                                            buffer ? buffer : no_bytes, room, needed);
}

static inline urlpattern_status urlpattern_router_link_(
    urlpattern_router *router, const char *name, size_t name_length, const char *text,
    size_t length, const urlpattern_given *given, size_t count, char *buffer, size_t room,
    size_t *needed) {
    static const urlpattern_given no_groups[1] = { { URLPATTERN_PROTOCOL, 0, 0, 0, 0 } };
    char no_bytes[1];
    return urlpattern_router_link(router, urlpattern_text_or_empty(name), name_length,
                                  urlpattern_text_or_empty(text), length, given ? given : no_groups,
                                  count, buffer ? buffer : no_bytes, room, needed);
}

static inline urlpattern_status urlpattern_router_group_name_(
    urlpattern_router *router, size_t index, urlpattern_component_number component, size_t group,
    char *buffer, size_t room, size_t *needed) {
    char no_bytes[1];
    return urlpattern_router_group_name(router, index, component, group,
                                        buffer ? buffer : no_bytes, room, needed);
}

#ifdef __cplusplus
}
#endif

#define urlpattern_router_insert urlpattern_router_insert_
#define urlpattern_router_insert_init urlpattern_router_insert_init_
#define urlpattern_router_at urlpattern_router_at_
#define urlpattern_router_at_url urlpattern_router_at_url_
#define urlpattern_router_allowed urlpattern_router_allowed_
#define urlpattern_router_allowed_at_url urlpattern_router_allowed_at_url_
#define urlpattern_router_link urlpattern_router_link_
#define urlpattern_router_group_name urlpattern_router_group_name_

#endif
