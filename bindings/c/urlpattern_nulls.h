/* Included by `urlpattern.h`, at its end.
 *
 * Null pointers. The functions of the library are proved for pointers that are not null, and these
 * pass an empty text, buffer or array in place of one that is null. A program in another language,
 * which calls the library's functions themselves, does so too. */
#include "urlpattern.h"

#ifndef URLPATTERN_NULLS_H
#define URLPATTERN_NULLS_H

#ifdef __cplusplus
extern "C" {
#endif

static inline const char *urlpattern_text_or_empty(const char *text) {
    return text ? text : "";
}

static inline urlpattern_status urlpattern_add_(urlpattern_list *patterns, const char *text,
                                                size_t length, const char *base, size_t base_length,
                                                bool ignore_case) {
    return urlpattern_add(patterns, urlpattern_text_or_empty(text), length,
                          urlpattern_text_or_empty(base), base_length, ignore_case);
}

static inline urlpattern_status urlpattern_add_init_(urlpattern_list *patterns, const char *json,
                                                     size_t length, bool ignore_case) {
    return urlpattern_add_init(patterns, urlpattern_text_or_empty(json), length, ignore_case);
}

static inline urlpattern_status urlpattern_test_(urlpattern_list *patterns, size_t index,
                                                 const char *url, size_t length, const char *base,
                                                 size_t base_length) {
    return urlpattern_test(patterns, index, urlpattern_text_or_empty(url), length,
                           urlpattern_text_or_empty(base), base_length);
}

static inline urlpattern_status urlpattern_first_(urlpattern_list *patterns, const char *url,
                                                  size_t length, const char *base,
                                                  size_t base_length, size_t *index) {
    return urlpattern_first(patterns, urlpattern_text_or_empty(url), length,
                            urlpattern_text_or_empty(base), base_length, index);
}

static inline urlpattern_status urlpattern_mismatch_(urlpattern_list *patterns, size_t index,
                                                     const char *url, size_t length,
                                                     const char *base, size_t base_length,
                                                     urlpattern_component_number *component) {
    return urlpattern_mismatch(patterns, index, urlpattern_text_or_empty(url), length,
                               urlpattern_text_or_empty(base), base_length, component);
}

static inline urlpattern_status urlpattern_exec_(urlpattern_list *patterns, size_t index,
                                                 const char *url, size_t length, const char *base,
                                                 size_t base_length, char *buffer, size_t room,
                                                 size_t *needed) {
    char no_bytes[1];
    return urlpattern_exec(patterns, index, urlpattern_text_or_empty(url), length,
                           urlpattern_text_or_empty(base), base_length, buffer ? buffer : no_bytes,
                           room, needed);
}

static inline urlpattern_status urlpattern_captures_(urlpattern_list *patterns, size_t index,
                                                     const char *url, size_t length,
                                                     const char *base, size_t base_length,
                                                     char *buffer, size_t room,
                                                     urlpattern_span *spans, size_t span_room,
                                                     urlpattern_sizes *needed) {
    char no_bytes[1];
    urlpattern_span no_spans[1];
    return urlpattern_captures(patterns, index, urlpattern_text_or_empty(url), length,
                               urlpattern_text_or_empty(base), base_length,
                               buffer ? buffer : no_bytes, room, spans ? spans : no_spans,
                               span_room, needed);
}

static inline urlpattern_status urlpattern_first_captures_(urlpattern_list *patterns,
                                                           const char *url, size_t length,
                                                           const char *base, size_t base_length,
                                                           size_t *index, char *buffer, size_t room,
                                                           urlpattern_span *spans, size_t span_room,
                                                           urlpattern_sizes *needed) {
    char no_bytes[1];
    urlpattern_span no_spans[1];
    return urlpattern_first_captures(patterns, urlpattern_text_or_empty(url), length,
                                     urlpattern_text_or_empty(base), base_length, index,
                                     buffer ? buffer : no_bytes, room, spans ? spans : no_spans,
                                     span_room, needed);
}

static inline urlpattern_status urlpattern_captures_of_path_(urlpattern_list *patterns,
                                                             size_t index, const char *path,
                                                             size_t length, char *buffer,
                                                             size_t room, urlpattern_span *spans,
                                                             size_t span_room,
                                                             urlpattern_sizes *needed) {
    char no_bytes[1];
    urlpattern_span no_spans[1];
    return urlpattern_captures_of_path(patterns, index, urlpattern_text_or_empty(path), length,
                                       buffer ? buffer : no_bytes, room, spans ? spans : no_spans,
                                       span_room, needed);
}

static inline urlpattern_status urlpattern_first_captures_of_path_(urlpattern_list *patterns,
                                                                   const char *path, size_t length,
                                                                   size_t *index, char *buffer,
                                                                   size_t room,
                                                                   urlpattern_span *spans,
                                                                   size_t span_room,
                                                                   urlpattern_sizes *needed) {
    char no_bytes[1];
    urlpattern_span no_spans[1];
    return urlpattern_first_captures_of_path(patterns, urlpattern_text_or_empty(path), length,
                                             index, buffer ? buffer : no_bytes, room,
                                             spans ? spans : no_spans, span_room, needed);
}

static inline urlpattern_status urlpattern_captures_of_texts_(urlpattern_list *patterns,
                                                              size_t index, const char *text,
                                                              size_t length,
                                                              const urlpattern_parts *parts,
                                                              char *buffer, size_t room,
                                                              urlpattern_span *spans,
                                                              size_t span_room,
                                                              urlpattern_sizes *needed) {
    char no_bytes[1];
    urlpattern_span no_spans[1];
    return urlpattern_captures_of_texts(patterns, index, urlpattern_text_or_empty(text), length,
                                        parts, buffer ? buffer : no_bytes, room,
                                        spans ? spans : no_spans, span_room, needed);
}

static inline urlpattern_status urlpattern_first_captures_of_texts_(urlpattern_list *patterns,
                                                                    const char *text, size_t length,
                                                                    const urlpattern_parts *parts,
                                                                    size_t *index, char *buffer,
                                                                    size_t room,
                                                                    urlpattern_span *spans,
                                                                    size_t span_room,
                                                                    urlpattern_sizes *needed) {
    char no_bytes[1];
    urlpattern_span no_spans[1];
    return urlpattern_first_captures_of_texts(patterns, urlpattern_text_or_empty(text), length,
                                              parts, index, buffer ? buffer : no_bytes, room,
                                              spans ? spans : no_spans, span_room, needed);
}

static inline urlpattern_status urlpattern_captures_of_init_(urlpattern_list *patterns,
                                                             size_t index, const char *json,
                                                             size_t length, char *buffer,
                                                             size_t room, urlpattern_span *spans,
                                                             size_t span_room,
                                                             urlpattern_sizes *needed) {
    char no_bytes[1];
    urlpattern_span no_spans[1];
    return urlpattern_captures_of_init(patterns, index, urlpattern_text_or_empty(json), length,
                                       buffer ? buffer : no_bytes, room, spans ? spans : no_spans,
                                       span_room, needed);
}

static inline urlpattern_status urlpattern_first_captures_of_init_(urlpattern_list *patterns,
                                                                   const char *json, size_t length,
                                                                   size_t *index, char *buffer,
                                                                   size_t room,
                                                                   urlpattern_span *spans,
                                                                   size_t span_room,
                                                                   urlpattern_sizes *needed) {
    char no_bytes[1];
    urlpattern_span no_spans[1];
    return urlpattern_first_captures_of_init(patterns, urlpattern_text_or_empty(json), length,
                                             index, buffer ? buffer : no_bytes, room,
                                             spans ? spans : no_spans, span_room, needed);
}

static inline urlpattern_status urlpattern_exec_of_init_(urlpattern_list *patterns, size_t index,
                                                         const char *json, size_t length,
                                                         char *buffer, size_t room,
                                                         size_t *needed) {
    char no_bytes[1];
    return urlpattern_exec_of_init(patterns, index, urlpattern_text_or_empty(json), length,
                                   buffer ? buffer : no_bytes, room, needed);
}

static inline urlpattern_status urlpattern_link_(urlpattern_list *patterns, size_t index,
                                                 const char *text, size_t length,
                                                 const urlpattern_given *given, size_t count,
                                                 char *buffer, size_t room, size_t *needed) {
    static const urlpattern_given no_groups[1] = { { URLPATTERN_PROTOCOL, 0, 0, 0, 0 } };
    char no_bytes[1];
    return urlpattern_link(patterns, index, urlpattern_text_or_empty(text), length,
                           given ? given : no_groups, count, buffer ? buffer : no_bytes, room,
                           needed);
}

static inline urlpattern_status urlpattern_generate_(urlpattern_list *patterns, size_t index,
                                                     urlpattern_component_number component,
                                                     const char *text, size_t length,
                                                     const urlpattern_given *given, size_t count,
                                                     char *buffer, size_t room, size_t *needed) {
    static const urlpattern_given no_groups[1] = { { URLPATTERN_PROTOCOL, 0, 0, 0, 0 } };
    char no_bytes[1];
    return urlpattern_generate(patterns, index, component, urlpattern_text_or_empty(text), length,
                               given ? given : no_groups, count, buffer ? buffer : no_bytes, room,
                               needed);
}

static inline urlpattern_status urlpattern_group_name_(urlpattern_list *patterns, size_t index,
                                                       urlpattern_component_number component,
                                                       size_t group, char *buffer, size_t room,
                                                       size_t *needed) {
    char no_bytes[1];
    return urlpattern_group_name(patterns, index, component, group, buffer ? buffer : no_bytes,
                                 room, needed);
}

static inline urlpattern_status urlpattern_component_(urlpattern_list *patterns, size_t index,
                                                      urlpattern_component_number component,
                                                      char *buffer, size_t room, size_t *needed) {
    char no_bytes[1];
    return urlpattern_component(patterns, index, component, buffer ? buffer : no_bytes, room,
                                needed);
}

static inline urlpattern_status urlpattern_text_(urlpattern_list *patterns, size_t index,
                                                 char *buffer, size_t room, size_t *needed) {
    char no_bytes[1];
    return urlpattern_text(patterns, index, buffer ? buffer : no_bytes, room, needed);
}

/* Those of two patterns, of two handles or of one. The library has no function of these names: they
 * are the header's, and call the one that is right for the handles. */
static inline urlpattern_status urlpattern_counterexample(urlpattern_list *patterns, size_t index,
                                                          urlpattern_list *others, size_t asked,
                                                          char *buffer, size_t room,
                                                          size_t *needed) {
    char no_bytes[1];
    char *text = buffer ? buffer : no_bytes;
    return patterns == others
        ? urlpattern_counterexample_within(patterns, index, asked, text, room, needed)
        : urlpattern_counterexample_between(patterns, index, others, asked, text, room, needed);
}

static inline urlpattern_status urlpattern_overlaps(urlpattern_list *patterns, size_t index,
                                                    urlpattern_list *others, size_t other,
                                                    char *buffer, size_t room, size_t *needed) {
    char no_bytes[1];
    char *text = buffer ? buffer : no_bytes;
    return patterns == others
        ? urlpattern_overlaps_within(patterns, index, other, text, room, needed)
        : urlpattern_overlaps_between(patterns, index, others, other, text, room, needed);
}

static inline urlpattern_status urlpattern_reach_of_each_(urlpattern_list *patterns, char *buffer,
                                                          size_t room, size_t *needed) {
    char no_bytes[1];
    return urlpattern_reach_of_each(patterns, buffer ? buffer : no_bytes, room, needed);
}

static inline urlpattern_status urlpattern_diagnose_(const char *text, size_t length,
                                                     const char *base, size_t base_length,
                                                     bool ignore_case, char *buffer, size_t room,
                                                     size_t *needed, urlpattern_place *place) {
    char no_bytes[1];
    return urlpattern_diagnose(urlpattern_text_or_empty(text), length,
                               urlpattern_text_or_empty(base), base_length, ignore_case,
                               buffer ? buffer : no_bytes, room, needed, place);
}

static inline urlpattern_status urlpattern_diagnose_init_(const char *json, size_t length,
                                                          bool ignore_case, char *buffer,
                                                          size_t room, size_t *needed,
                                                          urlpattern_place *place) {
    char no_bytes[1];
    return urlpattern_diagnose_init(urlpattern_text_or_empty(json), length, ignore_case,
                                    buffer ? buffer : no_bytes, room, needed, place);
}

#ifdef __cplusplus
}
#endif

#define urlpattern_add urlpattern_add_
#define urlpattern_add_init urlpattern_add_init_
#define urlpattern_test urlpattern_test_
#define urlpattern_first urlpattern_first_
#define urlpattern_mismatch urlpattern_mismatch_
#define urlpattern_exec urlpattern_exec_
#define urlpattern_captures urlpattern_captures_
#define urlpattern_first_captures urlpattern_first_captures_
#define urlpattern_captures_of_path urlpattern_captures_of_path_
#define urlpattern_first_captures_of_path urlpattern_first_captures_of_path_
#define urlpattern_captures_of_texts urlpattern_captures_of_texts_
#define urlpattern_first_captures_of_texts urlpattern_first_captures_of_texts_
#define urlpattern_captures_of_init urlpattern_captures_of_init_
#define urlpattern_first_captures_of_init urlpattern_first_captures_of_init_
#define urlpattern_exec_of_init urlpattern_exec_of_init_
#define urlpattern_link urlpattern_link_
#define urlpattern_generate urlpattern_generate_
#define urlpattern_group_name urlpattern_group_name_
#define urlpattern_component urlpattern_component_
#define urlpattern_text urlpattern_text_
#define urlpattern_reach_of_each urlpattern_reach_of_each_
#define urlpattern_diagnose urlpattern_diagnose_
#define urlpattern_diagnose_init urlpattern_diagnose_init_

#endif
