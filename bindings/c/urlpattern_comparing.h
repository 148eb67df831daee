/* Included by `urlpattern.h`, which says what a caller guarantees.
 *
 * Patterns that are compared with each other: whether they are the same, cover each other, or
 * overlap. */
#include "urlpattern.h"

#ifndef URLPATTERN_COMPARING_H
#define URLPATTERN_COMPARING_H

#ifdef __cplusplus
extern "C" {
#endif

/* Whether two patterns of the handle are the same: each component has the same parts, the same
 * names of groups and the same options in both, however the patterns were written. The same
 * patterns match the same URLs with the same captures; that is proved unless one ignores case and
 * has a custom regular expression.
 * DONE (they are), NO_MATCH (they are not), or NO_PATTERN (of one of the two indices). */
urlpattern_status urlpattern_is_same_within(urlpattern_list *patterns, size_t index, size_t other);

/* Does what `urlpattern_is_same_within` does, with a pattern of another handle. The caller
 * passes two handles, not one twice. */
urlpattern_status urlpattern_is_same_between(urlpattern_list *patterns, size_t index,
                                             urlpattern_list *others, size_t other);

/* Calls `urlpattern_is_same_within` if the handles are one, or else
 * `urlpattern_is_same_between`. */
static inline urlpattern_status urlpattern_is_same(urlpattern_list *patterns, size_t index,
                                                   urlpattern_list *others, size_t other) {
    return patterns == others ? urlpattern_is_same_within(patterns, index, other)
                              : urlpattern_is_same_between(patterns, index, others, other);
}

/* Whether the pattern of this index covers the asked one, another pattern of the handle or the
 * same: whether it matches each URL that the asked one matches. `component` is the number of a
 * component, or URLPATTERN_NO_COMPONENT.
 * DONE (it covers it), NO_MATCH (it does not: it does not match a text of this component that
 * the asked one matches), UNKNOWN (because of this component, where no other one decides: it has
 * a custom regular expression that is not simple, or that ignores case, or would take too many
 * steps to compare), OUT_OF_MEMORY, or NO_PATTERN (of one of the two indices). But for NO_MATCH and
 * UNKNOWN `component` is URLPATTERN_NO_COMPONENT. */
urlpattern_status urlpattern_covers_within(urlpattern_list *patterns, size_t index, size_t asked,
                                           urlpattern_component_number *component);

/* Does what `urlpattern_covers_within` does, with an asked pattern of another handle. The caller
 * passes two handles, not one twice: each is taken for the time of the call, and what the call
 * does with one that is taken twice is not known. */
urlpattern_status urlpattern_covers_between(urlpattern_list *patterns, size_t index,
                                            urlpattern_list *others, size_t asked,
                                            urlpattern_component_number *component);

/* Calls `urlpattern_covers_within` if the handles are one, or else `urlpattern_covers_between`.
 * The library has no function of this name: this one is the header's. */
static inline urlpattern_status urlpattern_covers(urlpattern_list *patterns, size_t index,
                                                  urlpattern_list *others, size_t asked,
                                                  urlpattern_component_number *component) {
    return patterns == others
        ? urlpattern_covers_within(patterns, index, asked, component)
        : urlpattern_covers_between(patterns, index, others, asked, component);
}

/* Why it is not known whether a pattern covers another one, as a `uint32_t`. */
enum urlpattern_covering_reason_number {
    URLPATTERN_CUSTOM_EXPRESSION = 1, /* a component has a custom expression that is not simple */
    URLPATTERN_IGNORED_CASE = 2,      /* a component has a custom expression, and ignores case */
    URLPATTERN_TOO_MANY = 3,          /* it would take too many steps to compare them */
    URLPATTERN_NO_PARTS = 4           /* a pattern was put together by hand, as none here is */
};

/* Writes why `urlpattern_covers` reports UNKNOWN of two patterns of the handle.
 * DONE (it does so), NO_MATCH (it does not, since it is known), OUT_OF_MEMORY, or NO_PATTERN (of
 * one of the two indices); but for DONE, `reason` is as it was. */
urlpattern_status urlpattern_covering_reason_within(urlpattern_list *patterns, size_t index,
                                                    size_t asked, uint32_t *reason);

/* Does what `urlpattern_covering_reason_within` does, with an asked pattern of another handle.
 * The caller passes two handles, not one twice. */
urlpattern_status urlpattern_covering_reason_between(urlpattern_list *patterns, size_t index,
                                                     urlpattern_list *others, size_t asked,
                                                     uint32_t *reason);

/* Calls `urlpattern_covering_reason_within` if the handles are one, or else
 * `urlpattern_covering_reason_between`. */
static inline urlpattern_status urlpattern_covering_reason(urlpattern_list *patterns, size_t index,
                                                           urlpattern_list *others, size_t asked,
                                                           uint32_t *reason) {
    return patterns == others
        ? urlpattern_covering_reason_within(patterns, index, asked, reason)
        : urlpattern_covering_reason_between(patterns, index, others, asked, reason);
}

/* Writes texts that the asked pattern matches, another pattern of the handle, and the pattern of
 * this index does not, as an init in JSON: in the component that `urlpattern_covers` writes, the
 * one matches the text and the other does not. A component of which no text is known is left out:
 * the asked pattern may match none. The init has at most 1,048,576 bytes.
 * DONE, NO_MATCH (there are none: the pattern covers the asked one), UNKNOWN (as of
 * `urlpattern_covers`), OUT_OF_MEMORY, NO_PATTERN (of one of the two indices), or TOO_SMALL. */
urlpattern_status urlpattern_counterexample_within(urlpattern_list *patterns, size_t index,
                                                   size_t asked, char *buffer, size_t room,
                                                   size_t *needed);

/* Does what `urlpattern_counterexample_within` does, with an asked pattern of another handle.
 * The caller passes two handles, not one twice. */
urlpattern_status urlpattern_counterexample_between(urlpattern_list *patterns, size_t index,
                                                    urlpattern_list *others, size_t asked,
                                                    char *buffer, size_t room, size_t *needed);

/* Whether two patterns of the handle overlap: whether there are texts that both match. Writes such
 * texts, as an init in JSON of at most 1,048,576 bytes. A component that is the same in both is
 * left out where no text is known that it matches: it may match none, as `([^\s\S])` does, and
 * then the patterns overlap in the others alone.
 * DONE (they overlap), NO_MATCH (there are no such texts), UNKNOWN (because of a component, where
 * no other one decides), OUT_OF_MEMORY, NO_PATTERN (of one of the two indices), or TOO_SMALL (they
 * overlap, and there is no room for the texts). */
urlpattern_status urlpattern_overlaps_within(urlpattern_list *patterns, size_t index, size_t other,
                                             char *buffer, size_t room, size_t *needed);

/* Does what `urlpattern_overlaps_within` does, with a pattern of another handle. The caller
 * passes two handles, not one twice. */
urlpattern_status urlpattern_overlaps_between(urlpattern_list *patterns, size_t index,
                                              urlpattern_list *others, size_t other, char *buffer,
                                              size_t room, size_t *needed);

/* Whether each pattern of the handle is the first match of some texts. Writes an array in JSON with
 * an element for each pattern, in order: an init with texts that the pattern matches and none
 * before it does; or an array of the indices of earlier patterns that cover it together, none of
 * which can be left out, so that it is the first match of no URL; or null if neither is known, as
 * where a pattern has a custom regular expression that is not simple.
 * DONE, OUT_OF_MEMORY, NO_PATTERN (the handle has none), or TOO_SMALL. */
urlpattern_status urlpattern_reach_of_each(urlpattern_list *patterns, char *buffer, size_t room,
                                           size_t *needed);

#ifdef __cplusplus
}
#endif

#endif
