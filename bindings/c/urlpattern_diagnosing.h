/* Included by `urlpattern.h`, which says what a caller guarantees.
 *
 * Why a pattern is refused, and the part of its text that is at fault. */
#include "urlpattern.h"

#ifndef URLPATTERN_DIAGNOSING_H
#define URLPATTERN_DIAGNOSING_H

#ifdef __cplusplus
extern "C" {
#endif

/* Which text a place lies in, as a `uint32_t`. */
enum urlpattern_subject {
    URLPATTERN_IN_PATTERN = 0,  /* the pattern's text */
    URLPATTERN_IN_BASE = 1,     /* the base URL */
    URLPATTERN_IN_COMPONENT = 2 /* of an init: 2 and the number of the component, added */
};

/* The part of a text that is at fault, in bytes: `start` is at most `end`, and `end` at most the
 * length of the text. */
typedef struct urlpattern_place {
    uint32_t subject; /* URLPATTERN_IN_PATTERN or URLPATTERN_IN_BASE; of an init: also
                       * URLPATTERN_IN_COMPONENT + the number of the component whose text it is,
                       * or URLPATTERN_IN_PATTERN for the init as a whole, with no part */
    size_t start;
    size_t end;
} urlpattern_place;

/* Writes why `urlpattern_add` refuses these texts, and the place that is at fault. The reason has
 * at most 1,024 bytes and 16 for each byte of the two texts.
 * DONE, NO_MATCH (they are accepted), NOT_UTF8, OUT_OF_MEMORY, or TOO_SMALL. For DONE and
 * TOO_SMALL `place` is written; for the others nothing is promised of it. */
urlpattern_status urlpattern_diagnose(const char *text, size_t length, const char *base,
                                      size_t base_length, bool ignore_case, char *buffer,
                                      size_t room, size_t *needed, urlpattern_place *place);

/* Writes why `urlpattern_add_init` refuses an init, and the place that is at fault in one of its
 * texts; or, if the component at fault is inherited, since the init has no text for it, in what is
 * inherited. The reason has at most 1,024 bytes and 16 for each byte of the JSON.
 * DONE, NO_MATCH (it is accepted), NOT_UTF8, REFUSED (the JSON is no init, or the base URL is
 * refused, and no reason is written), OUT_OF_MEMORY, or TOO_SMALL, with `place` as of
 * `urlpattern_diagnose`. */
urlpattern_status urlpattern_diagnose_init(const char *json, size_t length, bool ignore_case,
                                           char *buffer, size_t room, size_t *needed,
                                           urlpattern_place *place);

#ifdef __cplusplus
}
#endif

#endif
