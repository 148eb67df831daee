/* URL patterns, as those of browsers: texts such as "https://example.com/users/:id" that say
 * which URLs are meant, and name their pieces. The functions are those of the library
 * `urlpattern`, whose answers are proved.
 *
 * A caller guarantees:
 *
 * - Each text is a pointer and a number of bytes that may be read there; so are groups that are
 *   given, a pointer and a number of elements. A buffer leads to as many bytes, and an array to
 *   as many elements, as its size says, which may be written. Each of these pointers may be null
 *   if its size is 0: the text is then empty.
 * - Each other pointer leads to a value of its type that may be written, and that nothing else
 *   uses during the call. No two arguments overlap, but for texts and for the two handles of the
 *   header's own functions, such as `urlpattern_covers`.
 * - A handle holds zeros (`URLPATTERN_EMPTY`) before its first call. After that only these
 *   functions write it, and it is not copied: `urlpattern_share` makes another handle, as
 *   `urlpattern_router_share` and `urlpattern_policy_share` do.
 * - One call at a time has a handle. Another thread may make the next one, if the program orders
 *   the two: by a lock, by the start or the end of a thread, or by an atomic.
 * - `malloc`, `realloc` and `free` come from one allocator, may be called from each thread that
 *   calls these functions, and align a block to each power of two up to 16 that divides its size.
 * - No call is made from a signal handler, nor from the forked child of a process with threads.
 *
 * No function keeps a pointer that it was given, but for the handle's own memory. None has global
 * state, prints anything or ends the program.
 *
 * Threads. To match in several threads at once, give each a handle of its own to the same
 * patterns, by `urlpattern_share`. Each handle is freed by itself, in any order and by any
 * thread, and the last one frees the patterns.
 *
 * Rules. A program that permits what matches does so for DONE alone, which is not 0, so that a
 * variable of zeros permits nothing. A program that denies what matches permits the rest for
 * NO_MATCH alone: the text is a URL, a path or an init, and is not matched. No other status says
 * so. NO_MATCH is 0: there a status that was never written permits everything.
 *
 * Base URLs. A base URL does not tie a URL to its host. Under `https://example.com/` the text
 * `//other.com/x` is the URL `https://other.com/x`, also with backslashes, and an absolute URL is
 * itself. What comes as the path of a request is matched as a path, by
 * `urlpattern_captures_of_path` or `urlpattern_first_captures_of_path`.
 *
 * Bytes. A URL, a base URL, a path, a pattern or JSON that is not UTF-8 gets NOT_UTF8; NO_PATTERN
 * and TOO_LONG come before that. Which status such bytes get is tested, not proved. The text of
 * `urlpattern_link` need not be UTF-8, but each part of it that is given has to be, or the status
 * is NO_PATTERN.
 *
 * Buffers. A text is written to the start of a buffer, without a byte 0 after it, and the rest of
 * the buffer is as it was; `needed` is how many bytes the text has. For TOO_SMALL `needed` is
 * that too, and the buffer is as it was. For each other status the buffer is as it was, and
 * `needed` is unspecified. So it is of each call but those that write captures: for TOO_SMALL
 * their buffer and array are unspecified, but nothing is written past the sizes. (That holds for
 * OUT_OF_MEMORY too, if the captures have 2^64 bytes or more, and `index` is then the match's.)
 */
#ifndef URLPATTERN_H
#define URLPATTERN_H

#include <stdbool.h>
#include <stddef.h>
#include <stdint.h>

#ifdef __cplusplus
extern "C" {
#endif

/* The version of this header: 1,000 times the first number, and the second. */
#define URLPATTERN_VERSION 2000

/* The version of the library, written as that of the header. A library of another first number has
 * other statuses, and its handles are not those of this header. */
uint32_t urlpattern_version(void);

/* What a call reports. */
typedef enum urlpattern_status {
    URLPATTERN_NO_MATCH = 0,      /* no match */
    URLPATTERN_DONE = 1,          /* it is done; of a match: there is one */
    URLPATTERN_NO_URL = 2,        /* a text or an init is no URL, or its base is none */
    URLPATTERN_NO_PATH = 3,       /* a text is no path: it does not begin with `/`, or has a `?`, a
                                   * `#` or a line feed */
    URLPATTERN_TOO_LONG = 4,      /* a URL, its base or an init has 16 MB (2^24 bytes) or more */
    URLPATTERN_NOT_UTF8 = 5,      /* a text is not UTF-8 */
    URLPATTERN_REFUSED = 6,       /* a pattern is refused, or JSON is no init; of
                                   * `urlpattern_link` and `urlpattern_generate`: there is no
                                   * text, and the reason is written; or static routes have
                                   * faults */
    URLPATTERN_OUT_OF_MEMORY = 7, /* memory ran out; the patterns are as they were, static routes
                                   * that were to be read are gone */
    URLPATTERN_NO_PATTERN = 8,    /* no pattern, rule or fault of this index, no component or group
                                   * of a number;
                                   * of `urlpattern_link` and `urlpattern_generate` also: a part
                                   * that is given is no text */
    URLPATTERN_TOO_SMALL = 9,     /* too little room; `needed` has the size that is needed */
    URLPATTERN_UNKNOWN = 10,      /* a comparison of two patterns is not decided */
    URLPATTERN_SHARED = 11,       /* another handle has the same patterns, so that none is added */
    URLPATTERN_NOT_ALLOWED = 12,  /* of a router: a route matches, but none serves the method */
    URLPATTERN_NAME_TAKEN = 14,   /* of a router: another route has the name, so none is added */
    URLPATTERN_NOT_A_METHOD = 15  /* of a router: a method is no token of HTTP, or there is a name
                                   * without a method, so no route is added */
} urlpattern_status;

/* The number of a component. */
typedef enum urlpattern_component_number {
    URLPATTERN_PROTOCOL = 0,
    URLPATTERN_USERNAME = 1,
    URLPATTERN_PASSWORD = 2,
    URLPATTERN_HOSTNAME = 3,
    URLPATTERN_PORT = 4,
    URLPATTERN_PATHNAME = 5,
    URLPATTERN_SEARCH = 6,
    URLPATTERN_HASH = 7,
    URLPATTERN_NO_COMPONENT = 8 /* is written where there is no component to name */
} urlpattern_component_number;

/* A handle: patterns in their order, as the routes of a router, each named by its index from 0
 * on. One pattern is a list of one. */
typedef struct urlpattern_list {
    uint32_t made_by; /* the version of the library, if the handle has patterns */
    void *at;
} urlpattern_list;

/* What a handle is before its first call, and after it is freed. It has no pattern, and no
 * memory. A handle that a library of another version made counts as empty too. */
#define URLPATTERN_EMPTY { 0, NULL }

/* Compiles a constructor string, and appends the pattern. The base URL is what the string
 * inherits from; no bytes: there is none. With `ignore_case` the path, the query and the fragment
 * are matched without regard to the case of ASCII letters.
 * DONE, NOT_UTF8, REFUSED (`urlpattern_diagnose` says why), OUT_OF_MEMORY, or SHARED; but for
 * DONE, the patterns are as they were. */
urlpattern_status urlpattern_add(urlpattern_list *patterns, const char *text, size_t length,
                                 const char *base, size_t base_length, bool ignore_case);

/* Compiles an init, and appends the pattern. The init is an object of JSON with some of
 * `protocol`, `username`, `password`, `hostname`, `port`, `pathname`, `search`, `hash` and
 * `baseURL`, each a text or null, as browsers take it: any other key is passed over, so that
 * `{"path":"/x"}` is the pattern that matches every URL.
 * DONE, NOT_UTF8, REFUSED (`urlpattern_diagnose_init` says why, unless the JSON is no such
 * object or the base URL is refused), OUT_OF_MEMORY, or SHARED; but for DONE, the patterns are as
 * they were. */
urlpattern_status urlpattern_add_init(urlpattern_list *patterns, const char *json, size_t length,
                                      bool ignore_case);

/* Frees the patterns, unless another handle has them. The handle is empty again, so that it may be
 * used, or freed once more. */
void urlpattern_free(urlpattern_list *patterns);

/* Gives another handle the same patterns, in the memory that they have. What the other one had is
 * freed, also if there are no patterns to give. As long as both have them, none is added to either,
 * and each frees them by itself. The caller passes two handles, not one twice.
 * DONE, or OUT_OF_MEMORY: both handles are as they were. */
urlpattern_status urlpattern_share(urlpattern_list *patterns, urlpattern_list *other);

/* Whether the pattern of this index matches a URL, which may be relative to a base URL; no
 * bytes: there is none.
 * DONE (a match), NO_MATCH, NO_URL, TOO_LONG, NOT_UTF8, OUT_OF_MEMORY, or NO_PATTERN. */
urlpattern_status urlpattern_test(urlpattern_list *patterns, size_t index, const char *url,
                                  size_t length, const char *base, size_t base_length);

/* Finds the first pattern that matches a URL, and writes its index.
 * DONE, NO_MATCH, NO_URL, TOO_LONG, NOT_UTF8, OUT_OF_MEMORY, or NO_PATTERN (none is there); but
 * for DONE, `index` is as it was. */
urlpattern_status urlpattern_first(urlpattern_list *patterns, const char *url, size_t length,
                                   const char *base, size_t base_length, size_t *index);

/* Whether the pattern of this index matches a URL, and if not, which component is the first that
 * does not: `component` is its number.
 * DONE (a match), NO_MATCH, NO_URL, TOO_LONG, NOT_UTF8, OUT_OF_MEMORY, or NO_PATTERN. But for
 * NO_MATCH the component is URLPATTERN_NO_COMPONENT. */
urlpattern_status urlpattern_mismatch(urlpattern_list *patterns, size_t index, const char *url,
                                      size_t length, const char *base, size_t base_length,
                                      urlpattern_component_number *component);

/* Writes the match of a URL as JSON, in the shape of a browser's `exec`: an object with `input`
 * and `groups` of each component. A group that took no part is null. There is no white space
 * between tokens.
 * DONE, NO_MATCH, NO_URL, TOO_LONG, NOT_UTF8, OUT_OF_MEMORY, NO_PATTERN, or TOO_SMALL. */
urlpattern_status urlpattern_exec(urlpattern_list *patterns, size_t index, const char *url,
                                  size_t length, const char *base, size_t base_length, char *buffer,
                                  size_t room, size_t *needed);

/* Where the text of a group lies in a text that is written. */
typedef struct urlpattern_span {
    urlpattern_component_number component;
    uint32_t took_part; /* 1: the group took part in the match; 0: it did not, and has no bytes */
    size_t group;       /* the number of the group in its component, from 0 on, as of
                         * `urlpattern_group_name` */
    size_t start;       /* the byte at which its text begins */
    size_t length;      /* how many bytes its text has */
} urlpattern_span;

/* How much a match takes. */
typedef struct urlpattern_sizes {
    size_t bytes; /* of its text */
    size_t spans;
} urlpattern_sizes;

/* Writes what the groups of the pattern of this index capture of a URL: to the buffer the text of
 * each, one after the other, and to the array a span for each, component by component in the
 * order of their numbers. The rest of both is as it was.
 * DONE, NO_MATCH, NO_URL, TOO_LONG, NOT_UTF8, OUT_OF_MEMORY, NO_PATTERN, or TOO_SMALL (the buffer
 * or the array is). For DONE and TOO_SMALL `needed` is how many bytes and spans there are; for
 * the others it is unspecified. For TOO_SMALL anything may be in the buffer and in the array,
 * though nothing is written past their sizes; for the others they are as they were. */
urlpattern_status urlpattern_captures(urlpattern_list *patterns, size_t index, const char *url,
                                      size_t length, const char *base, size_t base_length,
                                      char *buffer, size_t room, urlpattern_span *spans,
                                      size_t span_room, urlpattern_sizes *needed);

/* Finds the first pattern that matches a URL, and writes its index, and its groups as
 * `urlpattern_captures` does.
 * DONE, NO_MATCH, NO_URL, TOO_LONG, NOT_UTF8, OUT_OF_MEMORY, NO_PATTERN (none is there), or
 * TOO_SMALL. For DONE and TOO_SMALL `index` is written; for the others it is as it was.
 * The buffer, the array and `needed` are as `urlpattern_captures` leaves them. */
urlpattern_status urlpattern_first_captures(urlpattern_list *patterns, const char *url,
                                            size_t length, const char *base, size_t base_length,
                                            size_t *index, char *buffer, size_t room,
                                            urlpattern_span *spans, size_t span_room,
                                            urlpattern_sizes *needed);

/* Matches a path by itself, as the path of a request before its `?`: all other components are
 * empty, so that a pattern for paths leaves them open, as `{"pathname":"/users/:id"}` does, and a
 * pattern with a protocol or a host never matches. The path has no host, whatever it looks like,
 * and is not made canonical as the pattern is: `/a/../b` and `/%61` are matched as they are, and
 * `/%C3%A9` alone is matched by the pattern `/é`. Writes what the groups of the pattern of this
 * index capture, as `urlpattern_captures` does.
 * DONE, NO_MATCH, NO_PATH, NOT_UTF8, OUT_OF_MEMORY, NO_PATTERN, or TOO_SMALL. */
urlpattern_status urlpattern_captures_of_path(urlpattern_list *patterns, size_t index,
                                              const char *path, size_t length, char *buffer,
                                              size_t room, urlpattern_span *spans, size_t span_room,
                                              urlpattern_sizes *needed);

/* Finds the first pattern that matches a path by itself, as `urlpattern_captures_of_path` matches
 * it, and writes its index, and its groups as `urlpattern_first_captures` does.
 * DONE, NO_MATCH, NO_PATH, NOT_UTF8, OUT_OF_MEMORY, NO_PATTERN (none is there), or TOO_SMALL. */
urlpattern_status urlpattern_first_captures_of_path(urlpattern_list *patterns, const char *path,
                                                    size_t length, size_t *index, char *buffer,
                                                    size_t room, urlpattern_span *spans,
                                                    size_t span_room, urlpattern_sizes *needed);

/* A part of a text, in bytes. */
typedef struct urlpattern_part {
    size_t start;
    size_t length;
} urlpattern_part;

/* A part of one text for each component: a protocol without its `:`, a search without its `?`, a
 * hash without its `#`, and a port that is empty if it is the default one. */
typedef struct urlpattern_parts {
    urlpattern_part protocol, username, password, hostname, port, pathname, search, hash;
} urlpattern_parts;

/* Matches eight texts, which a program has cut out of a URL itself, and which are not made
 * canonical. Writes what the groups of the pattern of this index capture, as `urlpattern_captures`
 * does.
 * DONE, NO_MATCH, NOT_UTF8 (a part lies outside of the text, or is not UTF-8), OUT_OF_MEMORY,
 * NO_PATTERN, or TOO_SMALL. */
urlpattern_status urlpattern_captures_of_texts(urlpattern_list *patterns, size_t index,
                                               const char *text, size_t length,
                                               const urlpattern_parts *parts, char *buffer,
                                               size_t room, urlpattern_span *spans,
                                               size_t span_room, urlpattern_sizes *needed);

/* Finds the first pattern that matches eight texts, as `urlpattern_captures_of_texts` matches them,
 * and writes its index, and its groups as `urlpattern_first_captures` does.
 * DONE, NO_MATCH, NOT_UTF8 (a part lies outside of the text, or is not UTF-8), OUT_OF_MEMORY,
 * NO_PATTERN (none is there), or TOO_SMALL. */
urlpattern_status urlpattern_first_captures_of_texts(urlpattern_list *patterns, const char *text,
                                                     size_t length, const urlpattern_parts *parts,
                                                     size_t *index, char *buffer, size_t room,
                                                     urlpattern_span *spans, size_t span_room,
                                                     urlpattern_sizes *needed);

/* Matches an init, as browsers match what they are given as an object: an object of JSON as
 * `urlpattern_add_init` reads it, whose texts are made canonical as those of a URL are. What it
 * leaves out is inherited from its `baseURL`, or else empty. Writes what the groups of the pattern
 * of this index capture, as `urlpattern_captures` does.
 * DONE, NO_MATCH, NO_URL (a text of the init or its base URL is refused), TOO_LONG (the JSON has 16
 * MB or more), NOT_UTF8, REFUSED (the JSON is no init), OUT_OF_MEMORY, NO_PATTERN, or TOO_SMALL. */
urlpattern_status urlpattern_captures_of_init(urlpattern_list *patterns, size_t index,
                                              const char *json, size_t length, char *buffer,
                                              size_t room, urlpattern_span *spans, size_t span_room,
                                              urlpattern_sizes *needed);

/* Finds the first pattern that matches an init, as `urlpattern_captures_of_init` matches it, and
 * writes its index, and its groups as `urlpattern_first_captures` does.
 * DONE, NO_MATCH, NO_URL, TOO_LONG, NOT_UTF8, REFUSED (the JSON is no init), OUT_OF_MEMORY,
 * NO_PATTERN (none is there), or TOO_SMALL. */
urlpattern_status urlpattern_first_captures_of_init(urlpattern_list *patterns, const char *json,
                                                    size_t length, size_t *index, char *buffer,
                                                    size_t room, urlpattern_span *spans,
                                                    size_t span_room, urlpattern_sizes *needed);

/* Writes the match of an init, as `urlpattern_captures_of_init` matches it, in the JSON of
 * `urlpattern_exec`.
 * DONE, NO_MATCH, NO_URL, TOO_LONG, NOT_UTF8, REFUSED (the JSON is no init), OUT_OF_MEMORY,
 * NO_PATTERN, or TOO_SMALL. */
urlpattern_status urlpattern_exec_of_init(urlpattern_list *patterns, size_t index, const char *json,
                                          size_t length, char *buffer, size_t room, size_t *needed);

/* What is given for a group: its name and a text for it, which are parts of one text. */
typedef struct urlpattern_given {
    urlpattern_component_number component;
    size_t name_start;  /* the byte at which the name of the group begins */
    size_t name_length; /* how many bytes the name has */
    size_t start;       /* the byte at which the text for the group begins */
    size_t length;      /* how many bytes it has */
} urlpattern_given;

/* Writes the link of the pattern of this index with these groups, a URL that it matches with them,
 * or why there is none.
 * A name has to be given, unless it is optional; a wildcard that is not given is empty. What is
 * given for a group that the pattern has not is ignored. Texts are made canonical, and a match of
 * the URL captures what they are then. A fixed text that may be missing or repeated is written as
 * few times as possible, so that `{/}?:x` has no link with `a` for `x`, although it matches
 * `https://example.com/a`; the reason names the component.
 * DONE (the URL is written), REFUSED (the pattern has no link with these groups, and the reason
 * is written), OUT_OF_MEMORY, NO_PATTERN (also where there is no component of a number, or a
 * part lies outside of the text or is not UTF-8, as one that cuts a character; that comes before
 * OUT_OF_MEMORY), or TOO_SMALL (there is no room for the URL, or for the reason, and `needed`
 * does not say for which). */
urlpattern_status urlpattern_link(urlpattern_list *patterns, size_t index, const char *text,
                                  size_t length, const urlpattern_given *given, size_t count,
                                  char *buffer, size_t room, size_t *needed);

/* Writes the text of a component of the pattern of this index with these groups, as
 * `urlpattern_link` writes a whole URL, or why there is none. What is given for groups of other
 * components is ignored.
 * DONE (the text is written), REFUSED (the component has no text with these groups, and the reason
 * is written), OUT_OF_MEMORY, NO_PATTERN (also as of `urlpattern_link`), or TOO_SMALL (there is no
 * room for the text, or for the reason). */
urlpattern_status urlpattern_generate(urlpattern_list *patterns, size_t index,
                                      urlpattern_component_number component, const char *text,
                                      size_t length, const urlpattern_given *given, size_t count,
                                      char *buffer, size_t room, size_t *needed);

/* Writes the name of a group, by its number in a component: a group that has none in the pattern
 * is named by a number of its own.
 * DONE, NO_PATTERN, or TOO_SMALL. */
urlpattern_status urlpattern_group_name(urlpattern_list *patterns, size_t index,
                                        urlpattern_component_number component, size_t group,
                                        char *buffer, size_t room, size_t *needed);

/* Writes the pattern text of a component, by its number.
 * DONE, NO_PATTERN, or TOO_SMALL. */
urlpattern_status urlpattern_component(urlpattern_list *patterns, size_t index,
                                       urlpattern_component_number component, char *buffer,
                                       size_t room, size_t *needed);

/* Writes the pattern of this index as one text, a constructor string that `urlpattern_add` compiles
 * to the same pattern, as `urlpattern_is_same` says, without a base URL and with the `ignore_case`
 * that the pattern was compiled with. What may be left out is.
 * DONE, NO_MATCH (the pattern has no such text, as `{"pathname":"a*"}` has none), OUT_OF_MEMORY,
 * NO_PATTERN, or TOO_SMALL. */
urlpattern_status urlpattern_text(urlpattern_list *patterns, size_t index, char *buffer,
                                  size_t room, size_t *needed);

/* Whether the pattern of this index has a custom regular expression, as `hasRegExpGroups` of a
 * browser.
 * DONE (it has one), NO_MATCH (it has none), or NO_PATTERN. */
urlpattern_status urlpattern_has_regexp_groups(urlpattern_list *patterns, size_t index);

/* Whether each component of the pattern of this index has a meaning, so that the text of the
 * pattern alone says which URLs it matches, and what its groups capture. For that each of its
 * custom regular expressions is simple, as `\d+`, `en|fr` and `[^/]+` are: of ASCII characters,
 * without an assertion as `^`, `$` or `\b`, without a flag, and without a group that captures. A
 * program that accepts patterns of others may refuse the rest, of which less is promised.
 * DONE (each has one), NO_MATCH (not each has one), OUT_OF_MEMORY, or NO_PATTERN. */
urlpattern_status urlpattern_has_meaning(urlpattern_list *patterns, size_t index);

#ifdef __cplusplus
}
#endif

#include "urlpattern_comparing.h"
#include "urlpattern_diagnosing.h"
#include "urlpattern_policy.h"
#include "urlpattern_router.h"
#include "urlpattern_static_routes.h"

#include "urlpattern_nulls.h"
#include "urlpattern_router_nulls.h"

#endif
