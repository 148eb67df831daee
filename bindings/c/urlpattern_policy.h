/* Included by `urlpattern.h`, which says what a caller guarantees.
 *
 * Policies: rules in their order, each of which allows or denies the URLs that its pattern matches.
 * The first rule that matches decides. What is in doubt is denied. */
#include "urlpattern.h"

#ifndef URLPATTERN_POLICY_H
#define URLPATTERN_POLICY_H

#ifdef __cplusplus
extern "C" {
#endif

/* A handle to a policy. It is made, moved, shared and freed as that of patterns is. An empty one
 * denies every URL. */
typedef struct urlpattern_policy {
    uint32_t made_by; /* the version of the library and 2,000,000, if the handle has a policy */
    void *at;
} urlpattern_policy;

/* What a policy decides. ALLOW alone allows; a variable of zeros denies. */
typedef enum urlpattern_decision {
    URLPATTERN_DENY = 0,               /* a rule denies the URL, or none matches */
    URLPATTERN_ALLOW = 1,              /* a rule allows the URL, or the default does */
    URLPATTERN_DENY_NO_URL = 2,        /* the text is no URL, or its base is none */
    URLPATTERN_DENY_TOO_LONG = 4,      /* the text or its base has 16 MB (2^24 bytes) or more */
    URLPATTERN_DENY_NOT_UTF8 = 5,      /* the text or its base is not UTF-8 */
    URLPATTERN_DENY_OUT_OF_MEMORY = 7, /* memory ran out */
    URLPATTERN_DENY_CREDENTIALS = 13   /* the URL has a user name or a password */
} urlpattern_decision;

/* What is written in place of an index where no rule decides. */
#define URLPATTERN_NO_RULE SIZE_MAX

/* Compiles a constructor string, as `urlpattern_add` does, and appends a rule that allows the URLs
 * that the pattern matches, or denies them.
 * DONE, NOT_UTF8, REFUSED (`urlpattern_diagnose` says why), OUT_OF_MEMORY, or SHARED; but for DONE,
 * the policy is as it was. */
urlpattern_status urlpattern_policy_add(urlpattern_policy *policy, bool allows, const char *text,
                                        size_t length, const char *base, size_t base_length,
                                        bool ignore_case);

/* Compiles an init, as `urlpattern_add_init` does, and appends a rule, as `urlpattern_policy_add`
 * does.
 * DONE, NOT_UTF8, REFUSED, OUT_OF_MEMORY, or SHARED; but for DONE, the policy is as it was. */
urlpattern_status urlpattern_policy_add_init(urlpattern_policy *policy, bool allows,
                                             const char *json, size_t length, bool ignore_case);

/* Sets what the policy decides apart from its rules: whether it allows a URL that no rule matches
 * (at first it does not); whether it brings a URL to its plain spelling before it is matched (at
 * first it does), so that `/%61dmin` is matched as `/admin` is; and whether it denies a URL with a
 * user name or a password, whatever the rules say (at first it does not).
 * The plain spelling decodes escapes of letters, digits and `-._~` outside the host, writes other
 * escapes in capitals, joins empty segments of a path, drops dots at the end of a host, and reads a
 * host of any scheme as under `http`. It does not undo escapes of other characters (`%2F`, or the
 * `%25` of `%2569`) and case in paths, and `/a//../b` is `/a/b`, not `/b`. Patterns are written in
 * it too: `/%7Ea` matches no URL.
 * DONE, OUT_OF_MEMORY, or SHARED; but for DONE, the policy is as it was. */
urlpattern_status urlpattern_policy_set_options(urlpattern_policy *policy, bool default_allows,
                                                bool plain_spelling, bool denies_credentials);

/* Frees the policy, unless another handle has it. The handle is empty again, so that it may be
 * used, or freed once more. */
void urlpattern_policy_free(urlpattern_policy *policy);

/* Gives another handle the same policy, as `urlpattern_share` gives patterns. The caller passes
 * two handles, not one twice. Without rules only options are copied, and each may be added to.
 * DONE, or OUT_OF_MEMORY: both handles are as they were. */
urlpattern_status urlpattern_policy_share(urlpattern_policy *policy, urlpattern_policy *other);

/* Decides about a URL, which may be relative to a base URL; no bytes: there is none. Writes the
 * index of the rule that decides, or URLPATTERN_NO_RULE. */
urlpattern_decision urlpattern_policy_decide(urlpattern_policy *policy, const char *url,
                                             size_t length, const char *base, size_t base_length,
                                             size_t *rule);

/* Null pointers, as `urlpattern_nulls.h` has them. */
static inline urlpattern_status urlpattern_policy_add_(urlpattern_policy *policy, bool allows,
                                                       const char *text, size_t length,
                                                       const char *base, size_t base_length,
                                                       bool ignore_case) {
    return urlpattern_policy_add(policy, allows, text ? text : "", length, base ? base : "",
                                 base_length, ignore_case);
}

static inline urlpattern_status urlpattern_policy_add_init_(urlpattern_policy *policy, bool allows,
                                                            const char *json, size_t length,
                                                            bool ignore_case) {
    return urlpattern_policy_add_init(policy, allows, json ? json : "", length, ignore_case);
}

static inline urlpattern_decision urlpattern_policy_decide_(urlpattern_policy *policy,
                                                            const char *url, size_t length,
                                                            const char *base, size_t base_length,
                                                            size_t *rule) {
    size_t unused;
    return urlpattern_policy_decide(policy, url ? url : "", length, base ? base : "", base_length,
                                    rule ? rule : &unused);
}

#define urlpattern_policy_add urlpattern_policy_add_
#define urlpattern_policy_add_init urlpattern_policy_add_init_
#define urlpattern_policy_decide urlpattern_policy_decide_

#ifdef __cplusplus
}
#endif

#endif
