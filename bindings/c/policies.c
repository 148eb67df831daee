/* Policies: asks for decisions. The last line counts the answers that are right, and the others. */
#include "urlpattern.h"

#include <stdio.h>
#include <string.h>

static urlpattern_policy policy = URLPATTERN_EMPTY, other = URLPATTERN_EMPTY;
static int passed, failed;

/* Counts an answer. */
static void expect(bool is_right, const char *what) {
    passed += is_right;
    failed += !is_right;
    if (!is_right) {
        printf("policies: wrong: %s\n", what);
    }
}

static urlpattern_status add(bool allows, const char *pattern) {
    return urlpattern_policy_add(&policy, allows, pattern, strlen(pattern), NULL, 0, false);
}

static void decide(urlpattern_policy *by, const char *url, const char *base, urlpattern_decision wanted, size_t rule) {
    size_t found = 99;
    expect(urlpattern_policy_decide(by, url, strlen(url), base, base ? strlen(base) : 0, &found) == wanted, url);
    expect(found == rule, url);
}

static void try_rules(void) {
    static const char init[] = "{\"hostname\":\"example.com\",\"pathname\":\"/docs/*\"}";
    decide(&policy, "https://example.com/docs/a", NULL, URLPATTERN_DENY, URLPATTERN_NO_RULE);
    expect(add(false, "https://example.com/docs/private/*") == URLPATTERN_DONE, "a rule that denies");
    expect(urlpattern_policy_add_init(&policy, true, init, sizeof init - 1, false) == URLPATTERN_DONE, "a rule that allows");
    expect(add(true, "https://example.com/{") == URLPATTERN_REFUSED, "a pattern that is refused");
    expect(add(true, "\xff") == URLPATTERN_NOT_UTF8, "a pattern that is not UTF-8");
    decide(&policy, "https://example.com/docs/a", NULL, URLPATTERN_ALLOW, 1);
    decide(&policy, "https://example.com/docs/private/a", NULL, URLPATTERN_DENY, 0);
    decide(&policy, "https://example.com/docs/%70rivate/a", NULL, URLPATTERN_DENY, 0);
    decide(&policy, "https://other.com/docs/a", NULL, URLPATTERN_DENY, URLPATTERN_NO_RULE);
    decide(&policy, "a", "https://example.com/docs/", URLPATTERN_ALLOW, 1);
    decide(&policy, "no URL", NULL, URLPATTERN_DENY_NO_URL, URLPATTERN_NO_RULE);
    decide(&policy, "a", "no URL", URLPATTERN_DENY_NO_URL, URLPATTERN_NO_RULE);
    decide(&policy, "\xff", NULL, URLPATTERN_DENY_NOT_UTF8, URLPATTERN_NO_RULE);
    decide(&policy, "https://me@example.com/docs/a", NULL, URLPATTERN_ALLOW, 1);
    expect(urlpattern_policy_decide(&policy, NULL, 0, NULL, 0, NULL) == URLPATTERN_DENY_NO_URL, "null pointers");
    expect(urlpattern_policy_decide(&policy, "", (size_t)1 << 24, NULL, 0, NULL) == URLPATTERN_DENY_TOO_LONG, "16 MB");
}

static void try_handles(void) {
    decide(&other, "https://example.com/docs/a", NULL, URLPATTERN_DENY, URLPATTERN_NO_RULE);
    expect(urlpattern_policy_share(&policy, &other) == URLPATTERN_DONE, "shared");
    decide(&other, "https://example.com/docs/a", NULL, URLPATTERN_ALLOW, 1);
    expect(add(true, "https://example.com/*") == URLPATTERN_SHARED, "a shared policy");
    expect(urlpattern_policy_set_options(&policy, true, true, true) == URLPATTERN_SHARED, "options of a shared policy");
    urlpattern_policy_free(&other);
    urlpattern_policy_free(&other);
    decide(&other, "https://example.com/docs/a", NULL, URLPATTERN_DENY, URLPATTERN_NO_RULE);
    expect(urlpattern_policy_set_options(&policy, true, false, true) == URLPATTERN_DONE, "options");
    decide(&policy, "https://other.com/", NULL, URLPATTERN_ALLOW, URLPATTERN_NO_RULE);
    decide(&policy, "https://example.com/docs/%70rivate/a", NULL, URLPATTERN_ALLOW, 1);
    decide(&policy, "https://me@example.com/docs/a", NULL, URLPATTERN_DENY_CREDENTIALS, URLPATTERN_NO_RULE);
}

int main(void) {
    try_rules();
    try_handles();
    urlpattern_policy_free(&policy);
    printf("%d passed, %d failed\n", passed, failed);
    return failed != 0;
}
