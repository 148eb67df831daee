//! Policies.
use std::thread;
use urlpattern_proved::{Decision, DenyReason, Error, PolicyOptions, UrlPatternInit, UrlPolicy};

fn policy() -> UrlPolicy {
    let mut policy = UrlPolicy::new();
    policy.deny("https://example.com/private/*").unwrap();
    policy.allow("https://example.com/*").unwrap();
    policy
}

#[test]
fn the_first_rule_that_matches_decides() {
    let policy = policy();
    for (url, decision) in [
        ("https://example.com/a", Decision::Allow(Some(1))),
        (
            "https://example.com/private/a",
            Decision::Deny(DenyReason::Rule(0)),
        ),
        (
            "https://example.com/%70rivate/a",
            Decision::Deny(DenyReason::Rule(0)),
        ),
        ("https://other.com/", Decision::Deny(DenyReason::NoRule)),
        ("no URL", Decision::Deny(DenyReason::NotAUrl)),
    ] {
        assert_eq!(policy.decide(url, None), decision, "{url}");
        assert_eq!(policy.allows(url, None), decision.is_allowed(), "{url}");
    }
    let long = "x".repeat(1 << 24);
    let too_long = Decision::Deny(DenyReason::TooLong);
    assert_eq!(policy.decide(&long, Some("https://example.com")), too_long);
    assert!(policy.allows("/a", Some("https://example.com")));
    assert!(!UrlPolicy::new().allows("https://example.com/a", None));
}

#[test]
fn options_are_set() {
    let mut policy = policy();
    let options = PolicyOptions {
        default_allows: true,
        plain_spelling: false,
        denies_credentials: true,
    };
    assert_eq!(policy.set_options(options), Ok(()));
    assert_eq!(
        policy.decide("https://other.com/", None),
        Decision::Allow(None)
    );
    assert!(policy.allows("https://example.com/%70rivate/a", None));
    assert_eq!(
        policy.decide("https://me@other.com/", None),
        Decision::Deny(DenyReason::Credentials)
    );
}

#[test]
fn a_refused_rule_is_not_appended() {
    let mut policy = UrlPolicy::new();
    assert!(matches!(
        policy.allow("https://example.com/{"),
        Err(Error::Refused { .. })
    ));
    let init = UrlPatternInit {
        hostname: Some("example.com".into()),
        ..UrlPatternInit::default()
    };
    policy.allow(&init).unwrap();
    assert_eq!(
        policy.decide("https://example.com/", None),
        Decision::Allow(Some(0))
    );
}

#[test]
fn threads_have_policies_of_the_same_rules() {
    let mut policy = policy();
    let own = policy.try_clone().unwrap();
    assert_eq!(policy.allow("https://other.com/*"), Err(Error::Shared));
    let thread = thread::spawn(move || {
        for n in 0..1_000 {
            assert!(own.allows(&format!("https://example.com/{n}"), None));
            assert!(!own.allows(&format!("https://example.com/private/{n}"), None));
        }
    });
    thread.join().unwrap();
    assert_eq!(policy.allow("https://other.com/*"), Ok(()));
}
