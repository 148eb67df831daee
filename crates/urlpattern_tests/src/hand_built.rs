//! Patterns with components built by hand, and engines that return what no engine should, or reject
//! each text.

use crate::given::{expect_same, parts_of, pattern_of, url_input};
use crate::stubborn::{Captures, KeptText, Refusing, Starved, Stubborn};
use regex::Regex;
use std::alloc::Global;
use std::process::Abort;
use std::test::Fail;
use urlpattern::component::{Component, generate_matcher};
use urlpattern::matcher::{InnerMatcher, Matcher};
use urlpattern::parser::Options;
use urlpattern::regexp::RegExp;
use urlpattern::rules::USUAL_LIMITS;
use urlpattern::{
    CompareError, ComponentName, Error, UrlPattern, UrlPatternComponentResult, UrlPatternList,
    UrlPatternMap, UrlPatternResult, UrlPatternRouter,
};

/// A URL with a path.
const URL: &str = "https://example.com/path";

/// The expected captures of groups, by name.
type Groups<'a> = &'a [(&'a str, Option<&'a str>)];

/// Copies of names.
fn names_of(alloc: Global, names: &[&str]) -> Result<Vec<String>, Error> {
    let mut copies = Vec::new(alloc);
    for name in names {
        copies.push(String::from_str(alloc, name)?)?;
    }
    Ok(copies)
}

/// A component whose engine, or error in place of one, is called with the whole text.
fn by_hand<R: RegExp>(
    alloc: Global,
    group_name_list: Vec<String>,
    regexp: Result<R, Error>,
) -> Component<R> {
    Component {
        pattern_string: String::new(alloc),
        regexp: Err(Error::RegExp(())),
        group_name_list,
        matcher: Matcher {
            prefix: String::new(alloc),
            suffix: String::new(alloc),
            inner: InnerMatcher::RegExp { regexp },
            ignore_case: false,
        },
        has_regexp_group: true,
    }
}

/// A pattern with this component for the path, whose other components match any text.
fn with_pathname<R: RegExp>(alloc: Global, pathname: Component<R>) -> Result<UrlPattern<R>, Error> {
    let mut pattern = pattern_of(alloc, &[])?;
    pattern.parts = None;
    pattern.pathname = pathname;
    Ok(pattern)
}

/// A pattern with this path, built from its components.
fn without_parts(alloc: Global, pathname: &str) -> Result<UrlPattern, Error> {
    let pattern = pattern_of(alloc, &[("pathname", pathname)])?;
    Ok(UrlPattern::from_eight(pattern.into_eight()))
}

/// Compares the groups of a component by name. The component has no other groups.
fn expect_captured(rt: &impl Abort, found: &UrlPatternComponentResult, groups: Groups<'_>) {
    expect_same(rt, found.groups.len(), groups.len(), "all groups");
    for (name, expected) in groups {
        match found.groups.get(*name) {
            Some(captured) => expect_same(rt, captured.as_deref(), *expected, name),
            None => panic!(rt; "no group {name:?}"),
        }
    }
}

/// A pattern whose path has groups with these names, for which an engine returns these captures.
fn capturing(
    alloc: Global,
    names: &[&str],
    captures: Captures,
) -> Result<UrlPattern<KeptText>, Error> {
    let names = names_of(alloc, names)?;
    let engine = Stubborn {
        text: String::new(alloc),
        captures: Some(captures),
    };
    with_pathname(alloc, by_hand(alloc, names, Ok(engine)))
}

/// The match of a URL by a pattern whose path has groups with these names and captures.
fn captured(
    alloc: Global,
    names: &[&str],
    captures: Captures,
) -> Result<Option<UrlPatternResult>, Error> {
    let input = url_input(alloc, URL)?;
    let pattern = capturing(alloc, names, captures)?;
    let found = pattern.exec(alloc, input);
    drop(pattern);
    found
}

/// Compares the groups of a path, given the names of its groups and the captures of an engine.
fn expect_groups(
    rt: &impl Abort,
    alloc: Global,
    names: &[&str],
    captures: Captures,
    groups: Groups<'_>,
) -> Result<(), Error> {
    let found = captured(alloc, names, captures)?;
    match &found {
        Some(found) => expect_captured(rt, &found.pathname, groups),
        None => panic!(rt; "no match"),
    }
    drop(found);
    Ok(())
}

#[test]
fn captures_that_are_too_many_too_few_or_foreign(rt: HostRuntime) -> Result<(), Fail> {
    let rows: [(&[&str], Captures, Groups<'_>); 5] = [
        (
            &["x"],
            &[Some("1"), Some("2"), Some("3")],
            &[("x", Some("1"))],
        ),
        (&["x"], &[], &[]),
        (&["x", "y"], &[Some("1")], &[("x", Some("1"))]),
        (&["a", "a"], &[Some("1"), Some("2")], &[("a", Some("2"))]),
        (
            &["x", "y"],
            &[None, Some("no slice of it")],
            &[("x", None), ("y", Some("no slice of it"))],
        ),
    ];
    for (names, captures, groups) in rows {
        expect_groups(&rt, rt.alloc(), names, captures, groups)?;
    }
    Ok(())
}

#[test]
fn an_error_in_place_of_an_engine_matches_nothing(rt: HostRuntime) -> Result<(), Fail> {
    let alloc = rt.alloc();
    let input = url_input(alloc, URL)?;
    let pathname: Component<Regex> = by_hand(alloc, Vec::new(alloc), Err(Error::RegExp(())));
    let pattern = with_pathname(alloc, pathname)?;
    let is_matched = pattern.test(alloc, input);
    drop(pattern);
    assert!(rt; !is_matched?);
    Ok(())
}

/// A matcher that calls an engine with the text before `b`.
fn matcher_of<R: RegExp>(alloc: Global) -> Result<Matcher<R>, Error> {
    let options = Options::default(alloc);
    let parts = parts_of(alloc, "{a}?b", &options)?;
    generate_matcher(alloc, &parts, &options, "u")
}

/// Whether the pattern of an empty init is rejected because its regular expressions are.
fn is_pattern_refused<R: RegExp>(alloc: Global) -> Result<bool, Error> {
    let found = pattern_of::<R>(alloc, &[]);
    let is_refused = match &found {
        Err(Error::OutOfMemory) => Err(Error::OutOfMemory),
        Err(Error::RegExp(())) => Ok(true),
        _ => Ok(false),
    };
    drop(found);
    is_refused
}

/// Compares a matcher whose engine rejected its expression: it keeps the error, and matches
/// nothing.
fn expect_refused(
    rt: &impl Abort,
    alloc: Global,
    matcher: &Matcher<Refusing>,
) -> Result<(), Error> {
    assert!(rt;
        matches!(
            &matcher.inner,
            InnerMatcher::RegExp {
                regexp: Err(Error::RegExp(()))
            }
        )
    );
    assert!(rt; matcher.matches(alloc, "b")?.is_none());
    assert!(rt; !matcher.accepts(alloc, "ab")?);
    Ok(())
}

#[test]
fn what_an_engine_refuses_is_kept_and_matches_nothing(rt: HostRuntime) -> Result<(), Fail> {
    let alloc = rt.alloc();
    assert!(rt; is_pattern_refused::<Refusing>(alloc)?);
    let matcher = matcher_of(alloc)?;
    let outcome = expect_refused(&rt, alloc, &matcher);
    drop(matcher);
    outcome?;
    Ok(())
}

/// Compares a matcher whose engine runs out of memory. The engine is called for texts that end with
/// `b`.
fn expect_wanting(
    rt: &impl Abort,
    alloc: Global,
    matcher: &Matcher<KeptText>,
) -> Result<(), Error> {
    assert!(rt; matches!(matcher.matches(alloc, "b"), Err(Error::OutOfMemory)));
    assert!(rt; matches!(matcher.accepts(alloc, "b"), Err(Error::OutOfMemory)));
    assert!(rt; matcher.matches(alloc, "a")?.is_none());
    Ok(())
}

#[test]
fn an_engine_without_memory_is_reported_as_such(rt: HostRuntime) -> Result<(), Fail> {
    let alloc = rt.alloc();
    assert!(rt; matches!(matcher_of::<Starved>(alloc), Err(Error::OutOfMemory)));
    assert!(rt;
        matches!(
            is_pattern_refused::<Starved>(alloc),
            Err(Error::OutOfMemory)
        )
    );
    let matcher = matcher_of(alloc)?;
    let outcome = expect_wanting(&rt, alloc, &matcher);
    drop(matcher);
    outcome?;
    Ok(())
}

/// Whether a comparison fails because a pattern has no parts.
fn lacks_parts<T: Drop>(found: Result<T, CompareError>) -> Result<bool, Error> {
    match found {
        Ok(_) => Ok(false),
        Err(CompareError::NoParts) => Ok(true),
        Err(CompareError::OutOfMemory) => Err(Error::OutOfMemory),
    }
}

/// Compares two patterns, one of which has no parts.
fn expect_not_compared(
    rt: &impl Abort,
    alloc: Global,
    pattern: &UrlPattern,
    other: &UrlPattern,
) -> Result<(), Error> {
    assert!(rt; lacks_parts(pattern.covers(alloc, other))?);
    assert!(rt; lacks_parts(pattern.overlaps(alloc, other))?);
    let order = UrlPattern::compare_component(ComponentName::Pathname, pattern, other);
    assert!(rt; lacks_parts(order)?);
    assert!(rt; lacks_parts(pattern.is_same(other))?);
    Ok(())
}

#[test]
fn a_pattern_without_parts_is_not_compared(rt: HostRuntime) -> Result<(), Fail> {
    let alloc = rt.alloc();
    let by_hand = without_parts(alloc, "/a")?;
    let compiled = pattern_of(alloc, &[("pathname", "/a")])?;
    expect_not_compared(&rt, alloc, &by_hand, &compiled)?;
    expect_not_compared(&rt, alloc, &compiled, &by_hand)?;
    Ok(())
}

/// Compares a list, a map and a router of two patterns, the second of which has no parts.
fn expect_no_reach(rt: &impl Abort, alloc: Global) -> Result<(), Error> {
    let mut list = UrlPatternList::new(alloc);
    list.try_push(pattern_of(alloc, &[("pathname", "/*")])?)?;
    list.try_push(without_parts(alloc, "/a")?)?;
    assert!(rt; lacks_parts(list.reach_of_each(alloc, USUAL_LIMITS))?);
    let mut map = UrlPatternMap::new(alloc);
    map.try_insert(pattern_of(alloc, &[("pathname", "/*")])?, 0u32)?;
    map.try_insert(without_parts(alloc, "/a")?, 1)?;
    assert!(rt; lacks_parts(map.reach_of_each(alloc, USUAL_LIMITS))?);
    let mut router = UrlPatternRouter::new(alloc);
    router.insert_any(pattern_of(alloc, &[("pathname", "/*")])?, 0u32)?;
    router.insert_any(without_parts(alloc, "/a")?, 1)?;
    assert!(rt; lacks_parts(router.check(alloc, USUAL_LIMITS))?);
    Ok(())
}

#[test]
fn patterns_of_which_one_has_no_parts_are_not_compared(rt: HostRuntime) -> Result<(), Fail> {
    expect_no_reach(&rt, rt.alloc())?;
    Ok(())
}
