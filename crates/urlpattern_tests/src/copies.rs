//! Copies of patterns and of routers, which outlive what they are copies of.

use crate::given::{expect_same, pattern_of, url_of};
use std::alloc::{AllocError, Global};
use std::process::Abort;
use std::test::Fail;
use urlpattern::regexp::PatternRegexp;
use urlpattern::{ComponentName, Error, Routed, UrlPattern, UrlPatternRouter};

/// Paths whose matchers differ, each with a URL and what the group `id` captures of it.
const PATHS: [(&str, &str, Option<&str>); 6] = [
    ("/users/:id", "https://example.com/users/7", Some("7")),
    ("/users", "https://example.com/users", None),
    ("/:id(\\d+)", "https://example.com/17", Some("17")),
    ("/:id(\\d+|a(?:b|c)*)/x", "https://example.com/abcb/x", Some("abcb")),
    ("/a/*", "https://example.com/a/b/c", None),
    ("/:id/:other?", "https://example.com/q", Some("q")),
];

/// A copy of a pattern that is dropped. `None`: the copy differs from the pattern.
fn copy_of(alloc: Global, pathname: &str) -> Result<Option<UrlPattern<PatternRegexp>>, Error> {
    let pattern: UrlPattern<PatternRegexp> = pattern_of(alloc, &[("pathname", pathname)])?;
    let copy = pattern.clone()?;
    let is_same = matches!(copy.is_same(&pattern), Ok(true));
    drop(pattern);
    if is_same { Ok(Some(copy)) } else { Ok(None) }
}

/// Compares what a copy captures of a URL.
fn expect_captured(
    rt: &impl Abort,
    alloc: Global,
    copy: &UrlPattern<PatternRegexp>,
    url: &str,
    expected: Option<&str>,
) -> Result<(), Error> {
    let url = url_of(alloc, url)?;
    let found = copy.captures(alloc, &url);
    match &found {
        Ok(Some(found)) => {
            expect_same(rt, found.get(ComponentName::Pathname, "id"), expected, copy.pathname());
        }
        Ok(None) => assert!(rt; false),
        Err(_) => {}
    }
    let outcome = match &found {
        Ok(_) => Ok(()),
        Err(_) => Err(Error::OutOfMemory),
    };
    drop(found);
    drop(url);
    outcome
}

#[test]
fn a_copy_of_a_pattern_matches_alike(rt: HostRuntime) -> Result<(), Fail> {
    for (pathname, url, expected) in PATHS {
        let Some(copy) = copy_of(rt.alloc(), pathname)? else {
            assert!(rt; false);
            return Ok(());
        };
        expect_same(&rt, copy.pathname(), pathname, "the copy");
        let outcome = expect_captured(&rt, rt.alloc(), &copy, url, expected);
        drop(copy);
        outcome?;
    }
    Ok(())
}

/// A router with a route for each of the paths.
fn router_of(alloc: Global) -> Result<UrlPatternRouter<usize, PatternRegexp>, Error> {
    let mut router = UrlPatternRouter::new(alloc);
    router.head_as_get = false;
    for (index, (pathname, _, _)) in PATHS.iter().enumerate() {
        let pattern = pattern_of(alloc, &[("pathname", *pathname)])?;
        if router.insert_named(alloc, pathname, "GET", pattern, index).is_err() {
            return Err(Error::OutOfMemory);
        }
    }
    Ok(router)
}

/// A copy of a router that is dropped.
fn router_copy(alloc: Global) -> Result<UrlPatternRouter<usize, PatternRegexp>, Error> {
    let router = router_of(alloc)?;
    let copy: Result<UrlPatternRouter<usize, PatternRegexp>, AllocError> = router.clone();
    drop(router);
    Ok(copy?)
}

/// Compares what a copy of the router returns for the URL of each path, and by each name.
fn expect_routed(
    rt: &impl Abort,
    alloc: Global,
    copy: &UrlPatternRouter<usize, PatternRegexp>,
) -> Result<(), Error> {
    assert!(rt; !copy.head_as_get);
    for (index, (pathname, url, _)) in PATHS.iter().enumerate() {
        let named = copy.find(pathname).map(|(found, _, route)| (found, route.value));
        expect_same(rt, named, Some((index, index)), pathname);
        let url = url_of(alloc, url)?;
        let routed = copy.at_url(alloc, "GET", &url);
        let value = match &routed {
            Ok(Routed::Found(_, value, _)) => Ok(Some(**value)),
            Ok(_) => Ok(None),
            Err(_) => Err(Error::OutOfMemory),
        };
        drop(routed);
        drop(url);
        expect_same(rt, value?, Some(index), pathname);
    }
    Ok(())
}

#[test]
fn a_copy_of_a_router_routes_alike(rt: HostRuntime) -> Result<(), Fail> {
    let copy = router_copy(rt.alloc())?;
    let outcome = expect_routed(&rt, rt.alloc(), &copy);
    drop(copy);
    outcome?;
    Ok(())
}
