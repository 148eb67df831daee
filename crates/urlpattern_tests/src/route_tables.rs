//! Routers: which routes are never reached, which contend for the same texts, and what conflicts
//! whatever the method.

use crate::given::expect_same;
use crate::routers::{ROUTES, router_of};
use std::alloc::Global;
use std::process::Abort;
use std::test::Fail;
use urlpattern::rules::{Contended, Contention, Reach, USUAL_LIMITS};
use urlpattern::{ComponentName, Eight, Error, Unreached, UrlPatternRouter};

/// What is returned of the routes that take a method: the index of each, and `+` if it
/// is reached, or the places of those that cover it.
fn reached(
    alloc: Global,
    router: &UrlPatternRouter<u32>,
    method: &str,
) -> Result<String, Error> {
    let mut text = String::new(alloc);
    let Ok(found) = router.reach_of_each(alloc, method, USUAL_LIMITS) else {
        return Err(Error::OutOfMemory);
    };
    for (index, reach) in found.routes.iter().zip(&found.reaches) {
        let shown = match reach {
            Reach::First(_) => format!(in alloc; "{index}+ ")?,
            Reach::Never(by) => format!(in alloc; "{index}{by:?} ")?,
            Reach::Unknown(_) => format!(in alloc; "{index}? ")?,
        };
        text.push_str(&shown)?;
    }
    drop(found);
    Ok(text)
}

/// Compares which routes are reached by each method.
fn expect_reached(
    rt: &impl Abort,
    alloc: Global,
    router: &UrlPatternRouter<u32>,
) -> Result<(), Error> {
    for (method, expected) in [
        ("GET", "0+ 2+ 3+ 5+ 6[0] 7+ 8+ "),
        ("POST", "1+ 5+ 8+ "),
        ("HEAD", "4+ 5+ 8+ 9[2] 10[1] "),
        ("PUT", "5+ 8+ "),
    ] {
        let found = reached(alloc, router, method)?;
        expect_same(rt, found.as_str(), expected, method);
    }
    Ok(())
}

#[test]
fn routes_that_others_cover_are_not_reached(rt: HostRuntime) -> Result<(), Fail> {
    let router = router_of(rt.alloc(), &ROUTES)?;
    let outcome = expect_reached(&rt, rt.alloc(), &router);
    drop(router);
    outcome?;
    Ok(())
}

/// Routes of which some contend.
const CONTENDING: [(Option<&str>, &str, u32); 5] = [
    (Some("GET"), "/users/:id", 1),
    (None, "/:kind/new", 2),
    (Some("POST"), "/users/new", 3),
    (Some("GET"), "/users/new", 4),
    (Some("HEAD"), "/users/*", 5),
];

/// Whether the route at an index matches the texts of a pair.
fn is_matched(
    alloc: Global,
    router: &UrlPatternRouter<u32>,
    index: usize,
    pair: &Contention,
) -> Result<bool, Error> {
    let (Some((pattern, _)), Contended::Texts(texts)) = (router.routes.get(index), &pair.found)
    else {
        return Ok(false);
    };
    let texts = Eight::from_fn(|name: ComponentName| -> &str { texts.get(name).as_str() });
    Ok(pattern.test_texts(alloc, &texts)?)
}

/// What is returned of the routes that take a method and contend: the indices of each pair, if both
/// match its texts.
fn contended(
    alloc: Global,
    router: &UrlPatternRouter<u32>,
    method: &str,
) -> Result<String, Error> {
    let mut text = String::new(alloc);
    let Ok(found) = router.contending(alloc, method, USUAL_LIMITS) else {
        return Err(Error::OutOfMemory);
    };
    for pair in &found.pairs {
        let (Some(first), Some(second)) =
            (found.routes.get(pair.first), found.routes.get(pair.second))
        else {
            continue;
        };
        let both = is_matched(alloc, router, *first, pair)?
            && is_matched(alloc, router, *second, pair)?;
        text.push_str(&format!(in alloc; "{first}-{second} {both} ")?)?;
    }
    drop(found);
    Ok(text)
}

/// Compares which routes contend for requests with each method.
fn expect_contended(
    rt: &impl Abort,
    alloc: Global,
    router: &UrlPatternRouter<u32>,
) -> Result<(), Error> {
    for (method, expected) in [
        ("GET", "0-1 true "),
        ("POST", ""),
        ("HEAD", "1-4 true "),
        ("PUT", ""),
    ] {
        let found = contended(alloc, router, method)?;
        expect_same(rt, found.as_str(), expected, method);
    }
    Ok(())
}

#[test]
fn routes_that_match_the_same_texts_contend(rt: HostRuntime) -> Result<(), Fail> {
    let router = router_of(rt.alloc(), &CONTENDING)?;
    let outcome = expect_contended(&rt, rt.alloc(), &router);
    drop(router);
    outcome?;
    Ok(())
}

/// Routes without a conflict: the patterns of the first two contend, but they share no method, and
/// the third covers the last for `GET` alone.
const CLEAN: [(Option<&str>, &str, u32); 4] = [
    (Some("GET"), "/users/:id", 1),
    (Some("POST"), "/:kind/new", 2),
    (Some("GET"), "/files/a/*", 3),
    (None, "/files/a/*", 4),
];

/// What conflicts in a router: the index of each route that is never reached, with the indices of
/// those that cover it; and the indices of each pair that contends, if both match its texts.
fn conflicting(alloc: Global, router: &UrlPatternRouter<u32>) -> Result<String, Error> {
    let mut text = String::new(alloc);
    let Ok(found) = router.check(alloc, USUAL_LIMITS) else {
        return Err(Error::OutOfMemory);
    };
    for one in &found.unreached {
        let shown = match &one.found {
            Unreached::Never(by) => format!(in alloc; "{}{by:?} ", one.route)?,
            Unreached::Unknown(_) => format!(in alloc; "{}? ", one.route)?,
        };
        text.push_str(&shown)?;
    }
    for pair in &found.contending {
        let both = is_matched(alloc, router, pair.first, pair)?
            && is_matched(alloc, router, pair.second, pair)?;
        text.push_str(&format!(in alloc; "{}-{} {both} ", pair.first, pair.second)?)?;
    }
    text.push_str(if found.is_clean() { "clean" } else { "not clean" })?;
    drop(found);
    Ok(text)
}

/// Compares what conflicts in some routers.
fn expect_conflicting(rt: &impl Abort, alloc: Global) -> Result<(), Error> {
    for (routes, expected) in [
        (ROUTES.as_slice(), "6[0] 9[8] 10[5] not clean"),
        (CONTENDING.as_slice(), "2[1] 3[0] 0-1 true 1-4 true not clean"),
        (CLEAN.as_slice(), "clean"),
        (&[], "clean"),
    ] {
        let router = router_of(alloc, routes)?;
        let found = conflicting(alloc, &router);
        drop(router);
        expect_same(rt, found?.as_str(), expected, "the routes");
    }
    Ok(())
}

#[test]
fn what_conflicts_in_a_router_is_found(rt: HostRuntime) -> Result<(), Fail> {
    expect_conflicting(&rt, rt.alloc())?;
    Ok(())
}
