//! Whether what a router returns is what a loop over its routes returns.

use super::making::RandomSource;
use super::{Outcome, same};
use regex::Regex;
use std::alloc::Global;
use urlpattern::regexp::{PatternRegexp, RegExp};
use urlpattern::{
    Error, PathError, Routed, UrlPattern, UrlPatternCaptures, UrlPatternInit, UrlPatternOptions,
    UrlPatternRouter, pathname_texts,
};

/// The methods of routes. The empty one stands for all methods.
const METHODS: [&str; 6] = ["GET", "GET", "HEAD", "POST", "PUT", ""];

/// The methods of requests.
const ASKED: [&str; 6] = ["GET", "HEAD", "POST", "PUT", "DELETE", "get"];

/// The pieces of the paths of routes. A name that is in a path twice is rejected.
const PIECES: [&str; 12] = [
    "/a", "/b", "/users", "/:x", "/:y", "/*", "/1", "/:z?", "/(1|2)", "-b", "{/c}?", "/",
];

/// The pieces of the paths of requests.
const STEPS: [&str; 10] = ["/a", "/b", "/c", "/1", "/2", "/users", "-b", "/x", "/", "/\u{e9}"];

/// The maximum number of routes in most routers.
const FEW: usize = 10;

/// The maximum number of routes in a router.
const MANY: usize = 200;

/// The number of requests to a router.
const REQUESTS: usize = 20;

/// What a router returns, by the indices of routes.
#[derive(Drop, PartialEq)]
enum Found {
    /// The index of the route that serves the request, and what its groups capture.
    Route(usize, String),
    /// The methods of the routes that match, joined by commas.
    Methods(String),
    /// No route matches.
    None,
}

/// Asks a router for random requests, over one of two engines.
pub fn ask(maker: &mut RandomSource) -> Result<Outcome, Error> {
    if maker.is_one_in(2) {
        ask_over::<Regex>(maker)
    } else {
        ask_over::<PatternRegexp>(maker)
    }
}

/// Asks a router for random requests, and again after some of its routes were removed.
fn ask_over<E: RegExp>(maker: &mut RandomSource) -> Result<Outcome, Error> {
    let most = if maker.is_one_in(8) { MANY } else { FEW };
    let size = maker.below(most + 1);
    let mut router = UrlPatternRouter::<usize, E>::new(maker.alloc);
    router.head_as_get = !maker.is_one_in(3);
    let filled = fill(maker, &mut router, size);
    let first = match filled {
        Ok(()) => asked(maker, &router),
        Err(error) => Err(error),
    };
    if !matches!(first, Ok(true)) {
        drop(router);
        return first.map(same);
    }
    for _ in 0..maker.below(size.saturating_add(1)) {
        let index = maker.below(router.routes.len().saturating_add(1));
        drop(router.remove(index));
    }
    let again = asked(maker, &router);
    drop(router);
    again.map(same)
}

/// Appends `size` routes to a router, except those whose patterns are rejected.
fn fill<E: RegExp>(
    maker: &mut RandomSource,
    router: &mut UrlPatternRouter<usize, E>,
    size: usize,
) -> Result<(), Error> {
    for number in 0..size {
        let mut init = UrlPatternInit::default();
        init.pathname = Some(maker.text(&PIECES, 4)?);
        let method = maker.one_of(&METHODS, "");
        maker.keep(method)?;
        match UrlPattern::parse(maker.alloc, init, UrlPatternOptions::default()) {
            Ok(pattern) => add(maker.alloc, router, method, pattern, number)?,
            Err(Error::OutOfMemory) => return Err(Error::OutOfMemory),
            Err(_refused) => {}
        }
    }
    Ok(())
}

/// Appends a route.
fn add<E: RegExp>(
    alloc: Global,
    router: &mut UrlPatternRouter<usize, E>,
    method: &str,
    pattern: UrlPattern<E>,
    number: usize,
) -> Result<(), Error> {
    if method.is_empty() {
        return router.insert_any(pattern, number);
    }
    match router.insert(alloc, method, pattern, number) {
        Ok(()) => Ok(()),
        Err(_) => Err(Error::OutOfMemory),
    }
}

/// Whether a router returns for some requests what a loop returns.
fn asked<E: RegExp>(
    maker: &mut RandomSource,
    router: &UrlPatternRouter<usize, E>,
) -> Result<bool, Error> {
    for _ in 0..REQUESTS {
        let method = maker.one_of(&ASKED, "");
        let path = format!(in maker.alloc; "/{}", maker.text(&STEPS, 5)?)?;
        maker.keep(method)?;
        let found = by_router(maker.alloc, router, method, &path)?;
        let expected = by_loop(maker.alloc, router, method, &path)?;
        let is_same = found == expected;
        drop(found);
        drop(expected);
        if !is_same {
            return Ok(false);
        }
    }
    Ok(true)
}

/// What a router returns for a request.
fn by_router<E: RegExp>(
    alloc: Global,
    router: &UrlPatternRouter<usize, E>,
    method: &str,
    path: &str,
) -> Result<Found, Error> {
    match router.at(alloc, method, path) {
        Ok(Routed::Found(index, _, captures)) => {
            let groups = groups_text(alloc, &captures);
            drop(captures);
            Ok(Found::Route(index, groups?))
        }
        Ok(Routed::MethodNotAllowed(methods)) => {
            let mut text = String::new(alloc);
            for method in methods {
                text.push_str(method?)?;
                text.push(',')?;
            }
            Ok(Found::Methods(text))
        }
        Ok(Routed::NotFound) | Err(PathError::NotAPath) => Ok(Found::None),
        Err(PathError::OutOfMemory) => Err(Error::OutOfMemory),
    }
}

/// What a loop over the routes returns for a request.
fn by_loop<E: RegExp>(
    alloc: Global,
    router: &UrlPatternRouter<usize, E>,
    method: &str,
    path: &str,
) -> Result<Found, Error> {
    let is_head = router.head_as_get && method == "HEAD";
    if is_head {
        if let Some((index, groups, true)) = first_for(alloc, router, method, path)? {
            return Ok(Found::Route(index, groups));
        }
    }
    let method = if is_head { "GET" } else { method };
    if let Some((index, groups, _)) = first_for(alloc, router, method, path)? {
        return Ok(Found::Route(index, groups));
    }
    let mut is_matched = false;
    let mut text = String::new(alloc);
    for (pattern, route) in router.iter() {
        if !pattern.test_texts(alloc, &pathname_texts(path))? {
            continue;
        }
        is_matched = true;
        if let Some(method) = &route.method {
            if !text.split(',').any(|listed| listed == method.as_str()) {
                text.push_str(method)?;
                text.push(',')?;
            }
        }
    }
    if is_matched {
        Ok(Found::Methods(text))
    } else {
        Ok(Found::None)
    }
}

/// The index of the first route that takes a method and whose pattern matches a path, by a loop;
/// what its groups capture; and whether the route has a method.
fn first_for<E: RegExp>(
    alloc: Global,
    router: &UrlPatternRouter<usize, E>,
    method: &str,
    path: &str,
) -> Result<Option<(usize, String, bool)>, Error> {
    for (index, (pattern, route)) in router.iter().enumerate() {
        if !route.takes(method) {
            continue;
        }
        if let Some(captures) = pattern.captures_of_texts(alloc, &pathname_texts(path))? {
            let groups = groups_text(alloc, &captures);
            drop(captures);
            return Ok(Some((index, groups?, route.method.is_some())));
        }
    }
    Ok(None)
}

/// The name of each group of a match that took part, and its capture.
fn groups_text(alloc: Global, captures: &UrlPatternCaptures<'_, '_>) -> Result<String, Error> {
    let mut text = String::new(alloc);
    for (component, name, capture) in captures.iter() {
        if let Some(capture) = capture {
            text.push_str(component.as_str())?;
            text.push(' ')?;
            text.push_str(name)?;
            text.push('=')?;
            text.push_str(capture)?;
            text.push('\n')?;
        }
    }
    Ok(text)
}
