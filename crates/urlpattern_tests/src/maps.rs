//! Maps of patterns: their elements, and the value of the first match.

use crate::given::{expect_same, pattern_of, url_input, url_of};
use regex::Regex;
use std::alloc::Global;
use std::process::Abort;
use std::test::Fail;
use urlpattern::quirks::parse_match_input;
use urlpattern::{Error, PathError, UrlPattern, UrlPatternMap, UrlPatternMapMatches, pathname_texts};

/// Paths, each with a value.
const ROUTES: [(&str, u32); 3] = [("/users/me", 1), ("/users/:id", 2), ("/users/*", 3)];

/// The map of the routes.
fn routes(alloc: Global) -> Result<UrlPatternMap<u32>, Error> {
    let mut map = UrlPatternMap::with_capacity(alloc, ROUTES.len())?;
    for (pathname, value) in ROUTES {
        map.try_insert(pattern_of(alloc, &[("pathname", pathname)])?, value)?;
    }
    Ok(map)
}

/// The index of the first pattern of a map that matches a URL, and its value.
fn first_value(
    alloc: Global,
    map: &UrlPatternMap<u32>,
    url: &str,
) -> Result<Option<(usize, u32)>, Error> {
    let url = url_of(alloc, url)?;
    let found = map.first_captures(alloc, &url);
    let first = match &found {
        Ok(Some((index, value, _))) => Ok(Some((*index, **value))),
        Ok(None) => Ok(None),
        Err(_) => Err(Error::OutOfMemory),
    };
    drop(found);
    drop(url);
    first
}

/// Compares the elements of a map with the routes.
fn expect_held(rt: &impl Abort, map: &UrlPatternMap<u32>) {
    expect_same(rt, map.len(), ROUTES.len(), "the map");
    for ((pattern, value), (pathname, expected)) in map.iter().zip(&ROUTES) {
        assert_eq!(rt; pattern.pathname(), *pathname);
        assert_eq!(rt; value, expected);
    }
    let mut sum = 0u64;
    for (_, value) in map {
        sum = sum.wrapping_add(u64::from(*value));
    }
    expect_same(rt, sum, 6, "the values");
    let second = map.get(1).map(|(_, value)| *value);
    expect_same(rt, second, Some(2), "the second");
    assert!(rt; map.get(ROUTES.len()).is_none());
}

/// Compares the values of the first matches of some URLs.
fn expect_first(rt: &impl Abort, alloc: Global, map: &UrlPatternMap<u32>) -> Result<(), Error> {
    for (url, expected) in [
        ("https://example.com/users/me", Some((0, 1))),
        ("https://example.com/users/you", Some((1, 2))),
        ("https://example.com/users/you/files", Some((2, 3))),
        ("https://example.com/", None),
    ] {
        expect_same(rt, first_value(alloc, map, url)?, expected, url);
    }
    Ok(())
}

#[test]
fn a_map_holds_its_routes_and_finds_the_first(rt: HostRuntime) -> Result<(), Fail> {
    let empty = <UrlPatternMap<u32>>::new(rt.alloc());
    assert!(rt; empty.is_empty());
    drop(empty);
    let map = routes(rt.alloc())?;
    expect_held(&rt, &map);
    let outcome = expect_first(&rt, rt.alloc(), &map);
    drop(map);
    outcome?;
    Ok(())
}

/// The value of the first pattern of a map that matches a path.
fn value_of_path(
    alloc: Global,
    map: &UrlPatternMap<u32>,
    path: &str,
) -> Result<Option<u32>, PathError> {
    let found = map.first_captures_of_path(alloc, path);
    let value = match &found {
        Ok(Some((_, value, _))) => Ok(Some(**value)),
        Ok(None) => Ok(None),
        Err(error) => Err(*error),
    };
    drop(found);
    value
}

/// Compares the values of the first matches of some paths.
fn expect_of_paths(rt: &impl Abort, alloc: Global, map: &UrlPatternMap<u32>) {
    for (path, expected) in [
        ("/users/me", Ok(Some(1))),
        ("/users/you", Ok(Some(2))),
        ("/users/you/files", Ok(Some(3))),
        ("//example.com/users/me", Ok(None)),
        ("users/me", Err(PathError::NotAPath)),
        ("https://example.com/users/me", Err(PathError::NotAPath)),
        ("/users/me?x=1", Err(PathError::NotAPath)),
        ("/users/me#x", Err(PathError::NotAPath)),
        ("/users/me\n", Err(PathError::NotAPath)),
        ("", Err(PathError::NotAPath)),
    ] {
        expect_same(rt, value_of_path(alloc, map, path), expected, path);
    }
}

/// Compares the values of the first matches of eight texts, and of an input.
fn expect_of_texts(rt: &impl Abort, alloc: Global, map: &UrlPatternMap<u32>) -> Result<(), Error> {
    let texts = pathname_texts("/users/you");
    let found = map.first_captures_of_texts(alloc, &texts)?;
    expect_same(rt, found.map(|(index, ..)| index), Some(1), "eight texts");
    let url = url_input(alloc, "https://example.com/users/me")?;
    let Some(input) = parse_match_input(alloc, url)? else {
        return Ok(());
    };
    let found = map.first_captures_of_input(alloc, &input);
    let index = match &found {
        Ok(Some((index, ..))) => Ok(Some(*index)),
        Ok(None) => Ok(None),
        Err(_) => Err(Error::OutOfMemory),
    };
    drop(found);
    drop(input);
    expect_same(rt, index?, Some(0), "an input");
    Ok(())
}

#[test]
fn a_path_is_a_path_whatever_it_looks_like(rt: HostRuntime) -> Result<(), Fail> {
    let map = routes(rt.alloc())?;
    expect_of_paths(&rt, rt.alloc(), &map);
    let outcome = expect_of_texts(&rt, rt.alloc(), &map);
    drop(map);
    outcome?;
    Ok(())
}

/// The values of all matches of a map, in order.
fn values_of(
    alloc: Global,
    matches: UrlPatternMapMatches<'_, '_, u32, Regex>,
) -> Result<Vec<u32>, Error> {
    let mut values = Vec::new(alloc);
    for found in matches {
        let (index, value, captures) = found?;
        drop(captures);
        let Some((_, expected)) = ROUTES.get(index) else {
            return Ok(Vec::new(alloc));
        };
        if value == expected {
            values.push(*value)?;
        }
    }
    Ok(values)
}

/// Compares the values of all matches: of a path, of eight texts, of a URL and of an input.
fn expect_matches(
    rt: &impl Abort,
    alloc: Global,
    map: &UrlPatternMap<u32>,
    path: &str,
    expected: &[u32],
) -> Result<(), Error> {
    let Some(matches) = map.matches_of_path(alloc, path) else {
        assert!(rt; expected.is_empty());
        return Ok(());
    };
    assert_eq!(rt; values_of(alloc, matches)?.as_slice(), expected);
    let matches = map.matches_of_texts(alloc, pathname_texts(path));
    assert_eq!(rt; values_of(alloc, matches)?.as_slice(), expected);
    let text = format!(in alloc; "https://example.com{path}")?;
    let url = url_of(alloc, &text)?;
    let values = values_of(alloc, map.matches(alloc, &url));
    drop(url);
    assert_eq!(rt; values?.as_slice(), expected);
    let Some(input) = parse_match_input(alloc, url_input(alloc, &text)?)? else {
        return Ok(());
    };
    let values = values_of(alloc, map.matches_of_input(alloc, &input));
    drop(input);
    assert_eq!(rt; values?.as_slice(), expected);
    Ok(())
}

/// Compares the values of all matches of some paths.
fn expect_all_matches(
    rt: &impl Abort,
    alloc: Global,
    map: &UrlPatternMap<u32>,
) -> Result<(), Error> {
    expect_matches(rt, alloc, map, "/users/me", &[1, 2, 3])?;
    expect_matches(rt, alloc, map, "/users/you", &[2, 3])?;
    expect_matches(rt, alloc, map, "/users/you/files", &[3])?;
    expect_matches(rt, alloc, map, "/", &[])?;
    expect_matches(rt, alloc, map, "users/me", &[])?;
    assert_eq!(rt; map.matches_of_texts(alloc, pathname_texts("/")).size_hint(), (0, None));
    Ok(())
}

#[test]
fn a_map_lists_all_matches(rt: HostRuntime) -> Result<(), Fail> {
    let map = routes(rt.alloc())?;
    let outcome = expect_all_matches(&rt, rt.alloc(), &map);
    drop(map);
    outcome?;
    Ok(())
}

/// Some routes as entries, in order.
fn entries(alloc: Global, routes: &[(&str, u32)]) -> Result<Vec<(UrlPattern, u32)>, Error> {
    let mut entries = Vec::new(alloc);
    for (pathname, value) in routes {
        entries.push((pattern_of(alloc, &[("pathname", *pathname)])?, *value))?;
    }
    Ok(entries)
}

/// A map with the first route, to which the others are appended in one call.
fn extended(alloc: Global) -> Result<UrlPatternMap<u32>, Error> {
    let mut map = UrlPatternMap::new(alloc);
    map.extend(entries(alloc, &ROUTES[..1])?)?;
    map.extend(entries(alloc, &ROUTES[1..])?)?;
    map.extend(Vec::new(alloc))?;
    Ok(map)
}

#[test]
fn routes_are_appended_in_their_order(rt: HostRuntime) -> Result<(), Fail> {
    let map = extended(rt.alloc())?;
    expect_held(&rt, &map);
    let outcome = expect_first(&rt, rt.alloc(), &map);
    drop(map);
    outcome?;
    Ok(())
}

/// Compares a map with all routes, or with the first ones if there was no room for all.
fn expect_front(rt: &impl Abort, map: &UrlPatternMap<u32>, appended: &Result<(), Error>) {
    expect_same(
        rt,
        map.len() == ROUTES.len(),
        appended.is_ok(),
        "whether there was room",
    );
    for ((pattern, value), (pathname, expected)) in map.iter().zip(&ROUTES) {
        assert_eq!(rt; pattern.pathname(), *pathname);
        assert_eq!(rt; value, expected);
    }
    assert!(rt; matches!(appended, Ok(()) | Err(Error::OutOfMemory)));
}

/// Holds whichever request for memory fails.
#[test]
fn the_first_routes_are_held_if_there_is_no_room_for_all(rt: HostRuntime) {
    let Ok(entries) = entries(rt.alloc(), &ROUTES) else {
        return;
    };
    let mut map = UrlPatternMap::new(rt.alloc());
    let appended = map.extend(entries);
    expect_front(&rt, &map, &appended);
    drop(appended);
    drop(map);
}

/// Removes the second route of three.
fn expect_removed(
    rt: &impl Abort,
    alloc: Global,
    map: &mut UrlPatternMap<u32>,
) -> Result<(), Error> {
    assert!(rt; map.remove(ROUTES.len()).is_none());
    let removed = map.remove(1).map(|(_, value)| value);
    expect_same(rt, removed, Some(2), "removed");
    for (url, expected) in [
        ("https://example.com/users/me", Some((0, 1))),
        ("https://example.com/users/you", Some((1, 3))),
    ] {
        expect_same(rt, first_value(alloc, map, url)?, expected, url);
    }
    Ok(())
}

#[test]
fn a_route_is_removed_with_its_value(rt: HostRuntime) -> Result<(), Fail> {
    let mut map = routes(rt.alloc())?;
    let outcome = expect_removed(&rt, rt.alloc(), &mut map);
    drop(map);
    outcome?;
    Ok(())
}
