//! Lists of patterns: their elements, which patterns are tried, components built by hand, and a
//! list that finds no room.

use crate::given::{expect_same, pattern_of, url_input, url_of};
use crate::stubborn::KeptText;
use regex::Regex;
use std::alloc::Global;
use std::process::Abort;
use std::test::Fail;
use urlpattern::quirks::parse_match_input;
use urlpattern::regexp::RegExp;
use urlpattern::{
    ComponentName, Error, UrlPattern, UrlPatternList, UrlPatternMatches, pathname_texts,
};

/// A path that needs no engine, and matches two segments.
const NAME: &str = "/a/:x";

/// A path that needs an engine.
const ASKS: &str = "/(.+)";

/// The patterns with these paths.
fn list_of<R: RegExp>(alloc: Global, pathnames: &[&str]) -> Result<UrlPatternList<R>, Error> {
    let mut list = UrlPatternList::new(alloc);
    for pathname in pathnames {
        add(&mut list, pattern_of(alloc, &[("pathname", *pathname)])?)?;
    }
    Ok(list)
}

/// Appends a pattern.
fn add<R: RegExp>(list: &mut UrlPatternList<R>, pattern: UrlPattern<R>) -> Result<(), Error> {
    if list.push(pattern).is_err() {
        return Err(Error::OutOfMemory);
    }
    Ok(())
}

/// The index of the first pattern of a list that matches a URL.
fn first_index<R: RegExp>(
    alloc: Global,
    list: &UrlPatternList<R>,
    url: &str,
) -> Result<Option<usize>, Error> {
    let found = list.first_match(alloc, url_input(alloc, url)?);
    let index = match &found {
        Ok(Some((index, _))) => Ok(Some(*index)),
        Ok(None) => Ok(None),
        Err(_) => Err(Error::OutOfMemory),
    };
    drop(found);
    index
}

/// Whether the `Debug` output of a list is not empty.
fn is_shown(alloc: Global, list: &UrlPatternList) -> Result<bool, Error> {
    let written = format!(in alloc; "{list:?}")?;
    Ok(!written.is_empty())
}

/// Compares the elements of a list.
fn expect_held(
    rt: &impl Abort,
    alloc: Global,
    list: &UrlPatternList,
    pathnames: &[&str],
) -> Result<(), Error> {
    expect_same(rt, list.len(), pathnames.len(), "the list");
    for (pattern, pathname) in list.iter().zip(pathnames) {
        expect_same(rt, pattern.pathname(), *pathname, "a pattern");
    }
    assert!(rt; list.get(pathnames.len()).is_none());
    assert!(rt; is_shown(alloc, list)?);
    Ok(())
}

#[test]
fn a_list_holds_its_patterns_in_their_order(rt: HostRuntime) -> Result<(), Fail> {
    let empty = <UrlPatternList>::new(rt.alloc());
    assert!(rt; empty.is_empty());
    assert!(rt; empty.get(0).is_none());
    drop(empty);
    let pathnames = [NAME, ASKS, "/a/*"];
    let list = list_of(rt.alloc(), &pathnames)?;
    let outcome = expect_held(&rt, rt.alloc(), &list, &pathnames);
    drop(list);
    outcome?;
    Ok(())
}

/// The index of the first pattern with one of these paths that matches a URL of two segments. Each
/// call of an engine runs out of memory.
fn first_unasked(alloc: Global, pathnames: &[&str]) -> Result<Option<usize>, Error> {
    let list = list_of::<KeptText>(alloc, pathnames)?;
    let index = first_index(alloc, &list, "https://example.com/a/b");
    drop(list);
    index
}

#[test]
fn patterns_are_asked_up_to_the_first_match(rt: HostRuntime) -> Result<(), Fail> {
    expect_same(
        &rt,
        first_unasked(rt.alloc(), &[NAME, ASKS])?,
        Some(0),
        "the list",
    );
    let found = first_unasked(rt.alloc(), &[ASKS, NAME]);
    assert!(rt; matches!(found, Err(Error::OutOfMemory)));
    Ok(())
}

/// A pattern with a component that was changed to ignore case. Its parts are no longer those of its
/// components.
fn pattern_ignoring_case(alloc: Global) -> Result<UrlPattern, Error> {
    let mut pattern = pattern_of(alloc, &[("pathname", NAME)])?;
    pattern.parts = None;
    pattern.pathname.matcher.ignore_case = true;
    Ok(pattern)
}

/// A pattern with a host that was changed after it was compiled.
fn pattern_of_a_changed_host(alloc: Global) -> Result<UrlPattern, Error> {
    let mut pattern = pattern_of(alloc, &[("hostname", "example.com")])?;
    pattern.parts = None;
    pattern.hostname.matcher.suffix.push_str(".org")?;
    Ok(pattern)
}

/// Two patterns with components built by hand.
fn list_by_hand(alloc: Global) -> Result<UrlPatternList, Error> {
    let mut list = UrlPatternList::new(alloc);
    add(&mut list, pattern_ignoring_case(alloc)?)?;
    add(&mut list, pattern_of_a_changed_host(alloc)?)?;
    Ok(list)
}

#[test]
fn a_component_put_together_by_hand_is_found(rt: HostRuntime) -> Result<(), Fail> {
    let list = list_by_hand(rt.alloc())?;
    for (url, expected) in [
        ("https://example.com/A/b", Some(0)),
        ("https://example.com.org/b", Some(1)),
        ("https://example.com/b", None),
    ] {
        expect_same(&rt, first_index(rt.alloc(), &list, url)?, expected, url);
    }
    Ok(())
}

/// Paths, of which all but the second match a path of two segments.
const SEVERAL: [&str; 4] = [NAME, "/b/:x", "/a/*", "/:x/:y"];

/// Removes the first and the last pattern.
fn expect_removed(rt: &impl Abort, alloc: Global, list: &mut UrlPatternList) -> Result<(), Error> {
    let url = "https://example.com/a/b";
    expect_same(rt, first_index(alloc, list, url)?, Some(0), url);
    let removed = list.remove(0);
    expect_same(
        rt,
        removed.as_ref().map(|pattern| pattern.pathname()),
        Some(NAME),
        "removed",
    );
    drop(removed);
    expect_same(rt, first_index(alloc, list, url)?, Some(1), url);
    drop(list.remove(2));
    assert!(rt; list.remove(2).is_none());
    expect_held(rt, alloc, list, &SEVERAL[1..3])
}

#[test]
fn a_pattern_is_removed(rt: HostRuntime) -> Result<(), Fail> {
    let mut list = list_of(rt.alloc(), &SEVERAL)?;
    let outcome = expect_removed(&rt, rt.alloc(), &mut list);
    drop(list);
    outcome?;
    Ok(())
}

/// The indices of the patterns that match, of which the path is `/a/b`.
fn indices(
    rt: &impl Abort,
    alloc: Global,
    matches: UrlPatternMatches<'_, '_, Regex>,
) -> Result<Vec<usize>, Error> {
    let mut found = Vec::new(alloc);
    for item in matches {
        let (index, captures) = item?;
        assert_eq!(rt; captures.input(ComponentName::Pathname), "/a/b");
        drop(captures);
        found.push(index)?;
    }
    Ok(found)
}

/// Compares the indices of the patterns that match a URL, and those that match its path.
fn expect_matches(
    rt: &impl Abort,
    alloc: Global,
    list: &UrlPatternList,
    expected: &[usize],
) -> Result<(), Error> {
    let url = url_of(alloc, "https://example.com/a/b")?;
    let found = indices(rt, alloc, list.matches(alloc, &url));
    drop(url);
    expect_same(rt, found?.as_slice(), expected, "all matches");
    let texts = pathname_texts("/a/b");
    let found = indices(rt, alloc, list.matches_of_texts(alloc, texts))?;
    expect_same(rt, found.as_slice(), expected, "all matches of texts");
    let Some(matches) = list.matches_of_path(alloc, "/a/b") else {
        return Ok(());
    };
    let found = indices(rt, alloc, matches)?;
    expect_same(rt, found.as_slice(), expected, "all matches of a path");
    assert!(rt; list.matches_of_path(alloc, "a/b").is_none());
    Ok(())
}

/// Compares the indices of the patterns that match an input.
fn expect_matches_of_input(
    rt: &impl Abort,
    alloc: Global,
    list: &UrlPatternList,
    expected: &[usize],
) -> Result<(), Error> {
    let url = url_input(alloc, "https://example.com/a/b")?;
    let Some(input) = parse_match_input(alloc, url)? else {
        return Ok(());
    };
    let found = indices(rt, alloc, list.matches_of_input(alloc, &input));
    drop(input);
    expect_same(rt, found?.as_slice(), expected, "all matches of an input");
    Ok(())
}

#[test]
fn all_matches_come_in_order(rt: HostRuntime) -> Result<(), Fail> {
    let list = list_of(rt.alloc(), &SEVERAL)?;
    let outcome = expect_matches(&rt, rt.alloc(), &list, &[0, 2, 3]);
    let of_input = expect_matches_of_input(&rt, rt.alloc(), &list, &[0, 2, 3]);
    drop(list);
    outcome?;
    of_input?;
    Ok(())
}

/// Compares a list that holds a pattern, or is empty if the pattern was returned as the error.
fn expect_back<R: RegExp>(
    rt: &impl Abort,
    list: &UrlPatternList<R>,
    pushed: &Result<(), UrlPattern<R>>,
) {
    match pushed {
        Ok(()) => expect_same(rt, list.len(), 1, "the list"),
        Err(pattern) => {
            expect_same(rt, pattern.pathname(), NAME, "what came back");
            assert!(rt; list.is_empty());
        }
    }
}

/// Holds whichever request for memory fails.
#[test]
fn a_pattern_that_finds_no_room_comes_back(rt: HostRuntime) {
    let Ok(pattern) = pattern_of::<Regex>(rt.alloc(), &[("pathname", NAME)]) else {
        return;
    };
    let mut list = UrlPatternList::new(rt.alloc());
    let pushed = list.push(pattern);
    expect_back(&rt, &list, &pushed);
    drop(pushed);
    drop(list);
}
