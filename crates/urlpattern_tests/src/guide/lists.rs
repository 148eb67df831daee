//! Lists and maps: the first pattern that matches a URL, with its value, all that match, and the
//! entries of a map.

use crate::guide::{expect_line, line_of, pattern, text};
use std::alloc::Global;
use std::test::Fail;
use url::Url;
use urlpattern::regexp::PatternRegexp;
use urlpattern::{ComponentName, Error, UrlPatternList, UrlPatternMap};

/// The index of the first pattern of a list that matches a URL, in words.
fn first_line(alloc: Global, url: &str) -> Result<String, Error> {
    // docs: list
    let mut patterns = UrlPatternList::new(alloc);
    patterns.try_push(pattern(alloc, "https://example.com/users/*")?)?;
    patterns.try_push(pattern(alloc, "https://example.com/*")?)?;
    // docs: end
    let url = Url::parse(alloc, url)?;
    match patterns.first_captures(alloc, &url)? {
        Some((index, _)) => line_of(format!(in alloc; "pattern {index}")),
        None => text(alloc, "no match"),
    }
}

#[test]
fn the_first_pattern_of_a_list(rt: HostRuntime) -> Result<(), Fail> {
    let user = first_line(rt.alloc(), "https://example.com/users/123");
    expect_line(&rt, user, "pattern 0")?;
    let page = first_line(rt.alloc(), "https://example.com/about");
    expect_line(&rt, page, "pattern 1")?;
    Ok(())
}

/// The index of the first pattern of a list that matches a URL, and the path of the URL, in words.
fn matches_line(alloc: Global) -> Result<String, Error> {
    let mut patterns = UrlPatternList::new(alloc);
    patterns.try_push(pattern(alloc, "https://example.com/users/*")?)?;
    patterns.try_push(pattern(alloc, "https://example.com/*")?)?;
    let url = Url::parse(alloc, "https://example.com/about")?;
    // docs: matches
    let mut matches = patterns.matches(alloc, &url);
    let Some(first) = matches.next() else {
        return text(alloc, "no match");
    };
    let (index, captures) = first?;
    // docs: end
    let path = captures.input(ComponentName::Pathname);
    line_of(format!(in alloc; "pattern {index} of {path}"))
}

#[test]
fn all_matches_of_a_list(rt: HostRuntime) -> Result<(), Fail> {
    expect_line(&rt, matches_line(rt.alloc()), "pattern 1 of /about")?;
    Ok(())
}

/// Returns routes, each with the page that it shows.
// docs: map
fn pages(alloc: Global) -> Result<UrlPatternMap<&'static str, PatternRegexp>, Error> {
    // docs: pages
    let mut pages = UrlPatternMap::new(alloc);
    pages.try_insert(pattern(alloc, "https://example.com/users/:id")?, "profile")?;
    pages.try_insert(
        pattern(alloc, "https://example.com/users/:id/files/*")?,
        "files",
    )?;
    pages.try_insert(pattern(alloc, "https://example.com/*")?, "page")?;
    Ok(pages)
    // docs: end
}
// docs: end

/// The page that a URL shows, and for which user, in words.
fn page_line(alloc: Global, url: &str) -> Result<String, Error> {
    let pages = pages(alloc)?;
    let url = Url::parse(alloc, url)?;
    let Some((_, page, found)) = pages.first_captures(alloc, &url)? else {
        return text(alloc, "no page");
    };
    match found.get(ComponentName::Pathname, "id") {
        Some(id) => line_of(format!(in alloc; "{page} of {id}")),
        None => text(alloc, page),
    }
}

#[test]
fn the_value_of_the_first_pattern_of_a_map(rt: HostRuntime) -> Result<(), Fail> {
    let user = page_line(rt.alloc(), "https://example.com/users/123");
    expect_line(&rt, user, "profile of 123")?;
    let file = page_line(rt.alloc(), "https://example.com/users/123/files/a/b");
    expect_line(&rt, file, "files of 123")?;
    let page = page_line(rt.alloc(), "https://example.com/about");
    expect_line(&rt, page, "page")?;
    Ok(())
}

/// The pattern text of the path of the first pattern of a map, and its value, in words.
fn entry_line(alloc: Global) -> Result<String, Error> {
    let mut pages = UrlPatternMap::new(alloc);
    pages.try_insert(pattern(alloc, "https://example.com/*")?, "page")?;
    // docs: map_entries
    let mut entries = pages.iter();
    let first = entries.next();
    // docs: end
    match first {
        Some((pattern, value)) => line_of(format!(in alloc; "{}: {value}", pattern.pathname())),
        None => text(alloc, "no entry"),
    }
}

#[test]
fn the_entries_of_a_map(rt: HostRuntime) -> Result<(), Fail> {
    expect_line(&rt, entry_line(rt.alloc()), "/*: page")?;
    Ok(())
}
