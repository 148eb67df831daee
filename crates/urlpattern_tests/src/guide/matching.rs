//! Matching: whether a pattern matches a URL, and what its groups capture.

use crate::guide::{Pattern, expect_line, line_of, pattern, text};
use std::alloc::Global;
use std::test::Fail;
use url::Url;
use urlpattern::{
    ComponentName, Error, UrlPatternInit, UrlPatternMatchInput, UrlPatternOptions,
    UrlPatternResult, pathname_texts, url_texts,
};

/// A pattern of files, with two groups in its path, of which the second may be missing.
const FILES: &str = "https://example.com/users/:id{/files/:file}?";

/// The user that a path names by a pattern of a path alone, in words.
fn path_line(alloc: Global, path: &str) -> Result<String, Error> {
    // docs: init
    let mut init = UrlPatternInit::default();
    init.pathname = Some(String::from_str(alloc, "/users/:id")?);
    let users = Pattern::parse(alloc, init, UrlPatternOptions::default())?;
    // docs: end
    let Some(found) = users.captures_of_texts(alloc, &pathname_texts(path))? else {
        return text(alloc, "no user");
    };
    let id = found.get(ComponentName::Pathname, "id");
    line_of(format!(in alloc; "{id:?}"))
}

#[test]
fn a_pattern_of_a_path(rt: HostRuntime) -> Result<(), Fail> {
    expect_line(&rt, path_line(rt.alloc(), "/users/123"), "Some(\"123\")")?;
    expect_line(&rt, path_line(rt.alloc(), "/users/123/files"), "no user")?;
    Ok(())
}

/// Whether a pattern matches a URL, in words.
fn test_line(alloc: Global) -> Result<String, Error> {
    // docs: test
    let users = pattern(alloc, "https://example.com/users/:id")?;
    // docs: url_input
    let url = Url::parse(alloc, "https://example.com/users/123")?;
    let input = UrlPatternMatchInput::Url(url);
    // docs: end
    let is_user = users.test(alloc, input)?;
    // docs: end
    line_of(format!(in alloc; "a user: {is_user}"))
}

#[test]
fn whether_a_pattern_matches(rt: HostRuntime) -> Result<(), Fail> {
    expect_line(&rt, test_line(rt.alloc()), "a user: true")?;
    Ok(())
}

/// What a group captures of a URL, and the names of all groups of the path, sorted, in words.
fn exec_line(alloc: Global) -> Result<String, Error> {
    // docs: exec
    let users = pattern(alloc, "https://example.com/users/:id")?;
    let url = Url::parse(alloc, "https://example.com/users/123")?;
    let found = users.exec(alloc, UrlPatternMatchInput::Url(url))?;
    // docs: end
    let line = match &found {
        Some(found) => groups_of(alloc, found),
        None => text(alloc, "no match"),
    };
    drop(found);
    line
}

/// What a group captures, and the names of all groups of the path, sorted, in words.
fn groups_of(alloc: Global, found: &UrlPatternResult) -> Result<String, Error> {
    // docs: result
    let id = found.get(ComponentName::Pathname, "id");
    // docs: end
    // docs: sorted_names
    let names = found.pathname.sorted_names(alloc)?;
    // docs: end
    line_of(format!(in alloc; "{id:?}, all groups: {names:?}"))
}

#[test]
fn an_owned_match(rt: HostRuntime) -> Result<(), Fail> {
    let line = exec_line(rt.alloc());
    expect_line(&rt, line, "Some(\"123\"), all groups: [\"id\"]")?;
    Ok(())
}

/// The two groups of a path, and the first group of all components, each with its capture, in
/// words.
fn groups_line(alloc: Global) -> Result<String, Error> {
    let files = pattern(alloc, FILES)?;
    let url = Url::parse(alloc, "https://example.com/users/123")?;
    let Some(found) = files.captures(alloc, &url)? else {
        return text(alloc, "no match");
    };
    // docs: groups
    let mut groups = found.groups(ComponentName::Pathname);
    let id = groups.next();
    let file = groups.next();
    // docs: end
    // docs: all_groups
    let mut all_groups = found.iter();
    let first = all_groups.next();
    // docs: end
    line_of(format!(in alloc; "{id:?}, {file:?}, first {first:?}"))
}

#[test]
fn the_groups_of_a_match(rt: HostRuntime) -> Result<(), Fail> {
    let line = groups_line(rt.alloc());
    let line = line;
    expect_line(&rt, line, "Some((\"id\", Some(\"123\"))), Some((\"file\", None)), first Some((Username, \"0\", Some(\"\")))")?;
    Ok(())
}

/// The first component of a URL that a pattern does not match, found by the URL and by its eight
/// texts, in words.
fn mismatch_line(alloc: Global) -> Result<String, Error> {
    // docs: mismatch
    let users = pattern(alloc, "https://example.com/users/:id")?;
    let url = Url::parse(alloc, "https://example.org/users/123")?;
    let component = users.mismatch(alloc, &url)?;
    // docs: end
    let of_texts = users.mismatch_of_texts(alloc, &url_texts(&url))?;
    line_of(format!(in alloc; "{component:?}, {of_texts:?}"))
}

#[test]
fn what_a_pattern_does_not_match(rt: HostRuntime) -> Result<(), Fail> {
    let line = mismatch_line(rt.alloc());
    expect_line(&rt, line, "Some(Hostname), Some(Hostname)")?;
    Ok(())
}

/// The host and the port that a pattern of several hosts and ports captures, in words.
fn hosts_line(alloc: Global, url: &str) -> Result<String, Error> {
    // docs: hosts
    let pages = pattern(alloc, "http{s}?://{:sub.}?example.com::port(8080)?/:page")?;
    let url = Url::parse(alloc, url)?;
    // docs: end
    let Some(found) = pages.captures(alloc, &url)? else {
        return text(alloc, "another host or port");
    };
    let sub = found.get(ComponentName::Hostname, "sub");
    let port = found.get(ComponentName::Port, "port");
    line_of(format!(in alloc; "below {sub:?}, port {port:?}"))
}

#[test]
fn several_hosts_and_ports(rt: HostRuntime) -> Result<(), Fail> {
    let line = hosts_line(rt.alloc(), "http://www.example.com/about");
    expect_line(&rt, line, "below Some(\"www\"), port None")?;
    let line = hosts_line(rt.alloc(), "https://example.com:8080/about");
    expect_line(&rt, line, "below None, port Some(\"8080\")")?;
    let line = hosts_line(rt.alloc(), "https://example.com:81/about");
    expect_line(&rt, line, "another host or port")?;
    Ok(())
}
