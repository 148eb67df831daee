//! Texts of a component, links and redirects, made from groups.

use crate::guide::{Pattern, expect_line, line_of, pattern, text};
use std::alloc::Global;
use std::test::Fail;
use url::Url;
use urlpattern::{ComponentName, Error, GenerateError, NoLink};

/// The path that the pattern of users matches when its group captures `id`, or why there is none,
/// in words.
fn generate_line(alloc: Global, id: &str) -> Result<String, Error> {
    // docs: generate
    let users = pattern(alloc, "https://example.com/users/:id")?;
    let groups = [(ComponentName::Pathname, "id", id)];
    let path = users.generate(alloc, ComponentName::Pathname, &groups);
    // docs: end
    // docs: generate_error
    match path {
        Ok(path) => Ok(format!(in alloc; "the path {path}")?),
        Err(GenerateError::OutOfMemory) => Err(Error::OutOfMemory),
        Err(error) => Ok(format!(in alloc; "no path: {error}")?),
    }
    // docs: end
}

#[test]
fn the_text_of_a_component(rt: HostRuntime) -> Result<(), Fail> {
    let line = generate_line(rt.alloc(), "a b");
    expect_line(&rt, line, "the path /users/a%20b")?;
    let line = generate_line(rt.alloc(), "");
    let line = line;
    expect_line(&rt, line, "no path: the group `pathname.id` cannot capture what is given for it: give a text that it matches")?;
    Ok(())
}

/// The URL of a user, or that there is none, in words.
fn link_line(alloc: Global, id: &str) -> Result<String, Error> {
    let users = pattern(alloc, "https://example.com/users/:id")?;
    let url = users.link(alloc, &[(ComponentName::Pathname, "id", id)]);
    // docs: no_link
    match url {
        Ok(url) => Ok(format!(in alloc; "user {id}: {url}")?),
        Err(NoLink::OutOfMemory) => Err(Error::OutOfMemory),
        Err(_) => Ok(format!(in alloc; "user {id}: no URL")?),
    }
    // docs: end
}

#[test]
fn the_link_of_a_user(rt: HostRuntime) -> Result<(), Fail> {
    let line = link_line(rt.alloc(), "a b");
    expect_line(&rt, line, "user a b: https://example.com/users/a%20b")?;
    let line = link_line(rt.alloc(), "a/b");
    expect_line(&rt, line, "user a/b: no URL")?;
    Ok(())
}

/// The URL of a search, whose words are percent-encoded, or why there is none, in words.
fn search_line(alloc: Global, words: &str) -> Result<String, Error> {
    // docs: link_encoded
    let search = pattern(alloc, "https://example.com/search\\?q=:q")?;
    let url = search.link_encoded(alloc, &[(ComponentName::Search, "q", words)]);
    // docs: end
    written(alloc, url)
}

#[test]
fn a_link_with_encoded_words(rt: HostRuntime) -> Result<(), Fail> {
    let line = search_line(rt.alloc(), "a&b=c");
    expect_line(&rt, line, "https://example.com/search?q=a%26b%3Dc")?;
    Ok(())
}

/// Where a URL has moved to, in words.
fn redirect_line(alloc: Global, url: &str) -> Result<String, Error> {
    let before = pattern(alloc, "https://example.com/blog/:slug")?;
    let after = pattern(alloc, "https://www.example.com/posts/:slug")?;
    let url = Url::parse(alloc, url)?;
    let line = moved(alloc, &before, &after, &url);
    drop(before);
    drop(after);
    line
}

/// Where a URL that the first pattern matches has moved to by the second one, in words.
fn moved(alloc: Global, before: &Pattern, after: &Pattern, url: &Url) -> Result<String, Error> {
    // docs: redirect
    let Some(found) = before.captures(alloc, url)? else {
        return text(alloc, "not moved");
    };
    let groups = found.to_groups(alloc)?;
    let url = after.link(alloc, &groups);
    // docs: end
    written(alloc, url)
}

#[test]
fn a_redirect(rt: HostRuntime) -> Result<(), Fail> {
    let line = redirect_line(rt.alloc(), "https://example.com/blog/hello?page=2");
    expect_line(&rt, line, "https://www.example.com/posts/hello?page=2")?;
    let line = redirect_line(rt.alloc(), "https://example.com/about");
    expect_line(&rt, line, "not moved")?;
    Ok(())
}

/// A URL, or why there is none, in words.
fn written(alloc: Global, url: Result<Url, NoLink>) -> Result<String, Error> {
    match url {
        Ok(url) => line_of(format!(in alloc; "{url}")),
        Err(NoLink::OutOfMemory) => Err(Error::OutOfMemory),
        Err(error) => line_of(format!(in alloc; "no URL: {error}")),
    }
}
