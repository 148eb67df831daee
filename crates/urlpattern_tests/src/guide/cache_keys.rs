//! Cache keys: what a page is kept under, whatever else its URL says.

use crate::guide::{Pattern, expect_line, pattern};
use std::alloc::Global;
use std::test::Fail;
use url::Url;
use urlpattern::{ComponentName, Error};

/// The key of a page, in words.
fn key_line(alloc: Global, url: &str) -> Result<String, Error> {
    // docs: search
    let docs = pattern(
        alloc,
        "https://example.com/docs/:page\\?{*&}?lang=:lang([^&]*){&*}?",
    )?;
    // docs: end
    let url = Url::parse(alloc, url)?;
    let key = key(alloc, &docs, &url);
    drop(docs);
    key
}

/// The key of a page: its path, and the language where the search has one.
fn key(alloc: Global, docs: &Pattern, url: &Url) -> Result<String, Error> {
    // docs: key
    let path = url.path();
    match docs.captures(alloc, url)? {
        Some(found) => {
            let lang = found.get(ComponentName::Search, "lang").unwrap_or("");
            Ok(format!(in alloc; "{path} {lang}")?)
        }
        None => Ok(format!(in alloc; "{path}")?),
    }
    // docs: end
}

#[test]
fn the_key_of_a_page(rt: HostRuntime) -> Result<(), Fail> {
    let line = key_line(
        rt.alloc(),
        "https://example.com/docs/start?page=2&lang=fr&ref=mail",
    );
    expect_line(&rt, line, "/docs/start fr")?;
    let line = key_line(rt.alloc(), "https://example.com/docs/start?page=2");
    expect_line(&rt, line, "/docs/start")?;
    Ok(())
}
