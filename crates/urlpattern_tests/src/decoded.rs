//! Captures that are percent-decoded.

use crate::given::{expect_same, pattern_of, url_of};
use std::alloc::Global;
use std::borrow::CowStr;
use std::process::Abort;
use std::test::Fail;
use url::Url;
use urlpattern::{ComponentName, DecodeError, Error, UrlPattern, decode, encode};

/// What is expected of a capture that is not UTF-8.
const NO_TEXT: &str = "not UTF-8";

/// The groups of the path, with what they decode to.
const DECODED: &[(&str, Option<&str>)] = &[
    ("x", Some("4/2 A")),
    ("y", Some("100%+%2")),
    ("z", Some(NO_TEXT)),
    ("w", None),
    ("v", None),
];

/// Compares a decoded text with the expected one.
fn expect_decoded(
    rt: &impl Abort,
    found: Result<Option<CowStr<'_>>, DecodeError>,
    expected: Option<&str>,
    name: &str,
) -> Result<(), Error> {
    match found {
        Ok(Some(text)) => expect_same(rt, Some(text.as_str()), expected, name),
        Ok(None) => expect_same(rt, None, expected, name),
        Err(DecodeError::Utf8(_)) => expect_same(rt, Some(NO_TEXT), expected, name),
        Err(DecodeError::OutOfMemory) => return Err(Error::OutOfMemory),
    }
    Ok(())
}

/// Compares the decoded captures of a URL, borrowed and owned.
fn expect_each(
    rt: &impl Abort,
    alloc: Global,
    pattern: &UrlPattern,
    url: &Url,
) -> Result<(), Error> {
    let Some(found) = pattern.captures(alloc, url)? else {
        panic!(rt; "no match");
    };
    let copy = found.to_result(alloc)?;
    for (name, expected) in DECODED {
        let borrowed = found.decoded(alloc, ComponentName::Pathname, name);
        expect_decoded(rt, borrowed, *expected, name)?;
        let owned = copy.decoded(alloc, ComponentName::Pathname, name);
        expect_decoded(rt, owned, *expected, name)?;
        let component = copy.pathname.decoded(alloc, name);
        expect_decoded(rt, component, *expected, name)?;
    }
    Ok(())
}

#[test]
fn captures_are_decoded(rt: HostRuntime) -> Result<(), Fail> {
    let alloc = rt.alloc();
    let url = url_of(alloc, "https://example.com/4%2f2%20%41/100%25+%2/%FF")?;
    let pattern = pattern_of(alloc, &[("pathname", "/:x/:y/:z{/:w}?")])?;
    let outcome = expect_each(&rt, alloc, &pattern, &url);
    drop(pattern);
    drop(url);
    outcome?;
    Ok(())
}

#[test]
fn texts_are_encoded_and_decoded(rt: HostRuntime) -> Result<(), Fail> {
    let alloc = rt.alloc();
    let text = encode(alloc, "a&b=é")?;
    assert_eq!(rt; text.as_str(), "a%26b%3D%C3%A9");
    let value = decode(alloc, text.as_str()).map(|value| Some(value));
    expect_decoded(&rt, value, Some("a&b=é"), "a value")?;
    Ok(())
}
