//! Compiled components as plain data, piece by piece, and inputs without JSON.

use crate::given::{expect_same, init_of, path_of, url_input};
use serde_json::Value;
use std::alloc::Global;
use std::process::Abort;
use std::test::Fail;
use urlpattern::component::Component;
use urlpattern::quirks::{EcmaRegexp, InnerMatcher, MatchInput, UrlPatternComponent};
use urlpattern::{ComponentName, Error, UrlPatternMatchInput};

#[test]
fn a_refused_regular_expression_is_an_empty_text(rt: HostRuntime) -> Result<(), Fail> {
    let alloc = rt.alloc();
    let middle = InnerMatcher::RegExp {
        regexp: String::from_str(alloc, "^(?:/(a[))$")?,
    };
    let component: Component<EcmaRegexp> = path_of(alloc, "/(a[)")?;
    let plain = UrlPatternComponent::from_component(alloc, component)?;
    assert_eq!(rt; plain.pattern_string.as_str(), "/(a[)");
    assert_eq!(rt; plain.regexp_string.as_str(), "");
    assert_eq!(rt; plain.matcher.inner, middle);
    drop(plain);
    drop(middle);
    Ok(())
}

/// The JSON of the default texts.
fn default_tree(alloc: Global) -> Result<Value, Error> {
    let texts = MatchInput::default(alloc);
    let tree = texts.to_json_value(alloc);
    drop(texts);
    tree
}

#[test]
fn the_default_texts_are_empty(rt: HostRuntime) -> Result<(), Fail> {
    let tree = default_tree(rt.alloc())?;
    for name in ComponentName::all() {
        let text = tree.get(name.as_str()).and_then(Value::as_str);
        expect_same(&rt, text, Some(""), name.as_str());
    }
    Ok(())
}

/// Whether an input equals its copy, and not another input.
fn is_copied(input: UrlPatternMatchInput, other: &UrlPatternMatchInput) -> Result<bool, Error> {
    let copy = input.clone()?;
    let is_copied = copy == input && copy != *other;
    drop(copy);
    drop(input);
    Ok(is_copied)
}

/// Compares inputs with their copies and with another input.
fn expect_copied(
    rt: &impl Abort,
    alloc: Global,
    other: &UrlPatternMatchInput,
) -> Result<(), Error> {
    let init = UrlPatternMatchInput::Init(init_of(alloc, &[("hostname", "a")])?);
    assert!(rt; is_copied(init, other)?);
    assert!(rt; is_copied(url_input(alloc, "https://example.com/")?, other)?);
    Ok(())
}

#[test]
fn a_copy_of_an_input_equals_it_and_no_other(rt: HostRuntime) -> Result<(), Fail> {
    let other = UrlPatternMatchInput::Init(init_of(rt.alloc(), &[])?);
    let outcome = expect_copied(&rt, rt.alloc(), &other);
    drop(other);
    outcome?;
    Ok(())
}
