//! A component by itself: its tokens, its options, its canonical values and its matcher.

use crate::guide::{expect_line, line_of};
use std::alloc::Global;
use std::test::Fail;
use urlpattern::canonicalize_and_process::Canonicalizer;
use urlpattern::component::{Component, generate_matcher};
use urlpattern::matcher::{InnerMatcher, Matcher};
use urlpattern::parser::{Options, parse_pattern_string};
use urlpattern::regexp::PatternRegexp;
use urlpattern::tokenizer::{TokenizePolicy, tokenize};
use urlpattern::{ComponentName, Eight, Error, RegexSyntax, UrlPatternInit};

/// The component that a text names, if there is one, in words.
fn name_line(alloc: Global, text: &str) -> Result<String, Error> {
    // docs: names
    let component = ComponentName::from_name(text);
    // docs: end
    line_of(format!(in alloc; "{component:?}"))
}

#[test]
fn a_component_by_its_name(rt: HostRuntime) -> Result<(), Fail> {
    expect_line(&rt, name_line(rt.alloc(), "search"), "Some(Search)")?;
    Ok(())
}

/// The path of an init whose texts are made component by component, in words.
fn init_line(alloc: Global) -> Result<String, Error> {
    // docs: init_of
    let text_of = |component| -> Result<Option<String>, Error> {
        match component {
            ComponentName::Pathname => Ok(Some(String::from_str(alloc, "/users/:id")?)),
            _ => Ok(None),
        }
    };
    let texts = Eight::try_from_fn(text_of)?;
    let init = UrlPatternInit::from_eight(texts, None);
    // docs: end
    let line = line_of(format!(in alloc; "{:?}", init.pathname));
    drop(init);
    line
}

#[test]
fn an_init_by_its_components(rt: HostRuntime) -> Result<(), Fail> {
    expect_line(&rt, init_line(rt.alloc()), "Some(\"/users/:id\")")?;
    Ok(())
}

/// How many tokens a text has, in words.
fn tokens_line(alloc: Global) -> Result<String, Error> {
    // docs: tokens
    let tokens = tokenize(alloc, "/users/:id", TokenizePolicy::Strict)?;
    // docs: end
    line_of(format!(in alloc; "{} tokens", tokens.len()))
}

#[test]
fn the_tokens_of_a_text(rt: HostRuntime) -> Result<(), Fail> {
    expect_line(&rt, tokens_line(rt.alloc()), "9 tokens")?;
    Ok(())
}

/// The pattern text of a path, compiled with ECMAScript's syntax of regular expressions, with case
/// ignored.
fn path_line(alloc: Global) -> Result<String, Error> {
    // docs: options
    let options = Options {
        // docs: syntax
        regex_syntax: RegexSyntax::EcmaScript,
        // docs: end
        ignore_case: true,
        ..Options::pathname(alloc)?
    };
    // docs: end
    // docs: path_of
    let copied = |text: &str| -> Result<String, Error> { Ok(String::from_str(alloc, text)?) };
    let path: Component<PatternRegexp> = Component::compile(alloc, Some("/:id"), copied, options)?;
    // docs: end
    line_of(format!(in alloc; "{}", path.pattern_string))
}

#[test]
fn a_compiled_component(rt: HostRuntime) -> Result<(), Fail> {
    expect_line(&rt, path_line(rt.alloc()), "/:id")?;
    Ok(())
}

/// What a matcher compares a text with, in words.
fn matcher_line(alloc: Global) -> Result<String, Error> {
    let copied = |text: &str| -> Result<String, Error> { Ok(String::from_str(alloc, text)?) };
    // docs: matcher_of
    let options = Options::pathname(alloc)?;
    let parts = parse_pattern_string(alloc, "/users", &options, copied)?;
    let matcher: Matcher<PatternRegexp> = generate_matcher(alloc, &parts, &options, "")?;
    // docs: end
    let line = matcher_words(alloc, &matcher);
    drop(matcher);
    line
}

/// What a matcher compares a text with, in words.
fn matcher_words(alloc: Global, matcher: &Matcher<PatternRegexp>) -> Result<String, Error> {
    // docs: inner
    match &matcher.inner {
        InnerMatcher::Literal { literal } => Ok(format!(in alloc; "the text {literal}")?),
        InnerMatcher::SingleCapture { .. } => Ok(format!(in alloc; "one group")?),
        InnerMatcher::RegExp { .. } => Ok(format!(in alloc; "an engine")?),
    }
    // docs: end
}

#[test]
fn a_matcher(rt: HostRuntime) -> Result<(), Fail> {
    expect_line(&rt, matcher_line(rt.alloc()), "the text /users")?;
    Ok(())
}

/// The canonical form of a path.
fn canonical_line(alloc: Global) -> Result<String, Error> {
    // docs: canonicalizer
    let canonicalizer = Canonicalizer::shared(alloc)?;
    let path = canonicalizer.pathname("/a/../b")?;
    // docs: end
    Ok(path)
}

#[test]
fn a_canonical_path(rt: HostRuntime) -> Result<(), Fail> {
    expect_line(&rt, canonical_line(rt.alloc()), "/b")?;
    Ok(())
}
