//! Copies, comparisons, defaults and text forms of small values, and values that are set on one
//! URL.

use crate::given::{expect_same, init_of, path_of};
use std::alloc::Global;
use std::test::Fail;
use urlpattern::regexp::{PatternRegexp, RegExp};
use urlpattern::{ComponentName, Error, UrlPattern, UrlPatternOptions};
use urlpattern_canonical::canonicalize_and_process::{Canonicalizer, ProcessType};
use urlpattern_matcher::component::Component;
use urlpattern_parser::parser::{Options, PartModifier, PartType};
use urlpattern_parser::tokenizer::{TokenType, TokenizePolicy, tokenize};
use urlpattern_syntax::RegexSyntax;

#[test]
fn a_copy_of_options_has_each_field(rt: HostRuntime) -> Result<(), Fail> {
    let alloc = rt.alloc();
    let options = Options {
        regex_syntax: RegexSyntax::EcmaScript,
        ignore_case: true,
        ..Options::pathname(alloc)?
    };
    let copy = options.clone()?;
    expect_same(&rt, copy.delimiter_code_point, Some('/'), "a copy");
    expect_same(&rt, copy.prefix_code_point.as_str(), "/", "a copy");
    expect_same(&rt, copy.regex_syntax, RegexSyntax::EcmaScript, "a copy");
    assert!(rt; copy.ignore_case);
    Ok(())
}

#[test]
fn a_copy_of_a_token_has_each_field(rt: HostRuntime) -> Result<(), Fail> {
    let tokens = tokenize(rt.alloc(), "/users/:id", TokenizePolicy::Strict)?;
    for token in &tokens {
        let copy = token.clone()?;
        assert_eq!(rt; copy.kind, token.kind);
        assert_eq!(rt; copy.index, token.index);
        assert_eq!(rt; copy.value, token.value);
    }
    Ok(())
}

/// A pattern of this path.
fn path_pattern(alloc: Global, path: &str, ignore_case: bool) -> Result<UrlPattern, Error> {
    let options = UrlPatternOptions {
        ignore_case,
        ..UrlPatternOptions::default()
    };
    UrlPattern::parse(alloc, init_of(alloc, &[("pathname", path)])?, options)
}

#[test]
fn patterns_are_the_same_by_parts_and_options(rt: HostRuntime) -> Result<(), Fail> {
    let alloc = rt.alloc();
    let pattern = path_pattern(alloc, "/a{b}/:x", false)?;
    let others = [
        ("/ab/:x", false, true),
        ("/ab/:y", false, false),
        ("/ab/:x?", false, false),
        ("/ab/:x", true, false),
    ];
    for (path, ignore_case, same) in others {
        let other = path_pattern(alloc, path, ignore_case)?;
        assert!(rt; matches!(pattern.is_same(&other), Ok(found) if found == same), "{path}");
    }
    Ok(())
}

/// Where case is ignored, a component with a custom expression has a meaning only if its fixed
/// texts and its delimiter are ASCII. No compiled pattern has others; parts built by hand may.
#[test]
fn parts_outside_ascii_have_no_meaning_where_case_is_ignored(rt: HostRuntime) -> Result<(), Fail> {
    let alloc = rt.alloc();
    let rows = [
        ("/e", '/', true, true),
        ("/\u{e9}", '/', true, false),
        ("/\u{e9}", '/', false, true),
        ("/e", '\u{e9}', true, false),
        ("/e", '\u{e9}', false, true),
    ];
    for (fixed, delimiter, ignore_case, expected) in rows {
        let mut pattern = path_pattern(alloc, "/a(\\d+)", ignore_case)?;
        if let Some(parts) = &mut pattern.parts {
            let component = &mut parts.components.pathname;
            component.options.delimiter_code_point = Some(delimiter);
            for part in &mut component.parts {
                if part.kind == PartType::FixedText {
                    part.value = String::from_str(alloc, fixed)?;
                }
            }
        }
        let has_meaning = pattern.component_has_meaning_by_case(alloc, ComponentName::Pathname)?;
        expect_same(&rt, has_meaning, expected, fixed);
    }
    Ok(())
}

/// `PatternRegexp` keeps the text of a component's whole expression, and matches with it as well.
#[test]
fn a_whole_expression_matches(rt: HostRuntime) -> Result<(), Fail> {
    let alloc = rt.alloc();
    let matches = [
        ("/users/:id", "/users/7", Some("7")),
        ("/users/:id", "/users/", None),
        ("/users/(\\d+)", "/users/7", Some("7")),
        ("/users/(\\d+)", "/users/me", None),
    ];
    for (pattern, text, captured) in matches {
        let component: Component<PatternRegexp> = path_of(alloc, pattern)?;
        assert!(rt; component.regexp.is_ok());
        if let Ok(regexp) = &component.regexp {
            let found = regexp.matches(alloc, text)?;
            let first = found.and_then(|captures| captures[0]);
            expect_same(&rt, first, captured, pattern);
        }
    }
    Ok(())
}

#[test]
fn different_variants_are_not_equal(rt: HostRuntime) {
    assert!(rt;
        TokenType::Open != TokenType::Close
            && RegexSyntax::Rust != RegexSyntax::EcmaScript
            && PartType::SegmentWildcard != PartType::FullWildcard
            && PartModifier::ZeroOrMore != PartModifier::OneOrMore
            && TokenizePolicy::Strict != TokenizePolicy::Lenient
            && ProcessType::Pattern != ProcessType::Url
    );
    assert!(rt;
        TokenizePolicy::Lenient == TokenizePolicy::Lenient && ProcessType::Url == ProcessType::Url
    );
}

#[test]
fn a_syntax_is_a_name_in_json(rt: HostRuntime) -> Result<(), Fail> {
    let alloc = rt.alloc();
    expect_same(
        &rt,
        RegexSyntax::default(),
        RegexSyntax::Rust,
        "the default",
    );
    for (syntax, json) in [
        (RegexSyntax::Rust, "\"Rust\""),
        (RegexSyntax::EcmaScript, "\"EcmaScript\""),
    ] {
        assert_eq!(rt; serde_json::to_string(alloc, &syntax)?.as_str(), json);
        assert_eq!(rt; serde_json::from_str::<RegexSyntax>(alloc, json)?, syntax);
    }
    Ok(())
}

#[test]
fn values_are_set_on_one_url(rt: HostRuntime) -> Result<(), Fail> {
    let canonicalizer = Canonicalizer::shared(rt.alloc())?;
    assert_eq!(rt; canonicalizer.pathname("a/../b")?.as_str(), "/b");
    assert_eq!(rt; canonicalizer.search("a b")?.as_str(), "a%20b");
    Ok(())
}
