//! Parses patterns, and compares the parts and what is generated from them.

use crate::case::{Case, succeeded};
use crate::matchers::is_matcher;
use crate::recorded::{Fault, has_text, has_texts, list, named, optional_text, options_of, text};
use serde_json::Value;
use std::alloc::Global;
use url::ParseError;
use urlpattern_engine::EcmaRegexp;
use urlpattern_matcher::component::{
    generate_matcher, generate_pattern_string, generate_regular_expression_and_name_list,
    normalize_part_list,
};
use urlpattern_matcher::matcher::Matcher;
use urlpattern_parser::parser::{Options, Part, PartModifier, PartType, parse_pattern_string};
use urlpattern_syntax::Error;

/// A callback for the texts of a pattern.
#[derive(Clone, Copy, Drop)]
pub enum Callback {
    /// Keeps the text.
    Keep,
    /// Returns an empty text.
    Empty,
    /// Repeats the text.
    Double,
    /// Rejects the text as a port would be.
    Refuse,
    /// Returns an empty text for a line feed.
    EmptyLineFeed,
}

/// The callbacks by name.
const CALLBACKS: &[(&str, Callback)] = &[
    ("keep", Callback::Keep),
    ("empty", Callback::Empty),
    ("double", Callback::Double),
    ("refuse", Callback::Refuse),
    ("empty_line_feed", Callback::EmptyLineFeed),
];

impl Callback {
    /// Calls the callback.
    fn encode(self, alloc: Global, text: &str) -> Result<String, Error> {
        match self {
            Callback::Keep => Ok(String::from_str(alloc, text)?),
            Callback::Empty => Ok(String::new(alloc)),
            Callback::Double => Ok(format!(in alloc; "{text}{text}")?),
            Callback::Refuse => Err(Error::Url(ParseError::InvalidPort)),
            Callback::EmptyLineFeed if text == "\n" => Ok(String::new(alloc)),
            Callback::EmptyLineFeed => Ok(String::from_str(alloc, text)?),
        }
    }
}

/// Whether the parts of a pattern, and what is generated from them, are the recorded ones.
pub fn is_same(case: &Case<'_>) -> Result<bool, Fault> {
    let callback = optional_text(case.question, "callback").unwrap_or("keep");
    let callback = named(CALLBACKS, callback)?;
    let pattern = text(case.question, "pattern")?;
    let options = options_of(case.alloc, case.question)?;
    let found = parts_of(case.alloc, pattern, &options, callback);
    let is_same = case.is_answer(
        found,
        |parts, recorded| succeeded(is_component(case.alloc, parts, &options, recorded)),
    );
    drop(options);
    is_same
}

/// Whether the normal form of the parts of a pattern is the recorded one. The pattern's texts are
/// kept as they are.
pub fn is_same_normal_form(case: &Case<'_>) -> Result<bool, Fault> {
    let pattern = text(case.question, "pattern")?;
    let options = options_of(case.alloc, case.question)?;
    let found = normal_form(case.alloc, pattern, &options);
    drop(options);
    case.is_answer(found, |parts, recorded| Ok(are_parts(parts, recorded)))
}

/// The normal form of the parts of a pattern.
fn normal_form(alloc: Global, pattern: &str, options: &Options) -> Result<Vec<Part>, Error> {
    let parts = parts_of(alloc, pattern, options, Callback::Keep)?;
    let unchanged = |text: &str| -> Result<String, Error> { Ok(String::from_str(alloc, text)?) };
    normalize_part_list(alloc, &parts, options, unchanged)
}

/// The parts of a pattern.
pub fn parts_of(
    alloc: Global,
    pattern: &str,
    options: &Options,
    callback: Callback,
) -> Result<Vec<Part>, Error> {
    let encode = |text: &str| -> Result<String, Error> { callback.encode(alloc, text) };
    parse_pattern_string(alloc, pattern, options, encode)
}

/// Whether parts, and what is generated from them, are the recorded ones.
fn is_component(
    alloc: Global,
    parts: &[Part],
    options: &Options,
    recorded: &Value,
) -> Result<bool, Error> {
    Ok(
        are_parts(parts, recorded)
            && is_expressed(alloc, parts, options, recorded)?
            && is_printed(alloc, parts, options, recorded)?
            && is_matched(alloc, parts, options, recorded)?,
    )
}

/// Whether the regular expression of parts, and the list of its names, are the recorded ones.
fn is_expressed(
    alloc: Global,
    parts: &[Part],
    options: &Options,
    recorded: &Value,
) -> Result<bool, Error> {
    let (regexp, names) = generate_regular_expression_and_name_list(alloc, parts, options)?;
    Ok(has_text(recorded, "regexp", &regexp) && has_texts(recorded, "names", &names))
}

/// Whether the pattern text of parts is the recorded one.
fn is_printed(
    alloc: Global,
    parts: &[Part],
    options: &Options,
    recorded: &Value,
) -> Result<bool, Error> {
    let pattern = generate_pattern_string(alloc, parts, options)?;
    Ok(has_text(recorded, "pattern", &pattern))
}

/// Whether the matcher of parts is the recorded one.
fn is_matched(
    alloc: Global,
    parts: &[Part],
    options: &Options,
    recorded: &Value,
) -> Result<bool, Error> {
    let matcher: Matcher<EcmaRegexp> = generate_matcher(alloc, parts, options, "u")?;
    let is_same = is_matcher(&matcher, recorded);
    drop(matcher);
    Ok(is_same)
}

/// Whether the parts are the recorded ones.
fn are_parts(parts: &[Part], recorded: &Value) -> bool {
    let Ok(recorded) = list(recorded, "parts") else {
        return false;
    };
    for (part, recorded) in parts.iter().zip(recorded) {
        if !is_part(part, recorded) {
            return false;
        }
    }
    parts.len() == recorded.len()
}

/// Whether a part has the recorded fields.
fn is_part(part: &Part, recorded: &Value) -> bool {
    has_text(recorded, "kind", kind_name(&part.kind))
        && has_text(recorded, "value", &part.value)
        && has_text(recorded, "modifier", modifier_name(&part.modifier))
        && has_text(recorded, "name", &part.name)
        && has_text(recorded, "prefix", &part.prefix)
        && has_text(recorded, "suffix", &part.suffix)
}

/// The name of the kind of a part.
fn kind_name(kind: &PartType) -> &'static str {
    match kind {
        PartType::FixedText => "FixedText",
        PartType::Regexp => "Regexp",
        PartType::SegmentWildcard => "SegmentWildcard",
        PartType::FullWildcard => "FullWildcard",
    }
}

/// The name of a modifier.
fn modifier_name(modifier: &PartModifier) -> &'static str {
    match modifier {
        PartModifier::None => "None",
        PartModifier::Optional => "Optional",
        PartModifier::ZeroOrMore => "ZeroOrMore",
        PartModifier::OneOrMore => "OneOrMore",
    }
}
