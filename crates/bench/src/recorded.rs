//! Recorded cases: a question and its result on each line, as JSON.

use serde_json::Value;
use std::alloc::{AllocError, Global};
use urlpattern_parser::parser::Options;
use urlpattern_pattern::CompareError;
use urlpattern_syntax::RegexSyntax;
use urlpattern_syntax::error::OutOfMemory;

/// The reason why a line has no outcome.
#[derive(Drop)]
pub enum Fault {
    /// The line has no case that is known.
    NoCase,
    /// Memory ran out.
    OutOfMemory,
}

impl From<AllocError> for Fault {
    fn from(_: AllocError) -> Fault {
        Fault::OutOfMemory
    }
}

impl From<CompareError> for Fault {
    fn from(error: CompareError) -> Fault {
        match error {
            CompareError::NoParts => Fault::NoCase,
            CompareError::OutOfMemory => Fault::OutOfMemory,
        }
    }
}

impl From<OutOfMemory> for Fault {
    fn from(_: OutOfMemory) -> Fault {
        Fault::OutOfMemory
    }
}

impl From<serde_json::Error> for Fault {
    fn from(error: serde_json::Error) -> Fault {
        if error.is_memory() {
            Fault::OutOfMemory
        } else {
            Fault::NoCase
        }
    }
}

/// The operation of a case.
#[derive(Clone, Copy, PartialEq, Eq, Drop)]
pub enum Operation {
    /// Tokenizes a text.
    Tokenize,
    /// Parses a pattern, and generates texts from its parts.
    Component,
    /// Normalizes the parts of a pattern.
    NormalForm,
    /// Compiles a component.
    Compile,
    /// Calls a regular expression engine.
    Engine,
    /// Calls the matcher of a pattern.
    Matches,
    /// Calls a matcher built by hand.
    HandMatcher,
    /// Canonicalizes a value.
    Canonicalize,
    /// Processes a value of an init, or escapes a text.
    Process,
    /// Processes a match input.
    MatchInput,
    /// Parses a constructor string.
    Constructor,
    /// Makes the init of a string or of a browser's init.
    Construct,
    /// Compiles a pattern, and matches inputs.
    Pattern,
    /// Compiles a pattern as plain data.
    QuirksPattern,
    /// Finds the first match of inputs in a list of patterns.
    FirstMatch,
    /// Diagnoses a pattern.
    Diagnose,
    /// Generates the text of a component with given groups.
    Generate,
    /// Generates the URL of a pattern with given groups.
    Link,
    /// Writes a pattern as a constructor string and as an init.
    Text,
    /// Compares two patterns by how specific they are in a component.
    Compare,
    /// Decides whether a pattern covers another, and whether they overlap.
    Covers,
    /// Finds the patterns of a list that an earlier one covers.
    Unreachable,
    /// Finds the pairs of patterns of a list that contend.
    Contending,
    /// Finds texts that some patterns match, and others do not.
    Common,
    /// Finds the patterns of a list that cover another one together.
    Together,
    /// Decides about texts by a policy.
    Decide,
    /// Compares two policies.
    Difference,
    /// Finds what a policy allows and a pattern does not match.
    Within,
    /// Finds the rules of a policy that never decide.
    Dead,
    /// Adds static routes, and decides about requests.
    Routes,
    /// Finds the rules of static routes that never decide, with those that take all.
    RouteReach,
    /// Finds the rules of two lists of static routes that decide about the same request.
    RoutesDiff,
    /// Reads a policy from a text, and writes it.
    PolicyText,
    /// Reads a policy from JSON, and writes it.
    PolicyJson,
    /// Decides which components of a pattern have a meaning.
    Meaning,
    /// Writes a plain value as JSON that was parsed from JSON.
    Json,
    /// Compares the values of a type with each other.
    Equal,
}

/// The operations by name, in the order in which their counts are printed.
pub const OPERATIONS: &[(&str, Operation)] = &[
    ("tokenize", Operation::Tokenize),
    ("component", Operation::Component),
    ("normal_form", Operation::NormalForm),
    ("compile", Operation::Compile),
    ("engine", Operation::Engine),
    ("matches", Operation::Matches),
    ("hand_matcher", Operation::HandMatcher),
    ("canonicalize", Operation::Canonicalize),
    ("process", Operation::Process),
    ("match_input", Operation::MatchInput),
    ("constructor", Operation::Constructor),
    ("construct", Operation::Construct),
    ("pattern", Operation::Pattern),
    ("quirks_pattern", Operation::QuirksPattern),
    ("first_match", Operation::FirstMatch),
    ("diagnose", Operation::Diagnose),
    ("generate", Operation::Generate),
    ("link", Operation::Link),
    ("text", Operation::Text),
    ("compare", Operation::Compare),
    ("covers", Operation::Covers),
    ("unreachable", Operation::Unreachable),
    ("contending", Operation::Contending),
    ("common", Operation::Common),
    ("together", Operation::Together),
    ("decide", Operation::Decide),
    ("difference", Operation::Difference),
    ("within", Operation::Within),
    ("dead", Operation::Dead),
    ("routes", Operation::Routes),
    ("route_reach", Operation::RouteReach),
    ("routes_diff", Operation::RoutesDiff),
    ("policy_text", Operation::PolicyText),
    ("policy_json", Operation::PolicyJson),
    ("meaning", Operation::Meaning),
    ("json", Operation::Json),
    ("equal", Operation::Equal),
];

impl Operation {
    /// Whether the results are those of an engine. The question may name it.
    pub fn asks_engine(self) -> bool {
        matches!(
            self,
            Operation::Compile
                | Operation::Engine
                | Operation::Matches
                | Operation::Pattern
                | Operation::QuirksPattern
                | Operation::FirstMatch
                | Operation::Diagnose
                | Operation::Generate
                | Operation::Link
                | Operation::Text
        )
    }
}

/// A recorded result.
#[derive(Clone, Copy)]
pub enum Answer<'a> {
    /// The result of a call that succeeded.
    Ok(&'a Value),
    /// The printed text of the error.
    Err(&'a str),
}

impl<'a> Answer<'a> {
    /// The result of a case.
    pub fn of(case: &'a Value) -> Result<Answer<'a>, Fault> {
        Answer::read(field(case, "out")?)
    }

    /// The result over `PatternRegexp`. It is recorded only if it differs.
    pub fn over_pattern_regexp(case: &'a Value) -> Result<Answer<'a>, Fault> {
        match case.get("out_pattern") {
            Some(answer) => Answer::read(answer),
            None => Answer::of(case),
        }
    }

    /// The result in an object.
    fn read(answer: &'a Value) -> Result<Answer<'a>, Fault> {
        if let Some(error) = optional_text(answer, "err") {
            return Ok(Answer::Err(error));
        }
        Ok(Answer::Ok(field(answer, "ok")?))
    }
}

/// The value with a name in a table.
pub fn named<T: Copy>(table: &[(&str, T)], name: &str) -> Result<T, Fault> {
    match table.iter().find(|(other, _)| *other == name) {
        Some((_, value)) => Ok(*value),
        None => Err(Fault::NoCase),
    }
}

/// A field that must be there.
pub fn field<'a>(object: &'a Value, name: &str) -> Result<&'a Value, Fault> {
    object.get(name).ok_or(Fault::NoCase)
}

/// The text of a field.
pub fn text<'a>(object: &'a Value, name: &str) -> Result<&'a str, Fault> {
    optional_text(object, name).ok_or(Fault::NoCase)
}

/// The text of a field. `None`: it is missing or null.
pub fn optional_text<'a>(object: &'a Value, name: &str) -> Option<&'a str> {
    object.get(name).and_then(Value::as_str)
}

/// The elements of a field that is a list.
pub fn list<'a>(object: &'a Value, name: &str) -> Result<&'a [Value], Fault> {
    match object.get(name).and_then(Value::as_array) {
        Some(elements) => Ok(elements.as_slice()),
        None => Err(Fault::NoCase),
    }
}

/// The character of a field. `None`: it is missing or null.
pub fn character(object: &Value, name: &str) -> Option<char> {
    match optional_text(object, name) {
        Some(text) => text.chars().next(),
        None => None,
    }
}

/// Whether a field is there and true.
pub fn is_set(object: &Value, name: &str) -> bool {
    object.get(name).and_then(Value::as_bool) == Some(true)
}

/// Whether a field is this text.
pub fn has_text(object: &Value, name: &str, text: &str) -> bool {
    optional_text(object, name) == Some(text)
}

/// Whether a field is a list of these texts.
pub fn has_texts(object: &Value, name: &str, texts: &[String]) -> bool {
    let Ok(recorded) = list(object, name) else {
        return false;
    };
    for (recorded, text) in recorded.iter().zip(texts) {
        if recorded.as_str() != Some(text.as_str()) {
            return false;
        }
    }
    recorded.len() == texts.len()
}

/// The options of a question.
pub fn options_of(alloc: Global, question: &Value) -> Result<Options, Fault> {
    let regex_syntax = syntax_of(question)?;
    let options = options_of_kind(alloc, optional_text(question, "kind"))?;
    let delimiter = character(question, "delimiter");
    Ok(Options {
        delimiter_code_point: delimiter.or(options.delimiter_code_point),
        prefix_code_point: options.prefix_code_point,
        regex_syntax,
        ignore_case: is_set(question, "ignore_case"),
    })
}

/// The syntax of a question.
fn syntax_of(question: &Value) -> Result<RegexSyntax, Fault> {
    match optional_text(question, "syntax") {
        Some("Rust") | None => Ok(RegexSyntax::Rust),
        Some("EcmaScript") => Ok(RegexSyntax::EcmaScript),
        Some(_) => Err(Fault::NoCase),
    }
}

/// The options of a kind of component.
fn options_of_kind(alloc: Global, kind: Option<&str>) -> Result<Options, Fault> {
    match kind {
        Some("default") | None => Ok(Options::default(alloc)),
        Some("hostname") => Ok(Options::hostname(alloc)),
        Some("pathname") => Options::pathname(alloc).map_err(|_| Fault::OutOfMemory),
        Some(_) => Err(Fault::NoCase),
    }
}
