//! Replays a recorded case over the library, and compares the results.

mod first_match;

use crate::{constructors, contending, diagnoses, differences, inputs, plain, policies, trees};
use crate::{generated, links, patterns, policy_json, policy_texts, route_analysis, routes, rules};
use crate::recorded::{
    Answer, Fault, OPERATIONS, Operation, field, is_set, named, optional_text, text,
};
use crate::{Case, common, compiled, components, engines, matchers, texts, tokens, values};
use regex::Regex;
use serde_json::Value;
use std::alloc::Global;
use urlpattern::quirks::EcmaRegexp;
use urlpattern::regexp::{PatternRegexp, RegExp};

/// The outcome of a case.
#[derive(Drop)]
pub struct Outcome {
    /// The operation.
    pub operation: Operation,
    /// Whether an error was recorded.
    pub is_error: bool,
    /// Whether the result of the library is the recorded one, or is not, if the case is marked as
    /// wrong.
    pub is_same: bool,
}

/// Replays the case in a line. A case that is marked as wrong has a result that the library must
/// not return.
pub fn replay(alloc: Global, line: &str) -> Result<Outcome, Fault> {
    let recorded = Value::from_str(alloc, line)?;
    let outcome = outcome_of(alloc, &recorded);
    drop(recorded);
    outcome
}

/// The outcome of a recorded case.
fn outcome_of(alloc: Global, recorded: &Value) -> Result<Outcome, Fault> {
    let question = field(recorded, "in")?;
    let answer = Answer::of(recorded)?;
    let operation = named(OPERATIONS, text(question, "op")?)?;
    let case = Case {
        alloc,
        question,
        answer,
        over_pattern_regexp: Answer::over_pattern_regexp(recorded)?,
    };
    let is_same = is_same(operation, &case)?;
    Ok(Outcome {
        operation,
        is_error: matches!(answer, Answer::Err(_)),
        is_same: is_same != is_set(recorded, "wrong"),
    })
}

/// Whether the library returns the recorded result of a case, over each engine that the case is
/// about.
fn is_same(operation: Operation, case: &Case<'_>) -> Result<bool, Fault> {
    if !operation.asks_engine() {
        return is_same_over::<Regex>(operation, case);
    }
    match (operation, optional_text(case.question, "engine")) {
        (_, Some("ecma")) => is_same_over::<EcmaRegexp>(operation, case),
        (_, Some("pattern")) => is_same_over_pattern_regexp(operation, case),
        (Operation::Matches, None) => Ok(
            is_same_over_rust(operation, case)? && is_same_over::<EcmaRegexp>(operation, case)?,
        ),
        (_, Some("regex")) | (_, None) => is_same_over_rust(operation, case),
        (_, Some(_)) => Err(Fault::NoCase),
    }
}

/// Whether the library returns the recorded result over the two engines with the syntax of Rust.
fn is_same_over_rust(operation: Operation, case: &Case<'_>) -> Result<bool, Fault> {
    Ok(is_same_over::<Regex>(operation, case)? && is_same_over_pattern_regexp(operation, case)?)
}

/// Whether the library returns the recorded result over `PatternRegexp`, which may have one of its
/// own.
fn is_same_over_pattern_regexp(operation: Operation, case: &Case<'_>) -> Result<bool, Fault> {
    let own = Case {
        alloc: case.alloc,
        question: case.question,
        answer: case.over_pattern_regexp,
        over_pattern_regexp: case.over_pattern_regexp,
    };
    is_same_over::<PatternRegexp>(operation, &own)
}

/// Whether the library returns the recorded result over this engine.
fn is_same_over<R: RegExp>(operation: Operation, case: &Case<'_>) -> Result<bool, Fault> {
    match operation {
        Operation::Tokenize => tokens::is_same(case),
        Operation::Component => components::is_same(case),
        Operation::NormalForm => components::is_same_normal_form(case),
        Operation::Compile => compiled::is_same::<R>(case),
        Operation::Engine => engines::is_same::<R>(case),
        Operation::Matches => matchers::is_same::<R>(case),
        Operation::HandMatcher => matchers::is_same_by_hand(case),
        Operation::Canonicalize => values::is_same_canonical(case),
        Operation::Process => values::is_same_processed(case),
        Operation::MatchInput => inputs::is_same(case),
        Operation::Constructor => constructors::is_same(case),
        Operation::Construct => constructors::is_same_init(case),
        Operation::Pattern => patterns::is_same::<R>(case),
        Operation::QuirksPattern => plain::is_same::<R>(case),
        Operation::FirstMatch => first_match::is_same::<R>(case),
        Operation::Diagnose => diagnoses::is_same::<R>(case),
        Operation::Generate => generated::is_same::<R>(case),
        Operation::Link => links::is_same::<R>(case),
        Operation::Text => texts::is_same::<R>(case),
        Operation::Compare => rules::is_same_order(case),
        Operation::Covers => rules::is_same_covering(case),
        Operation::Unreachable => rules::is_same_reach(case),
        Operation::Contending => contending::is_same(case),
        Operation::Common => common::is_same_common(case),
        Operation::Together => common::is_same_together(case),
        Operation::Decide => policies::is_same(case),
        Operation::Difference => differences::is_same(case),
        Operation::Within => differences::is_same_within(case),
        Operation::Dead => differences::are_same_dead(case),
        Operation::Routes => routes::is_same(case),
        Operation::RouteReach => route_analysis::is_same_reach(case),
        Operation::RoutesDiff => route_analysis::is_same(case),
        Operation::PolicyText => policy_texts::is_same(case),
        Operation::PolicyJson => policy_json::is_same(case),
        Operation::Meaning => rules::is_same_meaning(case),
        Operation::Json => trees::is_same(case),
        Operation::Equal => trees::is_same_equality(case),
    }
}
