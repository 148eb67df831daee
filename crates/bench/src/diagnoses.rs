//! Diagnoses patterns.

use crate::recorded::{Answer, Fault, has_text, list, optional_text};
use crate::{Case, given};
use serde_json::Value;
use std::alloc::Global;
use urlpattern_diagnosis::{Diagnosis, Span};
use urlpattern_inputs::UrlPatternOptions;
use urlpattern_matcher::regexp::RegExp;
use urlpattern_pattern::UrlPattern;
use urlpattern_quirks::process_construct_pattern_input;
use urlpattern_syntax::Error;

/// Whether the diagnosis of a constructor string or an init is the recorded one: null if it is
/// accepted.
pub fn is_same<R: RegExp>(case: &Case<'_>) -> Result<bool, Fault> {
    let Answer::Ok(recorded) = case.answer else {
        return Ok(false);
    };
    let options = given::options(case.alloc, case.question)?;
    let found = match optional_text(case.question, "string") {
        Some(string) => {
            let base = optional_text(case.question, "base");
            UrlPattern::<R>::diagnose(case.alloc, string, base, options)?
        }
        None => of_init::<R>(case, options)?,
    };
    match found {
        Some(diagnosis) => is_recorded(case.alloc, &diagnosis, recorded),
        None => Ok(recorded.is_null()),
    }
}

/// The diagnosis of an init.
fn of_init<R: RegExp>(
    case: &Case<'_>,
    options: UrlPatternOptions,
) -> Result<Option<Diagnosis>, Fault> {
    let input = given::input(case.alloc, case.question)?;
    match process_construct_pattern_input(case.alloc, input, None) {
        Ok(init) => {
            let found = UrlPattern::<R>::diagnose_init(case.alloc, &init, options);
            drop(init);
            Ok(found?)
        }
        Err(Error::OutOfMemory) => Err(Fault::OutOfMemory),
        Err(_) => Err(Fault::NoCase),
    }
}

/// Whether a diagnosis has the recorded subject, spans and lines.
fn is_recorded(alloc: Global, diagnosis: &Diagnosis, recorded: &Value) -> Result<bool, Fault> {
    let printed = format!(in alloc; "{diagnosis}")?;
    let lines = list(recorded, "lines")?;
    let mut are_lines = lines.len() == printed.lines().count();
    for (line, expected) in printed.lines().zip(lines) {
        are_lines = are_lines && expected.as_str() == Some(line);
    }
    Ok(
        are_lines
            && has_text(recorded, "subject", diagnosis.subject.name())
            && is_span(recorded, "span", Some(diagnosis.fault.span))
            && is_span(recorded, "earlier", diagnosis.fault.earlier),
    )
}

/// Whether a field has the two places of a span, or is missing if there is none.
fn is_span(recorded: &Value, name: &str, span: Option<Span>) -> bool {
    match (list(recorded, name), span) {
        (Ok([start, end]), Some(span)) => {
            start.as_u64() == Some(span.start as u64) && end.as_u64() == Some(span.end as u64)
        }
        (Err(_), None) => true,
        _ => false,
    }
}
