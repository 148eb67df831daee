//! Generates texts of components, given texts for the groups.

use crate::Case;
use crate::patterns;
use crate::recorded::{Answer, Fault, has_text, list, text};
use serde_json::Value;
use std::alloc::Global;
use urlpattern_components::ComponentName;
use urlpattern_generate::{GenerateError, GivenGroup};
use urlpattern_matcher::regexp::RegExp;
use urlpattern_pattern::UrlPattern;
use urlpattern_syntax::Error;

/// Whether the text of a component with the groups of a question is the recorded one, or is
/// rejected for the recorded reason.
pub fn is_same<R: RegExp>(case: &Case<'_>) -> Result<bool, Fault> {
    let Answer::Ok(recorded) = case.answer else {
        return Ok(false);
    };
    let component = component_of(text(case.question, "component")?)?;
    let groups = groups_of(case.alloc, list(case.question, "groups")?)?;
    let built: Result<UrlPattern<R>, Error> = patterns::built(case.alloc, case.question)?;
    match built {
        Ok(pattern) => {
            let found = pattern.generate(case.alloc, component, &groups);
            drop(pattern);
            is_recorded(found, recorded)
        }
        Err(Error::OutOfMemory) => Err(Fault::OutOfMemory),
        Err(_) => Err(Fault::NoCase),
    }
}

/// The component with a name.
fn component_of(name: &str) -> Result<ComponentName, Fault> {
    ComponentName::from_name(name).ok_or(Fault::NoCase)
}

/// The groups of a question: lists of a component, a name and a text.
pub fn groups_of<'a>(alloc: Global, given: &'a [Value]) -> Result<Vec<GivenGroup<'a>>, Fault> {
    let mut groups = Vec::new(alloc);
    for group in given {
        let group = group_of(group)?;
        if groups.push(group).is_err() {
            return Err(Fault::OutOfMemory);
        }
    }
    Ok(groups)
}

/// A group of a question.
fn group_of(given: &Value) -> Result<GivenGroup<'_>, Fault> {
    let Some([component, name, text]) = given.as_array().map(|given| given.as_slice()) else {
        return Err(Fault::NoCase);
    };
    match (component.as_str(), name.as_str(), text.as_str()) {
        (Some(component), Some(name), Some(text)) => Ok((component_of(component)?, name, text)),
        _ => Err(Fault::NoCase),
    }
}

/// Whether the generated text is the recorded one, or the error is.
fn is_recorded(found: Result<String, GenerateError>, recorded: &Value) -> Result<bool, Fault> {
    match found {
        Ok(text) => Ok(has_text(recorded, "text", &text)),
        Err(error) => is_reason(&error, recorded),
    }
}

/// Whether the recorded reason is this error.
pub fn is_reason(error: &GenerateError, recorded: &Value) -> Result<bool, Fault> {
    match error {
        GenerateError::Missing(component, name) => {
            Ok(is_refused(recorded, "missing", *component) && has_text(recorded, "group", name))
        }
        GenerateError::NotCaptured(component, name) => Ok(
            is_refused(recorded, "not captured", *component) && has_text(recorded, "group", name),
        ),
        GenerateError::ReadOtherwise(component) => {
            Ok(is_refused(recorded, "read otherwise", *component))
        }
        GenerateError::NoParts => Ok(has_text(recorded, "refused", "no parts")),
        GenerateError::OutOfMemory => Err(Fault::OutOfMemory),
    }
}

/// Whether the recorded reason is this one, for this component.
pub fn is_refused(recorded: &Value, reason: &str, component: ComponentName) -> bool {
    has_text(recorded, "refused", reason) && has_text(recorded, "component", component.as_str())
}
