//! Compiles the patterns that were compiled when a case was recorded.

use crate::case::Case;
use crate::recorded::{Fault, has_text, has_texts, is_set, optional_text, options_of};
use serde_json::Value;
use urlpattern_matcher::component::Component;
use urlpattern_matcher::matcher::InnerMatcher;
use urlpattern_matcher::regexp::RegExp;
use urlpattern_syntax::Error;

/// Whether the compiled component of a pattern over an engine is the recorded one. The pattern's
/// texts are kept as they are.
pub fn is_same<R: RegExp>(case: &Case<'_>) -> Result<bool, Fault> {
    let alloc = case.alloc;
    let pattern = optional_text(case.question, "pattern");
    let options = options_of(alloc, case.question)?;
    let unchanged = |text: &str| -> Result<String, Error> { Ok(String::from_str(alloc, text)?) };
    let found = Component::<R>::compile(alloc, pattern, unchanged, options);
    case.is_answer(
        found,
        |component, recorded| Ok(is_component(component, recorded)),
    )
}

/// Whether a component is the recorded one.
fn is_component<R: RegExp>(component: &Component<R>, recorded: &Value) -> bool {
    has_text(recorded, "pattern", &component.pattern_string)
        && has_texts(recorded, "names", &component.group_name_list)
        && is_set(recorded, "has_regexp_group") == component.has_regexp_group
        && is_kept(&component.regexp, recorded.get("regexp"))
        && match &component.matcher.inner {
            InnerMatcher::RegExp { regexp } => is_kept(regexp, recorded.get("inner_regexp")),
            _ => matches!(recorded.get("inner_regexp"), Some(Value::Null)),
        }
}

/// Whether an engine's value has the recorded text, or an error is kept where an object was
/// recorded.
fn is_kept<R: RegExp>(kept: &Result<R, Error>, recorded: Option<&Value>) -> bool {
    match (kept, recorded) {
        (Ok(engine), Some(recorded)) => recorded.as_str() == Some(engine.pattern_string()),
        (Err(Error::RegExp(())), Some(recorded)) => recorded.is_object(),
        _ => false,
    }
}
