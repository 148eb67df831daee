//! Diagnoses: where a pattern is at fault, and why.

use crate::guide::{Pattern, expect_line, line_of, text};
use std::alloc::Global;
use std::test::Fail;
use urlpattern::{Error, Subject, UrlPatternOptions};

/// Why a pattern is rejected, and where the fault is, in words; or that it is accepted.
fn diagnosis_line(alloc: Global, pattern: &str) -> Result<String, Error> {
    // docs: diagnose
    let options = UrlPatternOptions::default();
    let diagnosis = Pattern::diagnose(alloc, pattern, None, options)?;
    // docs: end
    let Some(diagnosis) = diagnosis else {
        return text(alloc, "accepted");
    };
    // docs: subject
    let subject = match diagnosis.subject {
        Subject::Base => "the base URL",
        Subject::Component(component) => component.as_str(),
        Subject::Whole => "the pattern",
    };
    // docs: end
    // docs: span
    let span = diagnosis.fault.span;
    let part = diagnosis.text.get(span.start..span.end);
    // docs: end
    // docs: fault
    let earlier = diagnosis.fault.earlier;
    // docs: end
    // docs: diagnosis
    let reason = &diagnosis.reason;
    // docs: end
    line_of(format!(in alloc; "{subject} at {part:?}, earlier {earlier:?}: {reason}"))
}

#[test]
fn why_a_pattern_is_rejected(rt: HostRuntime) -> Result<(), Fail> {
    let line = diagnosis_line(rt.alloc(), "https://example.com/:id");
    expect_line(&rt, line, "accepted")?;
    let line = diagnosis_line(rt.alloc(), "https://example.com/:id/:id");
    let line = line;
    expect_line(&rt, line, "pathname at Some(\":id\"), earlier Some(Span { start: 20, end: 23 }): the name `id` occurs twice: first here, and here; rename one of them")?;
    Ok(())
}
