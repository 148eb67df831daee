//! Replays questions on values: canonical ones, and those of an init.

use crate::case::Case;
use crate::recorded::{Fault, optional_text, options_of, text};
use serde_json::Value;
use std::alloc::Global;
use urlpattern_canonical::canonicalize_and_process::{
    ProcessType, canonicalize_an_opaque_pathname, canonicalize_hash, canonicalize_hostname,
    canonicalize_ipv6_hostname, canonicalize_password, canonicalize_pathname, canonicalize_port,
    canonicalize_protocol, canonicalize_search, canonicalize_username, escape_pattern_string,
    process_base_url, process_hash_init, process_hostname_init, process_password_init,
    process_pathname_init, process_port_init, process_protocol_init, process_search_init,
    process_username_init,
};
use urlpattern_parser::parser::Options;
use urlpattern_syntax::Error;

/// Whether a canonical value is the recorded one.
pub fn is_same_canonical(case: &Case<'_>) -> Result<bool, Fault> {
    let (alloc, question) = (case.alloc, case.question);
    let value = text(question, "value")?;
    let protocol = optional_text(question, "protocol");
    let found = match text(question, "which")? {
        "protocol" => canonicalize_protocol(alloc, value),
        "username" => canonicalize_username(alloc, value),
        "password" => canonicalize_password(alloc, value),
        "hostname" => canonicalize_hostname(alloc, value),
        "ipv6_hostname" => canonicalize_ipv6_hostname(alloc, value),
        "port" => canonicalize_port(alloc, value, protocol),
        "pathname" => canonicalize_pathname(alloc, value),
        "opaque_pathname" => canonicalize_an_opaque_pathname(alloc, value),
        "search" => canonicalize_search(alloc, value),
        "hash" => canonicalize_hash(alloc, value),
        _ => return Err(Fault::NoCase),
    };
    is_same_text(case, found)
}

/// Whether a value of an init, or an escaped text, is the recorded one.
pub fn is_same_processed(case: &Case<'_>) -> Result<bool, Fault> {
    let (alloc, question) = (case.alloc, case.question);
    let value = text(question, "value")?;
    let protocol = optional_text(question, "protocol");
    let kind = kind_of(question)?;
    let found = match text(question, "which")? {
        "protocol" => process_protocol_init(alloc, value, &kind),
        "username" => process_username_init(alloc, value, &kind),
        "password" => process_password_init(alloc, value, &kind),
        "hostname" => process_hostname_init(alloc, value, &kind),
        "search" => process_search_init(alloc, value, &kind),
        "hash" => process_hash_init(alloc, value, &kind),
        "base_url" => process_base_url(alloc, value, &kind),
        // The values that depend on the protocol.
        "port" => process_port_init(alloc, value, protocol, &kind),
        "pathname" => process_pathname_init(alloc, value, protocol, &kind),
        "escape_pattern_string" => escape_pattern_string(alloc, value),
        which => escaped_under(alloc, &options_of(alloc, question)?, which, value)?,
    };
    is_same_text(case, found)
}

/// Whether a question is about a pattern or about a URL.
fn kind_of(question: &Value) -> Result<ProcessType, Fault> {
    match optional_text(question, "mode") {
        Some("pattern") | None => Ok(ProcessType::Pattern),
        Some("url") => Ok(ProcessType::Url),
        Some(_) => Err(Fault::NoCase),
    }
}

/// A text that depends on the options.
fn escaped_under(
    alloc: Global,
    options: &Options,
    which: &str,
    value: &str,
) -> Result<Result<String, Error>, Fault> {
    match which {
        "escape_regexp_string" => Ok(options.escape_regexp_string(alloc, value)),
        "segment_wildcard" => Ok(options.generate_segment_wildcard_regexp(alloc)),
        _ => Err(Fault::NoCase),
    }
}

/// Whether a text, or the reason why there is none, is the recorded one.
fn is_same_text(case: &Case<'_>, found: Result<String, Error>) -> Result<bool, Fault> {
    case.is_answer(found, |text, recorded| {
        Ok(recorded.as_str() == Some(text.as_str()))
    })
}
