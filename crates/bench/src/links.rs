//! Links patterns, given texts for the groups, or the captures of a URL.

use crate::generated::{groups_of, is_reason, is_refused};
use crate::patterns;
use crate::recorded::{Answer, Fault, has_text, is_set, list, optional_text};
use crate::{Case, given};
use serde_json::Value;
use std::alloc::Global;
use std::borrow::CowStr;
use url::Url;
use urlpattern_generate::{GivenGroup, NoLink};
use urlpattern_matcher::regexp::RegExp;
use urlpattern_matches::UrlPatternResult;
use urlpattern_pattern::UrlPattern;
use urlpattern_syntax::Error;
use urlpattern_values::DecodeError;

/// Whether the URL of a pattern with the groups of a question is the recorded one, or is rejected
/// for the recorded reason.
pub fn is_same<R: RegExp>(case: &Case<'_>) -> Result<bool, Fault> {
    let Answer::Ok(recorded) = case.answer else {
        return Ok(false);
    };
    let built: Result<UrlPattern<R>, Error> = patterns::built(case.alloc, case.question)?;
    match built {
        Ok(pattern) => {
            let found = linked(case, &pattern);
            drop(pattern);
            is_recorded(found?, recorded)
        }
        Err(Error::OutOfMemory) => Err(Fault::OutOfMemory),
        Err(_) => Err(Fault::NoCase),
    }
}

/// The URL with the groups of a question: its own, or those of the match of a URL, which is
/// borrowed or owned.
fn linked<R: RegExp>(
    case: &Case<'_>,
    pattern: &UrlPattern<R>,
) -> Result<Result<Url, NoLink>, Fault> {
    if let Some(text) = optional_text(case.question, "of") {
        let url = made(given::url(case.alloc, text))?;
        let found = linked_of_captures(case.alloc, pattern, &url);
        drop(url);
        return found;
    }
    if let Some(text) = optional_text(case.question, "of_result") {
        let url = made(given::url(case.alloc, text))?;
        let found = linked_of_result(case.alloc, pattern, &url);
        drop(url);
        return found;
    }
    let groups = groups_of(case.alloc, list(case.question, "groups")?)?;
    if is_set(case.question, "encoded") {
        return linked_encoded(case.alloc, pattern, &groups);
    }
    Ok(pattern.link(case.alloc, &groups))
}

/// The URL with percent-encoded values. The captures of the URL have to decode to the values.
fn linked_encoded<R: RegExp>(
    alloc: Global,
    pattern: &UrlPattern<R>,
    groups: &[GivenGroup<'_>],
) -> Result<Result<Url, NoLink>, Fault> {
    let link = pattern.link_encoded(alloc, groups);
    let decoded = match &link {
        Ok(url) => are_decoded(alloc, pattern, url, groups),
        Err(_) => Ok(true),
    };
    match decoded {
        Ok(true) => Ok(link),
        Ok(false) => Err(Fault::NoCase),
        Err(fault) => Err(fault),
    }
}

/// Whether the captures of a URL, borrowed and owned, decode to the values of the groups that the
/// pattern has.
fn are_decoded<R: RegExp>(
    alloc: Global,
    pattern: &UrlPattern<R>,
    url: &Url,
    groups: &[GivenGroup<'_>],
) -> Result<bool, Fault> {
    let Some(found) = made(pattern.captures(alloc, url))? else {
        return Ok(false);
    };
    let copy = made(found.to_result(alloc))?;
    let mut are = true;
    for (component, name, value) in groups {
        if found.took_part(*component, name).is_some() {
            are = are
                && is_value(found.decoded(alloc, *component, name), value)?
                && is_value(copy.decoded(alloc, *component, name), value)?;
        }
    }
    Ok(are)
}

/// Whether a decoded capture is a value.
fn is_value(found: Result<Option<CowStr<'_>>, DecodeError>, value: &str) -> Result<bool, Fault> {
    match found {
        Ok(Some(text)) => Ok(text.as_str() == value),
        Ok(None) => Ok(false),
        Err(DecodeError::OutOfMemory) => Err(Fault::OutOfMemory),
        Err(DecodeError::Utf8(_)) => Ok(false),
    }
}

/// The URL with the captures of a URL by a pattern.
fn linked_of_captures<R: RegExp>(
    alloc: Global,
    pattern: &UrlPattern<R>,
    url: &Url,
) -> Result<Result<Url, NoLink>, Fault> {
    let Some(found) = made(pattern.captures(alloc, url))? else {
        return Err(Fault::NoCase);
    };
    let groups = made(found.to_groups(alloc))?;
    Ok(pattern.link(alloc, &groups))
}

/// The URL with the groups of the owned match of a URL.
fn linked_of_result<R: RegExp>(
    alloc: Global,
    pattern: &UrlPattern<R>,
    url: &Url,
) -> Result<Result<Url, NoLink>, Fault> {
    let Some(found) = made(pattern.exec_url(alloc, url))? else {
        return Err(Fault::NoCase);
    };
    let link = linked_of_groups(alloc, pattern, &found);
    drop(found);
    link
}

/// The URL with the groups of a result.
fn linked_of_groups<R: RegExp>(
    alloc: Global,
    pattern: &UrlPattern<R>,
    found: &UrlPatternResult,
) -> Result<Result<Url, NoLink>, Fault> {
    let groups = made(found.to_groups(alloc))?;
    Ok(pattern.link(alloc, &groups))
}

/// The value that was parsed. The URLs of a question are valid.
fn made<T: Drop>(found: Result<T, Error>) -> Result<T, Fault> {
    match found {
        Ok(value) => Ok(value),
        Err(Error::OutOfMemory) => Err(Fault::OutOfMemory),
        Err(_) => Err(Fault::NoCase),
    }
}

/// Whether the link is the recorded URL, or the error is the recorded one.
fn is_recorded(found: Result<Url, NoLink>, recorded: &Value) -> Result<bool, Fault> {
    match found {
        Ok(url) => Ok(has_text(recorded, "url", url.as_str())),
        Err(NoLink::Component(error)) => is_reason(&error, recorded),
        Err(NoLink::Url(_)) => Ok(has_text(recorded, "refused", "no URL")),
        Err(NoLink::OtherText(component)) => Ok(is_refused(recorded, "other text", component)),
        Err(NoLink::OutOfMemory) => Err(Fault::OutOfMemory),
    }
}
