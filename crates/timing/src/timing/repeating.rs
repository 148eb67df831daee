//! Repeats a call, for a tool that counts instructions.

use super::{Call, Subject, links, make_pattern};
use crate::calls::optional_text;
use serde_json::Value;
use std::alloc::Global;
use std::rt::Files;
use std::{fs, io};
use urlpattern::regexp::PatternRegexp;
use urlpattern::{Error, UrlPattern};

impl Call {
    /// The call with a name.
    fn named(name: &str) -> Option<Call> {
        match name {
            "parse" => Some(Call::Parse),
            "exec" => Some(Call::ExecUrl),
            "test" => Some(Call::TestUrl),
            "captures" => Some(Call::Captures),
            "copies" => Some(Call::Copies),
            "test_url" => Some(Call::TestLent),
            "Url::parse" => Some(Call::ParseUrl),
            _ => None,
        }
    }
}

/// Repeats a call for the pair with this name in a file, over `PatternRegexp`. Returns whether
/// there are such a pair and call.
pub fn repeat<R: Files + AllocGlobal>(
    rt: &R,
    path: &str,
    name: &str,
    call: &str,
    count: u64,
) -> io::Result<bool> {
    let text = fs::read_to_string(rt, path)?;
    for line in text.lines() {
        match serde_json::from_str::<Value>(rt.alloc(), line) {
            Ok(pair) if optional_text(&pair, "name") == Some(name) => {
                return Ok(repeat_named(rt.alloc(), &pair, call, count));
            }
            _ => {}
        }
    }
    Ok(false)
}

/// Repeats the call with a name for a pair. Returns whether there is such a call.
fn repeat_named(alloc: Global, pair: &Value, call: &str, count: u64) -> bool {
    if call == "keep" {
        return keep(alloc, pair, count).is_ok();
    }
    if call == "link" {
        return matches!(links::repeat_pair(alloc, pair, count), Ok(true));
    }
    match Call::named(call) {
        Some(call) => repeat_pair(alloc, pair, call, count).is_ok(),
        None => false,
    }
}

/// Repeats a call of a pair.
fn repeat_pair(alloc: Global, pair: &Value, call: Call, count: u64) -> Result<(), Error> {
    if let Some(given) = pair.get("pattern") {
        let subject = Subject::<PatternRegexp>::new(alloc, given, pair)?;
        for _ in 0..count {
            subject.call(alloc, call)?;
        }
    }
    Ok(())
}

/// Compiles the pattern of a pair this many times, and keeps all, for a tool that measures the
/// heap.
fn keep(alloc: Global, pair: &Value, count: u64) -> Result<(), Error> {
    let Some(given) = pair.get("pattern") else {
        return Ok(());
    };
    let subject = Subject::<PatternRegexp>::new(alloc, given, pair)?;
    let mut kept = Vec::with_capacity(alloc, count as usize)?;
    for _ in 0..count {
        let base = subject.base;
        let pattern: UrlPattern<PatternRegexp> =
            make_pattern(alloc, &subject.given, base, subject.ignore_case)?;
        kept.push(pattern)?;
    }
    drop(kept);
    Ok(())
}
