//! Times linking the captures of patterns, next to `Url::parse` of their texts, in nanoseconds for
//! each call.

use super::Subject;
use super::rounds::{Timed, least};
use crate::calls::optional_text;
use serde_json::Value;
use std::alloc::Global;
use std::io;
use std::io::Write;
use std::time::Clock;
use url::Url;
use urlpattern::regexp::PatternRegexp;
use urlpattern::{Error, GivenGroup, NoLink, UrlPattern};

/// A pattern, and the texts for its groups.
#[derive(Drop)]
struct Link<'a> {
    pattern: &'a UrlPattern<PatternRegexp>,
    groups: &'a [GivenGroup<'a>],
}

impl<'a> Timed for Link<'a> {
    #[inline(never)]
    fn call(&self, alloc: Global) -> Result<bool, Error> {
        Ok(self.pattern.link(alloc, self.groups).is_ok())
    }
}

/// The text of a URL.
#[derive(Drop)]
struct Text<'a> {
    text: &'a str,
}

impl<'a> Timed for Text<'a> {
    #[inline(never)]
    fn call(&self, alloc: Global) -> Result<bool, Error> {
        Ok(Url::parse(alloc, self.text).is_ok())
    }
}

/// Links the captures of a pair this many times. Returns whether there are captures that are
/// linked.
pub fn repeat_pair(alloc: Global, pair: &Value, count: u64) -> Result<bool, Error> {
    let Some(given) = pair.get("pattern") else {
        return Ok(false);
    };
    let subject = Subject::<PatternRegexp>::new(alloc, given, pair)?;
    let linked = match subject.pattern.captures(alloc, &subject.url)? {
        Some(found) => {
            let groups = found.to_groups(alloc)?;
            repeat_link(alloc, &subject.pattern, &groups, count)
        }
        None => Ok(false),
    };
    drop(subject);
    linked
}

/// Links these groups this many times. Returns whether there is a link.
fn repeat_link(
    alloc: Global,
    pattern: &UrlPattern<PatternRegexp>,
    groups: &[GivenGroup<'_>],
    count: u64,
) -> Result<bool, Error> {
    let link = Link { pattern, groups };
    let mut is_linked = true;
    for _ in 0..count {
        is_linked &= link.call(alloc)?;
    }
    Ok(is_linked)
}

/// Prints the times of linking the pair in a line: its name, the link, and the parse of its text.
pub fn time_line<R: AllocGlobal + Clock, O: Write>(
    rt: &R,
    line: &str,
    out: &mut O,
) -> io::Result<()> {
    let Ok(pair) = serde_json::from_str::<Value>(rt.alloc(), line) else {
        return writeln!(out, "no pair: {line}");
    };
    let name = optional_text(&pair, "name").unwrap_or("");
    write!(out, "{name}")?;
    let Some(given) = pair.get("pattern") else {
        return writeln!(out, "\tno pattern");
    };
    match Subject::<PatternRegexp>::new(rt.alloc(), given, &pair) {
        Ok(subject) => {
            let timed = time_subject(rt, &subject, out);
            drop(subject);
            timed
        }
        Err(error) => writeln!(out, "\t{error}"),
    }
}

/// Prints the times of linking a subject.
fn time_subject<R: AllocGlobal + Clock, O: Write>(
    rt: &R,
    subject: &Subject<'_, PatternRegexp>,
    out: &mut O,
) -> io::Result<()> {
    let found = match subject.pattern.captures(rt.alloc(), &subject.url) {
        Ok(Some(found)) => found,
        Ok(None) => return writeln!(out, "\tno match"),
        Err(error) => return writeln!(out, "\t{error}"),
    };
    let timed = match found.to_groups(rt.alloc()) {
        Ok(groups) => time_groups(rt, &subject.pattern, &groups, out),
        Err(error) => writeln!(out, "\t{error}"),
    };
    drop(found);
    timed
}

/// Prints the times of linking these groups, or why there is no link.
fn time_groups<R: AllocGlobal + Clock, O: Write>(
    rt: &R,
    pattern: &UrlPattern<PatternRegexp>,
    groups: &[GivenGroup<'_>],
    out: &mut O,
) -> io::Result<()> {
    match pattern.link(rt.alloc(), groups) {
        Ok(url) => {
            let link = least(rt, rt.alloc(), &Link { pattern, groups })?;
            let text = least(rt, rt.alloc(), &Text { text: url.as_str() })?;
            writeln!(out, "\t{link}\t{text}")
        }
        Err(NoLink::OutOfMemory) => writeln!(out, "\tout of memory"),
        Err(error) => writeln!(out, "\t{error:?}"),
    }
}
