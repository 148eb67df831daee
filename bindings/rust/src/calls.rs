//! Calls of the library that write a text or a match, with as much room as it needs.
use crate::error::answer;
use crate::{c, Captures, ComponentName, Covering, Error, Subject};
use std::cell::UnsafeCell;

/// How many bytes a text is first given room for, and how many spans a match.
const ROOM: usize = 256;
const SPANS: usize = 16;

/// What has patterns, whose matches have groups with names.
pub(crate) trait Matching {
    /// Calls what writes the name of a group.
    fn group_name(
        &self,
        index: usize,
        component: u32,
        group: usize,
        buffer: *mut u8,
        room: usize,
        needed: *mut usize,
    ) -> u32;

    /// Calls what writes a match, with as much room as it needs. `index` is that of the pattern,
    /// unless the call finds it. `None`: there is no match, or none for the method of a request.
    fn matched(
        &self,
        call: impl Fn(&mut usize, &mut [u8], &mut [c::Span], &mut c::Sizes) -> u32,
        mut index: usize,
    ) -> Result<Option<Captures>, Error> {
        let mut sizes = c::Sizes {
            bytes: ROOM,
            spans: SPANS,
        };
        let (mut text, mut spans) = (Vec::new(), Vec::new());
        let mut status = c::TOO_SMALL;
        while status == c::TOO_SMALL {
            text.resize(sizes.bytes.max(ROOM), 0);
            spans.resize(sizes.spans.max(SPANS), c::Span::default());
            status = call(&mut index, &mut text, &mut spans, &mut sizes);
        }
        if !answer(status)? {
            return Ok(None);
        }
        text.truncate(sizes.bytes);
        let text = String::from_utf8(text).expect("captures are UTF-8");
        let groups = spans[..sizes.spans]
            .iter()
            .map(|span| self.group(index, span));
        Ok(Some(Captures {
            index,
            text,
            groups: groups.collect::<Result<_, _>>()?,
        }))
    }

    /// A group with its name, and where its text lies.
    fn group(
        &self,
        index: usize,
        span: &c::Span,
    ) -> Result<(ComponentName, String, Option<(usize, usize)>), Error> {
        let (status, name) = written(|buffer, room, needed| {
            self.group_name(index, span.component, span.group, buffer, room, needed)
        });
        answer(status)?;
        let component = ComponentName::of(span.component).expect("the number of a component");
        let place = (span.took_part != 0).then_some((span.start, span.start + span.length));
        Ok((component, name, place))
    }
}

/// Eight texts as one, with the place of each.
pub(crate) fn joined(texts: &[&str; 8]) -> (String, c::Parts) {
    let (mut all, mut parts) = (String::new(), c::Parts::default());
    for (text, part) in texts.iter().zip(&mut parts.0) {
        *part = c::Part {
            start: all.len(),
            length: text.len(),
        };
        all.push_str(text);
    }
    (all, parts)
}

/// Names and texts of groups as one text, and where each of them lies.
pub(crate) fn given(groups: &[(ComponentName, &str, &str)]) -> (String, Vec<c::Given>) {
    let (mut text, mut given) = (String::new(), Vec::new());
    for &(component, name, value) in groups {
        let (name_start, start) = (text.len(), text.len() + name.len());
        let (name_length, length) = (name.len(), value.len());
        given.push(c::Given {
            component: component as u32,
            name_start,
            name_length,
            start,
            length,
        });
        text.push_str(name);
        text.push_str(value);
    }
    (text, given)
}

/// Calls what writes a text, with as much room as it needs. The text is empty if none is written.
pub(crate) fn written(call: impl Fn(*mut u8, usize, *mut usize) -> u32) -> (u32, String) {
    let (mut buffer, mut needed, mut status) = (Vec::new(), ROOM, c::TOO_SMALL);
    while status == c::TOO_SMALL {
        buffer.resize(needed, 0);
        status = call(buffer.as_mut_ptr(), buffer.len(), &mut needed);
    }
    buffer.truncate(if matches!(status, c::DONE | c::REFUSED) {
        needed
    } else {
        0
    });
    (status, String::from_utf8(buffer).expect("texts are UTF-8"))
}

/// The outcome of appending a pattern, given a call that says why one is refused.
pub(crate) fn pushed(
    status: u32,
    diagnose: impl Fn(*mut u8, usize, *mut usize, *mut c::Place) -> u32,
) -> Result<(), Error> {
    if status != c::REFUSED {
        return answer(status).map(|_| ());
    }
    let place = UnsafeCell::new(c::Place::default());
    let (status, reason) = written(|buffer, room, needed| {
        let status = diagnose(buffer, room, needed, place.get());
        if status == c::REFUSED {
            c::NO_URL
        } else {
            status
        }
    });
    let c::Place {
        subject,
        start,
        end,
    } = place.into_inner();
    let subject = subject_of(subject);
    match status {
        c::DONE => Err(Error::Refused {
            reason,
            subject,
            start,
            end,
        }),
        c::NO_URL => Err(Error::RefusedBase),
        _ => Err(Error::OutOfMemory),
    }
}

/// Which text a place lies in, by its number.
pub(crate) fn subject_of(number: u32) -> Subject {
    match number {
        0 => Subject::Pattern,
        1 => Subject::Base,
        number => Subject::Component(ComponentName::of(number - 2).expect("a component")),
    }
}

pub(crate) fn covering(status: u32, number: u32) -> Result<Covering, Error> {
    match (status, ComponentName::of(number)) {
        (c::UNKNOWN, name) => Ok(Covering::Unknown(name)),
        (c::NO_MATCH, Some(name)) => Ok(Covering::NotCovered(name)),
        (status, _) => answer(status).map(|_| Covering::Covered),
    }
}
