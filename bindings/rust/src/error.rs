//! Why a call has no answer.
use crate::c;
use crate::ComponentName;
use std::{error, fmt};

/// Which text a place lies in.
#[derive(Clone, Copy, Debug, PartialEq, Eq)]
pub enum Subject {
    /// The constructor string, or the init as a whole.
    Pattern,
    /// The base URL.
    Base,
    /// The text of a component of an init.
    Component(ComponentName),
}

/// Why a call has no answer.
#[derive(Clone, Debug, PartialEq, Eq)]
#[non_exhaustive]
pub enum Error {
    /// A pattern is refused.
    Refused {
        /// Why, in words.
        reason: String,
        /// The text at fault.
        subject: Subject,
        /// The first byte at fault.
        start: usize,
        /// The byte after the last one at fault.
        end: usize,
    },
    /// The base URL of an init is refused.
    RefusedBase,
    /// The pattern has no URL, or the component no text, with the given groups, for this reason.
    NoLink(String),
    /// A text is no URL, or its base is none.
    NoUrl,
    /// A text is no path: it does not begin with `/`, or has a `?`, a `#` or a line feed.
    NoPath,
    /// A URL or a base URL has 16 MB or more.
    TooLong,
    /// There is no pattern of this index.
    NoPattern,
    /// Memory ran out.
    OutOfMemory,
    /// Another list or router has the same patterns, so that none is added.
    Shared,
    /// Another route has the name.
    NameTaken,
    /// A method is no token of HTTP, such as `GET`, or there is a name without a method.
    NotAMethod,
    /// A route matches, but none serves the method of the request. A router returns
    /// `Routed::MethodNotAllowed` instead, so that no call fails with this error.
    NotAllowed,
}

impl fmt::Display for Error {
    fn fmt(&self, f: &mut fmt::Formatter<'_>) -> fmt::Result {
        f.write_str(match self {
            Error::Refused { reason, .. } | Error::NoLink(reason) => reason,
            Error::RefusedBase => "the base URL is refused",
            Error::NoUrl => "not a URL",
            Error::NoPath => "a path begins with `/` and has no `?`, no `#` and no line feed",
            Error::TooLong => "a URL or a base URL has 16 MB or more",
            Error::NoPattern => "no such pattern",
            Error::OutOfMemory => "out of memory",
            Error::Shared => "another list or router has the same patterns",
            Error::NameTaken => "another route has the name",
            Error::NotAMethod => "the method is not a token, such as `GET`",
            Error::NotAllowed => "no route serves the method",
        })
    }
}

impl error::Error for Error {}

/// Whether there is a match, by the status of a call that needs no more to say.
pub(crate) fn answer(status: u32) -> Result<bool, Error> {
    match status {
        c::DONE => Ok(true),
        c::NO_MATCH => Ok(false),
        c::NO_URL => Err(Error::NoUrl),
        c::NO_PATH => Err(Error::NoPath),
        c::TOO_LONG => Err(Error::TooLong),
        c::NO_PATTERN => Err(Error::NoPattern),
        c::SHARED => Err(Error::Shared),
        c::NOT_ALLOWED => Err(Error::NotAllowed),
        c::NAME_TAKEN => Err(Error::NameTaken),
        c::NOT_A_METHOD => Err(Error::NotAMethod),
        c::REFUSED => Err(Error::RefusedBase),
        _ => Err(Error::OutOfMemory),
    }
}
