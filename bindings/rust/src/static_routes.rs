//! Static routes of service workers.
use crate::calls::{subject_of, written};
use crate::error::answer;
use crate::{c, Error, Subject};
use std::cell::{Cell, UnsafeCell};
use std::{error, fmt, ptr};

/// The members of rules, by the numbers of the library.
const MEMBERS: [&str; 10] = [
    "",
    "condition",
    "urlPattern",
    "requestMethod",
    "requestMode",
    "requestDestination",
    "runningStatus",
    "or",
    "not",
    "source",
];

/// Why a rule is rejected.
#[derive(Clone, Debug, PartialEq, Eq)]
pub struct RouteFault {
    /// The index of the rule, and the member at fault. `None`: there are too many rules.
    pub member: Option<(usize, &'static str)>,
    /// Why, in words. Those for a member other than `urlPattern` go after its name.
    pub reason: String,
    /// The text at fault, of a pattern that is rejected.
    pub text: Option<String>,
    /// Which text of a pattern is at fault.
    pub subject: Subject,
    /// The first byte at fault, in `text`.
    pub start: usize,
    /// The byte after the last one at fault.
    pub end: usize,
}

/// Why there are no static routes.
#[derive(Clone, Debug, PartialEq, Eq)]
pub enum StaticRoutesError {
    /// The rules have these faults. None: the text is no JSON.
    Rejected(Vec<RouteFault>),
    /// The script's URL is none or too long, or memory ran out.
    Failed(Error),
}

impl fmt::Display for StaticRoutesError {
    fn fmt(&self, f: &mut fmt::Formatter<'_>) -> fmt::Result {
        match self {
            Self::Failed(error) => error.fmt(f),
            Self::Rejected(faults) if faults.is_empty() => f.write_str("the rules are no JSON"),
            Self::Rejected(faults) => {
                for (index, fault) in faults.iter().enumerate() {
                    f.write_str(if index == 0 { "" } else { "; " })?;
                    if let Some((rule, member)) = fault.member {
                        write!(f, "rule {rule}: {member}: ")?;
                    }
                    f.write_str(&fault.reason)?;
                }
                Ok(())
            }
        }
    }
}

impl error::Error for StaticRoutesError {}

/// Where the response to a request comes from.
#[derive(Clone, Debug, PartialEq, Eq)]
pub enum RouteSource {
    /// The network.
    Network,
    /// The handler of fetch events.
    FetchEvent,
    /// The oldest cache that has the URL, or the cache with this name.
    Cache(Option<String>),
    /// The network and the handler, whichever is first.
    Race,
}

/// A request that a service worker gets.
#[derive(Clone, Copy, Debug, PartialEq, Eq)]
pub struct RouteRequest<'a> {
    /// The URL.
    pub url: &'a str,
    /// The method.
    pub method: &'a str,
    /// The mode, such as `navigate`.
    pub mode: &'a str,
    /// The destination, such as `image`. It is empty for a call of `fetch`.
    pub destination: &'a str,
    /// Whether the service worker is running. A worker that is starting is not.
    pub is_running: bool,
}

/// The static routes of a service worker, as `InstallEvent.addRoutes()` takes them: the first rule
/// whose condition holds of a request decides where its response comes from.
///
/// ```
/// use urlpattern_proved::{RouteRequest, RouteSource, StaticRoutes};
///
/// let rules = r#"{"condition": {"urlPattern": "/img/*"}, "source": "network"}"#;
/// let routes = StaticRoutes::read("https://example.com/sw.js", rules, true)?;
/// let (url, method, mode, destination) = ("https://example.com/img/a", "GET", "cors", "image");
/// let request = RouteRequest { url, method, mode, destination, is_running: true };
/// assert_eq!(routes.decide(request)?, Some((0, RouteSource::Network)));
/// # Ok::<(), Box<dyn std::error::Error>>(())
/// ```
pub struct StaticRoutes {
    handle: UnsafeCell<c::StaticRoutes>,
}

// The library proves that a handle may go from thread to thread.
unsafe impl Send for StaticRoutes {}

impl Drop for StaticRoutes {
    fn drop(&mut self) {
        unsafe { c::urlpattern_static_routes_free(self.handle()) }
    }
}

impl StaticRoutes {
    /// Reads rules in JSON, an array or a single one, which are checked as browsers check them.
    /// `script` is the URL of the worker's script, without a fragment, under which patterns are
    /// read, and `has_handler` says whether the worker has a handler of fetch events.
    pub fn read(script: &str, json: &str, has_handler: bool) -> Result<Self, StaticRoutesError> {
        let handle = UnsafeCell::new(c::StaticRoutes {
            made_by: 0,
            at: ptr::null_mut(),
        });
        let routes = Self { handle };
        let (at, length) = (routes.handle(), json.len());
        let (script, script_length, json) = (script.as_ptr(), script.len(), json.as_ptr());
        let status = unsafe {
            c::urlpattern_static_routes_read(at, script, script_length, json, length, has_handler)
        };
        if status == c::REFUSED {
            let faults = routes.faults().map_err(StaticRoutesError::Failed)?;
            return Err(StaticRoutesError::Rejected(faults));
        }
        answer(status).map_err(StaticRoutesError::Failed)?;
        Ok(routes)
    }

    /// The handle. A call has it until it returns, and makes no other one meanwhile; and since the
    /// type is no `Sync`, no other thread makes one.
    fn handle(&self) -> *mut c::StaticRoutes {
        self.handle.get()
    }

    /// The faults of the rules, if these are rejected.
    fn faults(&self) -> Result<Vec<RouteFault>, Error> {
        let mut faults = Vec::new();
        loop {
            let (at, index) = (self.handle(), faults.len());
            let found = UnsafeCell::new(c::RouteFault::default());
            let (status, reason) = written(|buffer, room, needed| unsafe {
                c::urlpattern_static_routes_fault(at, index, buffer, room, needed, found.get())
            });
            if status == c::NO_PATTERN {
                return Ok(faults);
            }
            answer(status)?;
            let (status, text) = written(|buffer, room, needed| unsafe {
                c::urlpattern_static_routes_text_at_fault(at, index, buffer, room, needed)
            });
            let found = found.into_inner();
            faults.push(RouteFault {
                member: (found.member != 0).then(|| (found.rule, MEMBERS[found.member as usize])),
                reason,
                text: (status == c::DONE).then_some(text),
                subject: subject_of(found.place.subject),
                start: found.place.start,
                end: found.place.end,
            });
        }
    }

    /// The index of the rule that decides about a request, and its source. `None`: no rule's
    /// condition holds, and the handler gets the request, or the network if there is none.
    pub fn decide(&self, request: RouteRequest<'_>) -> Result<Option<(usize, RouteSource)>, Error> {
        let mut rule = 0;
        let status = unsafe {
            c::urlpattern_static_routes_decide(
                self.handle(),
                request.url.as_ptr(),
                request.url.len(),
                request.method.as_ptr(),
                request.method.len(),
                request.mode.as_ptr(),
                request.mode.len(),
                request.destination.as_ptr(),
                request.destination.len(),
                request.is_running,
                &mut rule,
            )
        };
        if answer(status)? {
            Ok(Some((rule, self.source(rule)?)))
        } else {
            Ok(None)
        }
    }

    /// The source of a rule.
    fn source(&self, rule: usize) -> Result<RouteSource, Error> {
        let number = Cell::new(0);
        let (status, name) = written(|buffer, room, needed| unsafe {
            let source = number.as_ptr();
            c::urlpattern_static_routes_source(self.handle(), rule, source, buffer, room, needed)
        });
        answer(status)?;
        Ok(match number.get() {
            c::NETWORK => RouteSource::Network,
            c::FETCH_EVENT => RouteSource::FetchEvent,
            c::CACHE => RouteSource::Cache(None),
            c::NAMED_CACHE => RouteSource::Cache(Some(name)),
            _ => RouteSource::Race,
        })
    }
}
