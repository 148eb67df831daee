//! Routers of requests.
use crate::calls::{given, pushed, written, Matching};
use crate::error::answer;
use crate::{c, Captures, ComponentName, Error, UrlPatternInit, UrlPatternOptions};
use std::cell::UnsafeCell;
use std::ptr;

/// What the pattern of a route is compiled from.
#[derive(Clone, Copy)]
pub enum PatternSource<'s> {
    /// A constructor string, under a base URL if there is one.
    Text(&'s str, Option<&'s str>),
    /// The texts of components.
    Init(&'s UrlPatternInit),
}

impl<'s> From<&'s str> for PatternSource<'s> {
    fn from(text: &'s str) -> Self {
        Self::Text(text, None)
    }
}

impl<'s> From<&'s UrlPatternInit> for PatternSource<'s> {
    fn from(init: &'s UrlPatternInit) -> Self {
        Self::Init(init)
    }
}

/// What a router has for a request.
#[derive(Clone, Debug, PartialEq, Eq)]
pub enum Routed<'r, T> {
    /// The route that serves the request: its value, and its match, whose index is that of the
    /// route.
    Found(&'r T, Captures),
    /// Some route matches, but none serves the method: the methods of those that match, as for the
    /// status 405 and its header `Allow`.
    MethodNotAllowed(Vec<String>),
    /// No route matches, as for the status 404.
    NotFound,
}

/// Routes in their order, each with a pattern, a value, and the method that it serves.
///
/// ```
/// use urlpattern_proved::{ComponentName, Routed, UrlPatternInit, UrlPatternRouter};
///
/// let mut routes = UrlPatternRouter::new();
/// let users = UrlPatternInit {
///     pathname: Some("/users/:id".into()),
///     ..UrlPatternInit::default()
/// };
/// routes.insert("GET", &users, "profile")?;
/// match routes.at("GET", "/users/7")? {
///     Routed::Found(value, found) => {
///         assert_eq!(*value, "profile");
///         assert_eq!(found.get(ComponentName::Pathname, "id"), Some("7"));
///     }
///     other => panic!("{other:?}"),
/// }
/// assert_eq!(routes.at("PUT", "/users/7")?, Routed::MethodNotAllowed(vec!["GET".into()]));
/// assert_eq!(routes.at("GET", "/posts")?, Routed::NotFound);
/// # Ok::<(), urlpattern_proved::Error>(())
/// ```
pub struct UrlPatternRouter<T> {
    handle: UnsafeCell<c::Router>,
    values: Vec<T>,
}

// The library proves that a handle may go from thread to thread.
unsafe impl<T: Send> Send for UrlPatternRouter<T> {}

impl<T> Default for UrlPatternRouter<T> {
    fn default() -> Self {
        let handle = UnsafeCell::new(c::Router {
            made_by: 0,
            at: ptr::null_mut(),
        });
        Self {
            handle,
            values: Vec::new(),
        }
    }
}

impl<T> Drop for UrlPatternRouter<T> {
    fn drop(&mut self) {
        unsafe { c::urlpattern_router_free(self.handle()) }
    }
}

impl<T> Matching for UrlPatternRouter<T> {
    fn group_name(
        &self,
        index: usize,
        component: u32,
        group: usize,
        buffer: *mut u8,
        room: usize,
        needed: *mut usize,
    ) -> u32 {
        let at = self.handle();
        unsafe {
            c::urlpattern_router_group_name(at, index, component, group, buffer, room, needed)
        }
    }
}

impl<T> UrlPatternRouter<T> {
    pub fn new() -> Self {
        Self::default()
    }

    /// The handle. A call has it until it returns, and makes no other one meanwhile; and since the
    /// type is no `Sync`, no other thread makes one.
    fn handle(&self) -> *mut c::Router {
        self.handle.get()
    }

    /// Appends a route for a method.
    pub fn insert<'s>(
        &mut self,
        method: &str,
        pattern: impl Into<PatternSource<'s>>,
        value: T,
    ) -> Result<(), Error> {
        self.insert_with(
            None,
            Some(method),
            pattern.into(),
            UrlPatternOptions::default(),
            value,
        )
    }

    /// Appends a route for a method, with a name, by which `link` finds it.
    pub fn insert_named<'s>(
        &mut self,
        name: &str,
        method: &str,
        pattern: impl Into<PatternSource<'s>>,
        value: T,
    ) -> Result<(), Error> {
        let options = UrlPatternOptions::default();
        self.insert_with(Some(name), Some(method), pattern.into(), options, value)
    }

    /// Appends a route for every method.
    pub fn insert_any<'s>(
        &mut self,
        pattern: impl Into<PatternSource<'s>>,
        value: T,
    ) -> Result<(), Error> {
        self.insert_with(
            None,
            None,
            pattern.into(),
            UrlPatternOptions::default(),
            value,
        )
    }

    /// Appends a route, for every method if there is none. A route with a name needs a method:
    /// without one the error is `NotAMethod`. An empty name is none.
    pub fn insert_with(
        &mut self,
        name: Option<&str>,
        method: Option<&str>,
        pattern: PatternSource<'_>,
        options: UrlPatternOptions,
        value: T,
    ) -> Result<(), Error> {
        if method == Some("") {
            return Err(Error::NotAMethod);
        }
        let (name, method) = (name.unwrap_or(""), method.unwrap_or(""));
        let (name, name_length) = (name.as_ptr(), name.len());
        let (method, method_length) = (method.as_ptr(), method.len());
        let (at, case) = (self.handle(), options.ignore_case);
        let inserted = match pattern {
            PatternSource::Text(text, base) => {
                let base = base.unwrap_or("");
                let (text, length) = (text.as_ptr(), text.len());
                let (base, base_length) = (base.as_ptr(), base.len());
                let status = unsafe {
                    c::urlpattern_router_insert(
                        at,
                        name,
                        name_length,
                        method,
                        method_length,
                        text,
                        length,
                        base,
                        base_length,
                        case,
                    )
                };
                pushed(status, |buffer, room, needed, place| unsafe {
                    c::urlpattern_diagnose(
                        text,
                        length,
                        base,
                        base_length,
                        case,
                        buffer,
                        room,
                        needed,
                        place,
                    )
                })
            }
            PatternSource::Init(init) => {
                let json = init.to_json();
                let (json, length) = (json.as_bytes().as_ptr(), json.len());
                let status = unsafe {
                    c::urlpattern_router_insert_init(
                        at,
                        name,
                        name_length,
                        method,
                        method_length,
                        json,
                        length,
                        case,
                    )
                };
                pushed(status, |buffer, room, needed, place| unsafe {
                    c::urlpattern_diagnose_init(json, length, case, buffer, room, needed, place)
                })
            }
        };
        inserted?;
        self.values.push(value);
        Ok(())
    }

    /// The value of the route at an index.
    pub fn get(&self, index: usize) -> Option<&T> {
        self.values.get(index)
    }

    /// The route that serves a request for a path: the first with the method, or for every method,
    /// that matches. For `HEAD` this route counts only if it has the method `HEAD` itself; else the
    /// request is served as `GET` is. The path has no host, and is not made canonical.
    pub fn at(&self, method: &str, path: &str) -> Result<Routed<'_, T>, Error> {
        let (method, method_length) = (method.as_ptr(), method.len());
        let (path, length) = (path.as_ptr(), path.len());
        let found = self.matched(
            |index, text, spans, sizes| unsafe {
                c::urlpattern_router_at(
                    self.handle(),
                    method,
                    method_length,
                    path,
                    length,
                    index,
                    text.as_mut_ptr(),
                    text.len(),
                    spans.as_mut_ptr(),
                    spans.len(),
                    sizes,
                )
            },
            0,
        );
        self.routed(found, |buffer, room, needed| unsafe {
            let at = self.handle();
            c::urlpattern_router_allowed(
                at,
                method,
                method_length,
                path,
                length,
                buffer,
                room,
                needed,
            )
        })
    }

    /// The route that serves a request for a URL, which may be relative to a base URL.
    pub fn at_url(
        &self,
        method: &str,
        url: &str,
        base: Option<&str>,
    ) -> Result<Routed<'_, T>, Error> {
        let base = base.unwrap_or("");
        let (method, method_length) = (method.as_ptr(), method.len());
        let (url, length, base, base_length) = (url.as_ptr(), url.len(), base.as_ptr(), base.len());
        let found = self.matched(
            |index, text, spans, sizes| unsafe {
                c::urlpattern_router_at_url(
                    self.handle(),
                    method,
                    method_length,
                    url,
                    length,
                    base,
                    base_length,
                    index,
                    text.as_mut_ptr(),
                    text.len(),
                    spans.as_mut_ptr(),
                    spans.len(),
                    sizes,
                )
            },
            0,
        );
        self.routed(found, |buffer, room, needed| unsafe {
            c::urlpattern_router_allowed_at_url(
                self.handle(),
                method,
                method_length,
                url,
                length,
                base,
                base_length,
                buffer,
                room,
                needed,
            )
        })
    }

    /// What the router has for a request, given the match of a route, and a call that writes the
    /// methods that are allowed.
    fn routed(
        &self,
        found: Result<Option<Captures>, Error>,
        allowed: impl Fn(*mut u8, usize, *mut usize) -> u32,
    ) -> Result<Routed<'_, T>, Error> {
        match found {
            Ok(Some(found)) => Ok(Routed::Found(&self.values[found.index], found)),
            Ok(None) => Ok(Routed::NotFound),
            Err(Error::NotAllowed) => {
                let (status, methods) = written(allowed);
                answer(status)?;
                let methods = methods.split(", ").map(String::from).collect();
                Ok(Routed::MethodNotAllowed(methods))
            }
            Err(error) => Err(error),
        }
    }

    /// The URL of the route with this name with these groups, of each the component, the name
    /// and the text, which is percent-encoded. `None`: no route has the name.
    pub fn link(
        &self,
        name: &str,
        groups: &[(ComponentName, &str, &str)],
    ) -> Result<Option<String>, Error> {
        let (text, given) = given(groups);
        let (status, url) = written(|buffer, room, needed| unsafe {
            c::urlpattern_router_link(
                self.handle(),
                name.as_ptr(),
                name.len(),
                text.as_ptr(),
                text.len(),
                given.as_ptr(),
                given.len(),
                buffer,
                room,
                needed,
            )
        });
        if status == c::REFUSED {
            return Err(Error::NoLink(url));
        }
        Ok(answer(status)?.then_some(url))
    }
}

impl<T: Clone> UrlPatternRouter<T> {
    /// Another router of the same routes, in the memory that they have, for another thread. As long
    /// as both are there, none is added to either, and a call that would fails with
    /// `Error::Shared`. Without routes nothing is shared, and each may get some.
    pub fn try_clone(&self) -> Result<Self, Error> {
        let mut other = Self::new();
        answer(unsafe { c::urlpattern_router_share(self.handle(), other.handle()) })?;
        other.values = self.values.clone();
        Ok(other)
    }
}
