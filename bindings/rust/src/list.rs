//! Lists of patterns.
use crate::calls::{covering, given, joined, pushed, written, Matching};
use crate::error::answer;
use crate::{
    c, Captures, ComponentName, Error, UrlPatternInit, UrlPatternOptions, UrlPatternResult,
};
use std::cell::UnsafeCell;
use std::ptr;

/// Whether a pattern matches each URL that another one, the asked one, matches.
#[derive(Clone, Copy, Debug, PartialEq, Eq)]
pub enum Covering {
    Covered,
    /// The asked pattern matches a text of this component that the other one does not.
    NotCovered(ComponentName),
    /// Not known, because of this component.
    Unknown(Option<ComponentName>),
}

/// Patterns in their order, as the routes of a router, each named by its index.
pub struct UrlPatternList {
    handle: UnsafeCell<c::List>,
}

// The library proves that a handle may go from thread to thread.
unsafe impl Send for UrlPatternList {}

impl Default for UrlPatternList {
    fn default() -> Self {
        let handle = UnsafeCell::new(c::List {
            made_by: 0,
            at: ptr::null_mut(),
        });
        Self { handle }
    }
}

impl Drop for UrlPatternList {
    fn drop(&mut self) {
        unsafe { c::urlpattern_free(self.at()) }
    }
}

impl Matching for UrlPatternList {
    fn group_name(
        &self,
        index: usize,
        component: u32,
        group: usize,
        buffer: *mut u8,
        room: usize,
        needed: *mut usize,
    ) -> u32 {
        let at = self.at();
        unsafe { c::urlpattern_group_name(at, index, component, group, buffer, room, needed) }
    }
}

impl UrlPatternList {
    pub fn new() -> Self {
        Self::default()
    }

    /// The handle. A call has it until it returns, and makes no other one meanwhile; and since the
    /// type is no `Sync`, no other thread makes one.
    pub(crate) fn at(&self) -> *mut c::List {
        self.handle.get()
    }

    /// Compiles a constructor string, under a base URL if there is one, and appends the pattern.
    pub fn push(
        &mut self,
        text: &str,
        base: Option<&str>,
        options: UrlPatternOptions,
    ) -> Result<(), Error> {
        let (base, case) = (base.unwrap_or(""), options.ignore_case);
        let (text, length, base, base_length) =
            (text.as_ptr(), text.len(), base.as_ptr(), base.len());
        let status = unsafe { c::urlpattern_add(self.at(), text, length, base, base_length, case) };
        pushed(status, |buffer, room, needed, place| unsafe {
            c::urlpattern_diagnose(
                text,
                length,
                base,
                base_length,
                case,
                buffer,
                room,
                needed,
                place,
            )
        })
    }

    /// Compiles an init, and appends the pattern.
    pub fn push_init(
        &mut self,
        init: &UrlPatternInit,
        options: UrlPatternOptions,
    ) -> Result<(), Error> {
        let (json, case) = (init.to_json(), options.ignore_case);
        let (json, length) = (json.as_bytes().as_ptr(), json.len());
        let status = unsafe { c::urlpattern_add_init(self.at(), json, length, case) };
        pushed(status, |buffer, room, needed, place| unsafe {
            c::urlpattern_diagnose_init(json, length, case, buffer, room, needed, place)
        })
    }

    /// Another list of the same patterns, in the memory that they have, for another thread. As long
    /// as both are there, none is added to either.
    pub fn try_clone(&self) -> Result<Self, Error> {
        let other = Self::new();
        answer(unsafe { c::urlpattern_share(self.at(), other.at()) })?;
        Ok(other)
    }

    /// Whether a pattern matches a URL, which may be relative to a base URL.
    pub fn test(&self, index: usize, url: &str, base: Option<&str>) -> Result<bool, Error> {
        let base = base.unwrap_or("");
        answer(unsafe {
            c::urlpattern_test(
                self.at(),
                index,
                url.as_ptr(),
                url.len(),
                base.as_ptr(),
                base.len(),
            )
        })
    }

    /// The first component of a pattern that does not match a URL.
    pub fn mismatch(
        &self,
        index: usize,
        url: &str,
        base: Option<&str>,
    ) -> Result<Option<ComponentName>, Error> {
        let (base, mut number) = (base.unwrap_or(""), 0);
        let (url, length, base, base_length) = (url.as_ptr(), url.len(), base.as_ptr(), base.len());
        answer(unsafe {
            c::urlpattern_mismatch(
                self.at(),
                index,
                url,
                length,
                base,
                base_length,
                &mut number,
            )
        })?;
        Ok(ComponentName::of(number))
    }

    /// The match of a URL by a pattern, as a browser has it.
    pub fn exec(
        &self,
        index: usize,
        url: &str,
        base: Option<&str>,
    ) -> Result<Option<UrlPatternResult>, Error> {
        let base = base.unwrap_or("");
        let (url, length, base, base_length) = (url.as_ptr(), url.len(), base.as_ptr(), base.len());
        let (status, json) = written(|buffer, room, needed| unsafe {
            c::urlpattern_exec(
                self.at(),
                index,
                url,
                length,
                base,
                base_length,
                buffer,
                room,
                needed,
            )
        });
        Ok(answer(status)?.then(|| UrlPatternResult::from_json(&json).expect("JSON of a match")))
    }

    /// What the groups of a pattern capture of a URL.
    pub fn captures(
        &self,
        index: usize,
        url: &str,
        base: Option<&str>,
    ) -> Result<Option<Captures>, Error> {
        let base = base.unwrap_or("");
        self.matched(
            |_, text, spans, sizes| unsafe {
                c::urlpattern_captures(
                    self.at(),
                    index,
                    url.as_ptr(),
                    url.len(),
                    base.as_ptr(),
                    base.len(),
                    text.as_mut_ptr(),
                    text.len(),
                    spans.as_mut_ptr(),
                    spans.len(),
                    sizes,
                )
            },
            index,
        )
    }

    /// What the groups of a pattern capture of a path by itself, all other components being empty.
    pub fn captures_of_path(&self, index: usize, path: &str) -> Result<Option<Captures>, Error> {
        self.matched(
            |_, text, spans, sizes| unsafe {
                c::urlpattern_captures_of_path(
                    self.at(),
                    index,
                    path.as_ptr(),
                    path.len(),
                    text.as_mut_ptr(),
                    text.len(),
                    spans.as_mut_ptr(),
                    spans.len(),
                    sizes,
                )
            },
            index,
        )
    }

    /// The first pattern that matches a URL, and what its groups capture.
    pub fn first_captures(&self, url: &str, base: Option<&str>) -> Result<Option<Captures>, Error> {
        let base = base.unwrap_or("");
        self.matched(
            |index, text, spans, sizes| unsafe {
                c::urlpattern_first_captures(
                    self.at(),
                    url.as_ptr(),
                    url.len(),
                    base.as_ptr(),
                    base.len(),
                    index,
                    text.as_mut_ptr(),
                    text.len(),
                    spans.as_mut_ptr(),
                    spans.len(),
                    sizes,
                )
            },
            0,
        )
    }

    /// The first pattern that matches a path by itself, and what its groups capture.
    pub fn first_captures_of_path(&self, path: &str) -> Result<Option<Captures>, Error> {
        self.matched(
            |index, text, spans, sizes| unsafe {
                c::urlpattern_first_captures_of_path(
                    self.at(),
                    path.as_ptr(),
                    path.len(),
                    index,
                    text.as_mut_ptr(),
                    text.len(),
                    spans.as_mut_ptr(),
                    spans.len(),
                    sizes,
                )
            },
            0,
        )
    }

    /// What the groups of a pattern capture of eight texts, in the order of `ComponentName::ALL`. They
    /// are not made canonical.
    pub fn captures_of_texts(
        &self,
        index: usize,
        texts: &[&str; 8],
    ) -> Result<Option<Captures>, Error> {
        let (all, parts) = joined(texts);
        self.matched(
            |_, text, spans, sizes| unsafe {
                c::urlpattern_captures_of_texts(
                    self.at(),
                    index,
                    all.as_ptr(),
                    all.len(),
                    &parts,
                    text.as_mut_ptr(),
                    text.len(),
                    spans.as_mut_ptr(),
                    spans.len(),
                    sizes,
                )
            },
            index,
        )
    }

    /// The first pattern that matches eight texts, as `captures_of_texts` has them, and what its
    /// groups capture.
    pub fn first_captures_of_texts(&self, texts: &[&str; 8]) -> Result<Option<Captures>, Error> {
        let (all, parts) = joined(texts);
        self.matched(
            |index, text, spans, sizes| unsafe {
                c::urlpattern_first_captures_of_texts(
                    self.at(),
                    all.as_ptr(),
                    all.len(),
                    &parts,
                    index,
                    text.as_mut_ptr(),
                    text.len(),
                    spans.as_mut_ptr(),
                    spans.len(),
                    sizes,
                )
            },
            0,
        )
    }

    /// The URL of a pattern with these groups, of each the component, the name and the text.
    pub fn link(
        &self,
        index: usize,
        groups: &[(ComponentName, &str, &str)],
    ) -> Result<String, Error> {
        let (text, given) = given(groups);
        let (status, url) = written(|buffer, room, needed| unsafe {
            c::urlpattern_link(
                self.at(),
                index,
                text.as_ptr(),
                text.len(),
                given.as_ptr(),
                given.len(),
                buffer,
                room,
                needed,
            )
        });
        if status == c::REFUSED {
            return Err(Error::NoLink(url));
        }
        answer(status).map(|_| url)
    }

    /// Whether a pattern covers the asked one, both of this list.
    pub fn covers(&self, index: usize, asked: usize) -> Result<Covering, Error> {
        let mut number = 0;
        let status = unsafe { c::urlpattern_covers_within(self.at(), index, asked, &mut number) };
        covering(status, number)
    }

    /// Whether a pattern of this list covers the asked one of another.
    pub fn covers_of(&self, index: usize, others: &Self, asked: usize) -> Result<Covering, Error> {
        if ptr::eq(self, others) {
            return self.covers(index, asked);
        }
        let mut number = 0;
        let status = unsafe {
            c::urlpattern_covers_between(self.at(), index, others.at(), asked, &mut number)
        };
        covering(status, number)
    }

    /// The pattern text of a component of a pattern.
    pub fn component(&self, index: usize, name: ComponentName) -> Result<String, Error> {
        let (status, text) = written(|buffer, room, needed| unsafe {
            c::urlpattern_component(self.at(), index, name as u32, buffer, room, needed)
        });
        answer(status).map(|_| text)
    }

    /// Whether a pattern has a custom regular expression.
    pub fn has_regexp_groups(&self, index: usize) -> Result<bool, Error> {
        answer(unsafe { c::urlpattern_has_regexp_groups(self.at(), index) })
    }

    /// Whether each component of a pattern has a meaning.
    pub fn has_meaning(&self, index: usize) -> Result<bool, Error> {
        answer(unsafe { c::urlpattern_has_meaning(self.at(), index) })
    }
}
