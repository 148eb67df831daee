//! Policies of rules that allow or deny.
use crate::calls::pushed;
use crate::error::answer;
use crate::{c, Error, PatternSource, UrlPatternOptions};
use std::cell::UnsafeCell;
use std::ptr;

/// What a policy decides about a URL, or about a text that may be none.
#[derive(Clone, Copy, Debug, PartialEq, Eq)]
pub enum Decision {
    /// Denied, for this reason.
    Deny(DenyReason),
    /// Allowed by the rule at this index. `None`: no rule matches, and the default is to allow.
    Allow(Option<usize>),
}

impl Decision {
    /// Whether the URL is allowed.
    pub fn is_allowed(&self) -> bool {
        matches!(self, Self::Allow(_))
    }
}

/// Why a URL, or a text that may be none, is denied.
#[derive(Clone, Copy, Debug, PartialEq, Eq)]
pub enum DenyReason {
    /// The rule at this index denies the URL.
    Rule(usize),
    /// No rule matches, and the default is to deny.
    NoRule,
    /// The text is no URL, or its base is none.
    NotAUrl,
    /// The text or the base URL has 16 MB or more.
    TooLong,
    /// The URL has a user name or a password, which the policy denies.
    Credentials,
    /// Memory ran out.
    OutOfMemory,
}

/// What a policy decides apart from its rules.
#[derive(Clone, Copy, Debug, PartialEq, Eq)]
pub struct PolicyOptions {
    /// Whether a URL that no rule matches is allowed.
    pub default_allows: bool,
    /// Whether a URL is brought to its plain spelling before it is matched.
    pub plain_spelling: bool,
    /// Whether a URL with a user name or a password is denied, whatever the rules say.
    pub denies_credentials: bool,
}

impl Default for PolicyOptions {
    fn default() -> Self {
        Self {
            default_allows: false,
            plain_spelling: true,
            denies_credentials: false,
        }
    }
}

/// Rules in order, each of which allows or denies the URLs that its pattern matches. The first rule
/// that matches decides.
///
/// ```
/// use urlpattern_proved::UrlPolicy;
///
/// let mut policy = UrlPolicy::new();
/// policy.allow("https://example.com/docs/*")?;
/// assert!(policy.allows("https://example.com/docs/a", None));
/// assert!(!policy.allows("https://example.com/", None));
/// assert!(!policy.allows("no URL", None));
/// # Ok::<(), urlpattern_proved::Error>(())
/// ```
pub struct UrlPolicy {
    handle: UnsafeCell<c::Policy>,
}

// The library proves that a handle may go from thread to thread.
unsafe impl Send for UrlPolicy {}

impl Default for UrlPolicy {
    fn default() -> Self {
        let handle = UnsafeCell::new(c::Policy {
            made_by: 0,
            at: ptr::null_mut(),
        });
        Self { handle }
    }
}

impl Drop for UrlPolicy {
    fn drop(&mut self) {
        unsafe { c::urlpattern_policy_free(self.handle()) }
    }
}

impl UrlPolicy {
    /// A policy without rules, which denies every URL.
    pub fn new() -> Self {
        Self::default()
    }

    /// The handle. A call has it until it returns, and makes no other one meanwhile; and since the
    /// type is no `Sync`, no other thread makes one.
    fn handle(&self) -> *mut c::Policy {
        self.handle.get()
    }

    /// Sets what is decided apart from the rules.
    pub fn set_options(&mut self, options: PolicyOptions) -> Result<(), Error> {
        let (allows, plain) = (options.default_allows, options.plain_spelling);
        let (at, credentials) = (self.handle(), options.denies_credentials);
        answer(unsafe { c::urlpattern_policy_set_options(at, allows, plain, credentials) })?;
        Ok(())
    }

    /// Appends a rule that allows what the pattern matches.
    pub fn allow<'s>(&mut self, pattern: impl Into<PatternSource<'s>>) -> Result<(), Error> {
        self.add(true, pattern.into(), UrlPatternOptions::default())
    }

    /// Appends a rule that denies what the pattern matches.
    pub fn deny<'s>(&mut self, pattern: impl Into<PatternSource<'s>>) -> Result<(), Error> {
        self.add(false, pattern.into(), UrlPatternOptions::default())
    }

    /// Appends a rule that allows what the pattern matches, or denies it.
    pub fn add(
        &mut self,
        allows: bool,
        pattern: PatternSource<'_>,
        options: UrlPatternOptions,
    ) -> Result<(), Error> {
        let (at, case) = (self.handle(), options.ignore_case);
        match pattern {
            PatternSource::Text(text, base) => {
                let base = base.unwrap_or("");
                let (text, length) = (text.as_ptr(), text.len());
                let (base, base_length) = (base.as_ptr(), base.len());
                let status = unsafe {
                    c::urlpattern_policy_add(at, allows, text, length, base, base_length, case)
                };
                pushed(status, |buffer, room, needed, place| unsafe {
                    c::urlpattern_diagnose(
                        text,
                        length,
                        base,
                        base_length,
                        case,
                        buffer,
                        room,
                        needed,
                        place,
                    )
                })
            }
            PatternSource::Init(init) => {
                let json = init.to_json();
                let (json, length) = (json.as_bytes().as_ptr(), json.len());
                let status =
                    unsafe { c::urlpattern_policy_add_init(at, allows, json, length, case) };
                pushed(status, |buffer, room, needed, place| unsafe {
                    c::urlpattern_diagnose_init(json, length, case, buffer, room, needed, place)
                })
            }
        }
    }

    /// Another policy of the same rules, in the memory that they have, for another thread. As long
    /// as both are there, neither is changed, and a call that would fails with `Error::Shared`.
    /// Without rules only the options are copied, and each may be changed.
    pub fn try_clone(&self) -> Result<Self, Error> {
        let other = Self::new();
        answer(unsafe { c::urlpattern_policy_share(self.handle(), other.handle()) })?;
        Ok(other)
    }

    /// What is decided about a URL, which may be relative to a base URL, and why.
    pub fn decide(&self, url: &str, base: Option<&str>) -> Decision {
        let (base, mut rule) = (base.unwrap_or(""), usize::MAX);
        let number = unsafe {
            c::urlpattern_policy_decide(
                self.handle(),
                url.as_ptr(),
                url.len(),
                base.as_ptr(),
                base.len(),
                &mut rule,
            )
        };
        let rule = Some(rule).filter(|&rule| rule != usize::MAX);
        match (number, rule) {
            (c::ALLOW, rule) => Decision::Allow(rule),
            (c::DENY, Some(rule)) => Decision::Deny(DenyReason::Rule(rule)),
            (c::DENY, None) => Decision::Deny(DenyReason::NoRule),
            (c::NO_URL, _) => Decision::Deny(DenyReason::NotAUrl),
            (c::TOO_LONG, _) => Decision::Deny(DenyReason::TooLong),
            (c::DENY_CREDENTIALS, _) => Decision::Deny(DenyReason::Credentials),
            _ => Decision::Deny(DenyReason::OutOfMemory),
        }
    }

    /// Whether a URL, which may be relative to a base URL, is allowed.
    pub fn allows(&self, url: &str, base: Option<&str>) -> bool {
        self.decide(url, base).is_allowed()
    }
}
