//! URL patterns whose answers are proved, over the C interface of the library `urlpattern`.
//!
//! ```
//! use urlpattern_proved::{ComponentName, UrlPatternList, UrlPatternOptions};
//!
//! let mut routes = UrlPatternList::new();
//! routes.push("https://example.com/users/:id", None, UrlPatternOptions::default())?;
//! let found = routes.first_captures("https://example.com/users/7", None)?.unwrap();
//! assert_eq!((found.index, found.get(ComponentName::Pathname, "id")), (0, Some("7")));
//! # Ok::<(), urlpattern_proved::Error>(())
//! ```
//!
//! Threads. A list is `Send`, as is proved of its handle, and not `Sync`: one call at a time has a
//! handle. `try_clone` makes another list of the same patterns, in the memory that they have, so
//! that each thread has one of its own. So it is of a router and of a policy.
//!
//! ```
//! fn is_sent<T: Send>() {}
//! is_sent::<urlpattern_proved::UrlPatternList>();
//! ```
//!
//! ```compile_fail,E0277
//! fn is_shared<T: Sync>() {}
//! is_shared::<urlpattern_proved::UrlPatternList>();
//! ```
//!
//! No call is made in the forked child of a process with threads.
mod c;
mod calls;
mod error;
mod init;
mod list;
mod list_inits;
mod list_pairs;
mod pattern;
mod policy;
mod result;
mod router;
mod static_routes;

pub use error::{Error, Subject};
pub use init::{ComponentName, UrlPatternInit, UrlPatternOptions};
pub use list::{Covering, UrlPatternList};
pub use list_pairs::CoveringReason;
pub use pattern::UrlPattern;
pub use policy::{Decision, DenyReason, PolicyOptions, UrlPolicy};
pub use result::{Captures, UrlPatternComponentResult, UrlPatternResult};
pub use router::{PatternSource, Routed, UrlPatternRouter};
pub use static_routes::{RouteFault, RouteRequest, RouteSource, StaticRoutes, StaticRoutesError};

/// The version of the library: 1,000 times its first number, and its second.
pub fn version() -> u32 {
    unsafe { c::urlpattern_version() }
}
