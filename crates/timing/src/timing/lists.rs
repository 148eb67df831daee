//! Times the first match of lists of routes, and of the same paths in a `matchit::Router`, in
//! nanoseconds for each call.

use super::make_pattern;
use super::rounds::{Timed, least};
use matchit::Router;
use std::alloc::Global;
use std::borrow::CowStr;
use std::io;
use std::io::Write;
use std::time::Clock;
use url::Url;
use urlpattern::quirks::StringOrInit;
use urlpattern::regexp::PatternRegexp;
use urlpattern::{Error, UrlPatternList, UrlPatternMatchInput};

/// The sizes of the lists.
const SIZES: [usize; 4] = [10, 100, 1000, 10_000];

/// The hosts of the routes, in turn, each with a host that it matches.
const HOSTS: [(&str, &str); 3] = [
    ("example.com", "example.com"),
    ("api.example.com", "api.example.com"),
    ("*.example.org", "www.example.org"),
];

/// The ends of the routes' paths, here and in a router. Each is used for all hosts, in turn, and
/// matches `list`.
const ENDS: [(&str, &str); 3] = [("list", "list"), (":name", "{name}"), ("*", "{*rest}")];

/// A list of routes.
type List = UrlPatternList<PatternRegexp>;

/// Routes, and a URL that is looked up in them.
#[derive(Drop)]
struct Routes<'a> {
    list: &'a List,
    url: Url,
}

impl<'a> Timed for Routes<'a> {
    #[inline(never)]
    fn call(&self, alloc: Global) -> Result<bool, Error> {
        let input = UrlPatternMatchInput::Url(self.url.clone()?);
        Ok(self.list.first_match(alloc, input)?.is_some())
    }
}

/// Routes, and a borrowed URL that is looked up in them.
#[derive(Drop)]
struct Lent<'a> {
    list: &'a List,
    url: Url,
}

impl<'a> Timed for Lent<'a> {
    #[inline(never)]
    fn call(&self, alloc: Global) -> Result<bool, Error> {
        let found = self.list.first_captures(alloc, &self.url)?;
        let is_found = found.is_some();
        drop(found);
        Ok(is_found)
    }
}

/// The paths of routes, and a path that is looked up in them.
#[derive(Drop)]
struct Paths<'a> {
    router: &'a Router<usize>,
    path: String,
}

impl<'a> Timed for Paths<'a> {
    #[inline(never)]
    fn call(&self, _alloc: Global) -> Result<bool, Error> {
        Ok(self.router.at(&self.path).is_ok())
    }
}

/// The end of the path of the route at an index, here and in a router.
fn end_of(index: usize) -> (&'static str, &'static str) {
    ENDS[index / HOSTS.len() % ENDS.len()]
}

/// The routes with indices below a size.
fn list_of_routes(alloc: Global, size: usize) -> Result<List, Error> {
    let mut list = List::new(alloc);
    for index in 0..size {
        let (host, _) = HOSTS[index % HOSTS.len()];
        let (end, _) = end_of(index);
        let text = format!(in alloc; "https://{host}/route{index}/{end}")?;
        let given = StringOrInit::String(CowStr::Borrowed(&text));
        if list
            .push(make_pattern(alloc, &given, None, false)?)
            .is_err()
        {
            return Err(Error::OutOfMemory);
        }
    }
    Ok(list)
}

/// The paths of the routes with indices below a size.
fn router_of_paths(alloc: Global, size: usize) -> Result<Router<usize>, Error> {
    let mut router = Router::new(alloc);
    for index in 0..size {
        let (_, end) = end_of(index);
        let text = format!(in alloc; "/route{index}/{end}")?;
        if router.insert(&text, index).is_err() {
            return Err(Error::OutOfMemory);
        }
    }
    Ok(router)
}

/// A URL that the route at an index matches, and no other route.
fn url_of(alloc: Global, index: usize) -> Result<Url, Error> {
    let (_, host) = HOSTS[index % HOSTS.len()];
    let text = format!(in alloc; "https://{host}/route{index}/list")?;
    Url::parse(alloc, &text).map_err(Error::Url)
}

/// Prints the times of lists of routes: their size, the call, and a column each for a URL that the
/// first, the middle and the last route matches, and one that none matches.
pub fn run<R: AllocGlobal + Clock, O: Write>(rt: &R, out: &mut O) -> io::Result<()> {
    writeln!(out, "routes\tcall\tfirst\tmiddle\tlast\tnone")?;
    for size in SIZES {
        match list_of_routes(rt.alloc(), size) {
            Ok(list) => {
                let timed = time_list(rt, &list, size, out);
                drop(list);
                timed?;
            }
            Err(error) => writeln!(out, "{size}\t{error}")?,
        }
        match router_of_paths(rt.alloc(), size) {
            Ok(router) => time_router(rt, &router, size, out)?,
            Err(error) => writeln!(out, "{size}\t{error}")?,
        }
    }
    Ok(())
}

/// The indices of the routes that are looked up in a list of a size. The last one is out of range.
fn looked_for(size: usize) -> [usize; 4] {
    [0, size / 2, size.saturating_sub(1), size]
}

/// Prints the times of a list.
fn time_list<R: AllocGlobal + Clock, O: Write>(
    rt: &R,
    list: &List,
    size: usize,
    out: &mut O,
) -> io::Result<()> {
    write!(out, "{size}\tfirst_match")?;
    time_urls(rt, size, |url| Routes { list, url }, out)?;
    write!(out, "{size}\tfirst_captures")?;
    time_urls(rt, size, |url| Lent { list, url }, out)
}

/// Prints the time of a call for each URL that is looked up, to the end of the line.
fn time_urls<T: Timed + Drop, F: Fn(Url) -> T, R: AllocGlobal + Clock, O: Write>(
    rt: &R,
    size: usize,
    call: F,
    out: &mut O,
) -> io::Result<()>
    requires { F.IsAlwaysCallable call }
{
    for index in looked_for(size) {
        match url_of(rt.alloc(), index) {
            Ok(url) => {
                let time = least(rt, rt.alloc(), &call(url))?;
                write!(out, "\t{time}")?;
            }
            Err(error) => write!(out, "\t{error}")?,
        }
    }
    writeln!(out)
}

/// Prints the times of a router with the same paths.
fn time_router<R: AllocGlobal + Clock, O: Write>(
    rt: &R,
    router: &Router<usize>,
    size: usize,
    out: &mut O,
) -> io::Result<()> {
    write!(out, "{size}\tmatchit")?;
    for index in looked_for(size) {
        let path = format!(in rt.alloc(); "/route{index}/list")?;
        let time = least(rt, rt.alloc(), &Paths { router, path })?;
        write!(out, "\t{time}")?;
    }
    writeln!(out)
}
