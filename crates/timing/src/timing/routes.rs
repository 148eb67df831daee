//! Times lookups in tables of routes with common prefixes, and of the same paths in a loop over the
//! patterns, in the right pattern alone, and in a `matchit::Router`, in nanoseconds for each
//! lookup.

use super::make_pattern;
use super::rounds::{Timed, least};
use matchit::Router;
use std::alloc::Global;
use std::borrow::CowStr;
use std::io;
use std::io::Write;
use std::time::Clock;
use url::Url;
use urlpattern::quirks::StringOrInit;
use urlpattern::regexp::PatternRegexp;
use urlpattern::{Error, UrlPatternList};

/// The origin of all routes.
const BASE: &str = "https://api.example.com";

/// The sizes of the generated tables.
pub(super) const SIZES: [usize; 2] = [1000, 10_000];

/// The routes of each group of a generated table, before and after the group's name.
const SHAPES: [(&str, &str); 8] = [
    ("/", ""),
    ("/", "/:id"),
    ("/", "/:id/edit"),
    ("/tenants/:tenant/", ""),
    ("/tenants/:tenant/", "/:id"),
    ("/tenants/:tenant/", "/:id/items"),
    ("/tenants/:tenant/", "/:id/items/:item"),
    ("/tenants/:tenant/", "/:id/files/*"),
];

/// Paths that no route matches.
pub(super) const MISSES: [&str; 10] = [
    "/",
    "/none",
    "/repos/none",
    "/repos/rust/regex/none",
    "/repos/rust/regex/issues/7/none/8",
    "/users/a/none",
    "/user/none/a",
    "/orgs/a/b/c/d/e/f/g",
    "/tenants/a/none/7/items",
    "/gists/1/star/2",
];

/// A list of routes.
type List = UrlPatternList<PatternRegexp>;

/// Routes, by their texts, and for each a path that it matches.
#[derive(Drop)]
struct Table {
    list: List,
    router: Router<usize>,
    hits: Vec<Url>,
    misses: Vec<Url>,
}

/// The call for each URL.
#[derive(Clone, Copy)]
enum Lookup {
    /// The first match of the list.
    First,
    /// The patterns of the list, in a loop.
    Loop,
    /// The pattern that matches, alone.
    Alone,
    /// The router, with the path.
    Router,
}

/// Lookups of some URLs of a table.
#[derive(Drop)]
struct Lookups<'t> {
    table: &'t Table,
    urls: &'t [Url],
    lookup: Lookup,
}

impl<'t> Timed for Lookups<'t> {
    #[inline(never)]
    fn call(&self, alloc: Global) -> Result<bool, Error> {
        let mut is_found = false;
        for (index, url) in self.urls.iter().enumerate() {
            is_found |= self.is_found(alloc, index, url)?;
        }
        Ok(is_found)
    }
}

impl<'t> Lookups<'t> {
    /// Whether a URL is found.
    fn is_found(&self, alloc: Global, index: usize, url: &Url) -> Result<bool, Error> {
        match self.lookup {
            Lookup::First => Ok(self.table.list.first_captures(alloc, url)?.is_some()),
            Lookup::Loop => {
                for pattern in self.table.list.iter() {
                    if pattern.captures(alloc, url)?.is_some() {
                        return Ok(true);
                    }
                }
                Ok(false)
            }
            Lookup::Alone => match self.table.list.get(index) {
                Some(pattern) => Ok(pattern.captures(alloc, url)?.is_some()),
                None => Ok(false),
            },
            Lookup::Router => Ok(self.table.router.at(url.path()).is_ok()),
        }
    }
}

/// The text of a route, in which each segment that is a name or a wildcard is replaced.
pub(super) fn with_segments(
    alloc: Global,
    route: &str,
    name: (&str, &str),
    rest: &str,
) -> Result<String, Error> {
    let mut text = String::new(alloc);
    for segment in route.split('/').skip(1) {
        text.push('/')?;
        match segment.strip_prefix(':') {
            Some(word) => {
                text.push_str(name.0)?;
                text.push_str(word)?;
                text.push_str(name.1)?;
            }
            None if segment == "*" => text.push_str(rest)?,
            None => text.push_str(segment)?,
        }
    }
    Ok(text)
}

/// The URL of a path.
fn url_of(alloc: Global, path: &str) -> Result<Url, Error> {
    let text = format!(in alloc; "{BASE}{path}")?;
    Url::parse(alloc, &text).map_err(Error::Url)
}

/// The table of some routes.
fn table_of(alloc: Global, routes: &[String]) -> Result<Table, Error> {
    let hits = hits_of(alloc, routes)?;
    let misses = misses_of(alloc)?;
    let router = router_of(alloc, routes)?;
    let list = list_of(alloc, routes)?;
    Ok(Table {
        list,
        router,
        hits,
        misses,
    })
}

/// The list of some routes.
fn list_of(alloc: Global, routes: &[String]) -> Result<List, Error> {
    let mut list = List::new(alloc);
    for route in routes {
        let given = StringOrInit::String(CowStr::Borrowed(route));
        let pattern = make_pattern(alloc, &given, Some(BASE), false)?;
        if list.push(pattern).is_err() {
            return Err(Error::OutOfMemory);
        }
    }
    Ok(list)
}

/// The router of the paths of some routes. It rejects routes that differ only in names.
pub(super) fn router_of(alloc: Global, routes: &[String]) -> Result<Router<usize>, Error> {
    let mut router = Router::new(alloc);
    for (index, route) in routes.iter().enumerate() {
        let path = with_segments(alloc, route, ("{", "}"), "{*rest}")?;
        let _ = router.insert(&path, index);
    }
    Ok(router)
}

/// For each route a URL that it matches.
fn hits_of(alloc: Global, routes: &[String]) -> Result<Vec<Url>, Error> {
    let mut urls = Vec::new(alloc);
    for route in routes {
        let path = with_segments(alloc, route, ("the-", ""), "a/b.txt")?;
        urls.push(url_of(alloc, &path)?)?;
    }
    Ok(urls)
}

/// URLs that no route matches.
fn misses_of(alloc: Global) -> Result<Vec<Url>, Error> {
    let mut urls = Vec::new(alloc);
    for path in MISSES {
        urls.push(url_of(alloc, path)?)?;
    }
    Ok(urls)
}

/// The routes of a generated table.
pub(super) fn made_routes(alloc: Global, size: usize) -> Result<Vec<String>, Error> {
    let mut routes = Vec::new(alloc);
    for index in 0..size {
        let group = index / SHAPES.len();
        let (front, end) = SHAPES[index % SHAPES.len()];
        routes.push(format!(in alloc; "{front}group{group}{end}")?)?;
    }
    Ok(routes)
}

/// Copies of a route.
fn same_routes(alloc: Global, size: usize) -> Result<Vec<String>, Error> {
    let mut routes = Vec::new(alloc);
    for _ in 0..size {
        routes.push(String::from_str(alloc, "/:a/:b")?)?;
    }
    Ok(routes)
}

/// The mean duration of a lookup over some URLs, in nanoseconds.
fn mean<R: AllocGlobal + Clock>(
    rt: &R,
    table: &Table,
    urls: &[Url],
    lookup: Lookup,
) -> io::Result<u128> {
    let lookups = Lookups {
        table,
        urls,
        lookup,
    };
    let time = least(rt, rt.alloc(), &lookups)?;
    Ok(time / (urls.len() as u128).max(1))
}

/// Prints the times of a table: its routes; the mean of a lookup in the list, in the right pattern
/// alone, in a loop and in a router; the mean of a lookup without a match in the list, in a loop
/// and in a router; and the slowest lookup in the list.
fn time_table<R: AllocGlobal + Clock, O: Write>(
    rt: &R,
    name: &str,
    routes: Result<Vec<String>, Error>,
    out: &mut O,
) -> io::Result<()> {
    let table = match routes {
        Ok(routes) => table_of(rt.alloc(), &routes),
        Err(error) => Err(error),
    };
    match table {
        Ok(table) => {
            write!(out, "{name}\t{}", table.list.len())?;
            for lookup in [Lookup::First, Lookup::Alone, Lookup::Loop, Lookup::Router] {
                write!(out, "\t{}", mean(rt, &table, &table.hits, lookup)?)?;
            }
            for lookup in [Lookup::First, Lookup::Loop, Lookup::Router] {
                write!(out, "\t{}", mean(rt, &table, &table.misses, lookup)?)?;
            }
            let slowest = slowest(rt, &table)?;
            drop(table);
            writeln!(out, "\t{slowest}")
        }
        Err(error) => writeln!(out, "{name}\t{error}"),
    }
}

/// The slowest of the first lookups that find a route, in nanoseconds.
fn slowest<R: AllocGlobal + Clock>(rt: &R, table: &Table) -> io::Result<u128> {
    let mut slowest = 0;
    for urls in table.hits.chunks(1).take(200) {
        slowest = slowest.max(mean(rt, table, urls, Lookup::First)?);
    }
    Ok(slowest)
}

/// The lines of a text, each of which is a route.
pub(super) fn lines_of(alloc: Global, text: &str) -> Result<Vec<String>, Error> {
    let mut routes = Vec::new(alloc);
    for line in text.lines() {
        routes.push(String::from_str(alloc, line)?)?;
    }
    Ok(routes)
}

/// Prints the times of the table of a text's routes, and of generated tables.
pub fn run<R: AllocGlobal + Clock, O: Write>(rt: &R, text: &str, out: &mut O) -> io::Result<()> {
    writeln!(
        out,
        "table\troutes\tfirst_captures\tcaptures alone\tloop\tmatchit\tnone: first_captures\tloop\tmatchit\tslowest first_captures"
    )?;
    time_table(rt, "given", lines_of(rt.alloc(), text), out)?;
    for size in SIZES {
        time_table(rt, "made", made_routes(rt.alloc(), size), out)?;
    }
    time_table(rt, "/:a/:b", same_routes(rt.alloc(), 1000), out)
}
