//! Times what a server asks that has a method and a path: lookups in a `UrlPatternRouter` and in a
//! list, of routes that are paths alone, and of the same paths in a `matchit::Router`, in
//! nanoseconds for each lookup.

use super::rounds::{Timed, least};
use super::routes::{MISSES, SIZES, lines_of, made_routes, router_of, with_segments};
use matchit::Router;
use std::alloc::Global;
use std::io;
use std::io::Write;
use std::time::Clock;
use urlpattern::regexp::PatternRegexp;
use urlpattern::{
    ComponentName, Error, PathError, Routed, UrlPattern, UrlPatternInit, UrlPatternList,
    UrlPatternOptions, UrlPatternRouter, pathname_texts,
};

/// A list of routes.
type List = UrlPatternList<PatternRegexp>;

/// A router of routes.
type Routes = UrlPatternRouter<usize, PatternRegexp>;

/// Routes that are paths alone, and for each a path that it matches.
#[derive(Drop)]
struct Table {
    list: List,
    /// Each route with the method `GET`.
    router: Routes,
    /// Each route with the method `PUT`, and after it with `GET`.
    methods: Routes,
    paths: Router<usize>,
    hits: Vec<String>,
    misses: Vec<String>,
}

/// The call for each path.
#[derive(Clone, Copy)]
enum Lookup {
    /// The first route for `GET` of the router.
    At,
    /// The first route for `GET` of the router that has each path with two methods.
    AtOfTwo,
    /// The first match of the list.
    First,
    /// The pattern that matches, alone.
    Alone,
    /// The `matchit::Router`.
    Matchit,
    /// The first route for `GET` of the router, and the length of each capture.
    AtRead,
    /// The `matchit::Router`, and the length of each parameter.
    MatchitRead,
}

/// Lookups of some paths of a table.
#[derive(Drop)]
struct Lookups<'t> {
    table: &'t Table,
    paths: &'t [String],
    lookup: Lookup,
}

impl Lookup {
    /// The call with a name.
    fn named(name: &str) -> Option<Lookup> {
        match name {
            "at" => Some(Lookup::At),
            "two" => Some(Lookup::AtOfTwo),
            "first" => Some(Lookup::First),
            "alone" => Some(Lookup::Alone),
            "matchit" => Some(Lookup::Matchit),
            "at-read" => Some(Lookup::AtRead),
            "matchit-read" => Some(Lookup::MatchitRead),
            _ => None,
        }
    }
}

impl<'t> Timed for Lookups<'t> {
    #[inline(never)]
    fn call(&self, alloc: Global) -> Result<bool, Error> {
        let mut is_found = false;
        for (index, path) in self.paths.iter().enumerate() {
            is_found |= self.is_found(alloc, index, path)?;
        }
        Ok(is_found)
    }
}

impl<'t> Lookups<'t> {
    /// Whether a path is found.
    fn is_found(&self, alloc: Global, index: usize, path: &str) -> Result<bool, Error> {
        match self.lookup {
            Lookup::At => is_served(alloc, &self.table.router, path),
            Lookup::AtOfTwo => is_served(alloc, &self.table.methods, path),
            Lookup::First => match self.table.list.first_captures_of_path(alloc, path) {
                Ok(found) => Ok(found.is_some()),
                Err(PathError::NotAPath) => Ok(false),
                Err(PathError::OutOfMemory) => Err(Error::OutOfMemory),
            },
            Lookup::Alone => match self.table.list.get(index) {
                Some(pattern) => Ok(pattern
                    .captures_of_texts(alloc, &pathname_texts(path))?
                    .is_some()),
                None => Ok(false),
            },
            Lookup::Matchit => Ok(self.table.paths.at(path).is_ok()),
            Lookup::AtRead => is_read(alloc, &self.table.router, path),
            Lookup::MatchitRead => match self.table.paths.at(path) {
                Ok(found) => {
                    let mut length = 1;
                    for (_, text) in found.params.iter() {
                        length += text.len();
                    }
                    Ok(length > 0)
                }
                Err(_) => Ok(false),
            },
        }
    }
}

/// Whether a route of a router serves the method `GET` and matches a path.
fn is_served(alloc: Global, router: &Routes, path: &str) -> Result<bool, Error> {
    let routed = match router.at(alloc, "GET", path) {
        Ok(routed) => routed,
        Err(PathError::NotAPath) => return Ok(false),
        Err(PathError::OutOfMemory) => return Err(Error::OutOfMemory),
    };
    let is_served = matches!(routed, Routed::Found(..));
    drop(routed);
    Ok(is_served)
}

/// Whether a route of a router serves the method `GET` and matches a path; reads each capture of
/// the path.
fn is_read(alloc: Global, router: &Routes, path: &str) -> Result<bool, Error> {
    let routed = match router.at(alloc, "GET", path) {
        Ok(routed) => routed,
        Err(PathError::NotAPath) => return Ok(false),
        Err(PathError::OutOfMemory) => return Err(Error::OutOfMemory),
    };
    let mut length = 0;
    if let Routed::Found(_, _, captures) = &routed {
        length = 1;
        for (_, text) in captures.groups(ComponentName::Pathname) {
            length += text.map_or(0, |text| text.len());
        }
    }
    drop(routed);
    Ok(length > 0)
}

/// A pattern of a path alone.
fn pattern_of(alloc: Global, route: &str) -> Result<UrlPattern<PatternRegexp>, Error> {
    let mut init = UrlPatternInit::default();
    init.pathname = Some(String::from_str(alloc, route)?);
    UrlPattern::parse(alloc, init, UrlPatternOptions::default())
}

/// The table of some routes.
fn table_of(alloc: Global, routes: &[String]) -> Result<Table, Error> {
    let hits = hits_of(alloc, routes)?;
    let misses = misses_of(alloc)?;
    let paths = router_of(alloc, routes)?;
    let list = list_of(alloc, routes)?;
    let router = routes_of(alloc, routes, &["GET"])?;
    let methods = routes_of(alloc, routes, &["PUT", "GET"])?;
    Ok(Table {
        list,
        router,
        methods,
        paths,
        hits,
        misses,
    })
}

/// The list of some routes.
fn list_of(alloc: Global, routes: &[String]) -> Result<List, Error> {
    let mut list = List::new(alloc);
    for route in routes {
        list.try_push(pattern_of(alloc, route)?)?;
    }
    Ok(list)
}

/// The router of some routes, each with these methods.
fn routes_of(alloc: Global, routes: &[String], methods: &[&str]) -> Result<Routes, Error> {
    let mut router = Routes::new(alloc);
    for (index, route) in routes.iter().enumerate() {
        for method in methods {
            let pattern = pattern_of(alloc, route)?;
            if router.insert(alloc, method, pattern, index).is_err() {
                return Err(Error::OutOfMemory);
            }
        }
    }
    Ok(router)
}

/// For each route a path that it matches.
fn hits_of(alloc: Global, routes: &[String]) -> Result<Vec<String>, Error> {
    let mut paths = Vec::new(alloc);
    for route in routes {
        paths.push(with_segments(alloc, route, ("the-", ""), "a/b.txt")?)?;
    }
    Ok(paths)
}

/// Paths that no route matches.
fn misses_of(alloc: Global) -> Result<Vec<String>, Error> {
    let mut paths = Vec::new(alloc);
    for path in MISSES {
        paths.push(String::from_str(alloc, path)?)?;
    }
    Ok(paths)
}

/// The mean duration of a lookup over some paths, in nanoseconds.
fn mean<R: AllocGlobal + Clock>(
    rt: &R,
    table: &Table,
    paths: &[String],
    lookup: Lookup,
) -> io::Result<u128> {
    let lookups = Lookups {
        table,
        paths,
        lookup,
    };
    let time = least(rt, rt.alloc(), &lookups)?;
    Ok(time / (paths.len() as u128).max(1))
}

/// Prints the times of a table: its routes, and the mean of each lookup, of paths that a route
/// matches and of paths that none does.
fn time_table<R: AllocGlobal + Clock, O: Write>(
    rt: &R,
    name: &str,
    routes: Result<Vec<String>, Error>,
    out: &mut O,
) -> io::Result<()> {
    let table = match routes {
        Ok(routes) => table_of(rt.alloc(), &routes),
        Err(error) => Err(error),
    };
    match table {
        Ok(table) => {
            write!(out, "{name}\t{}", table.list.len())?;
            for lookup in [
                Lookup::At,
                Lookup::AtRead,
                Lookup::AtOfTwo,
                Lookup::First,
                Lookup::Alone,
                Lookup::Matchit,
                Lookup::MatchitRead,
            ] {
                write!(out, "\t{}", mean(rt, &table, &table.hits, lookup)?)?;
            }
            for lookup in [
                Lookup::At,
                Lookup::AtOfTwo,
                Lookup::First,
                Lookup::Matchit,
            ] {
                write!(out, "\t{}", mean(rt, &table, &table.misses, lookup)?)?;
            }
            drop(table);
            writeln!(out)
        }
        Err(error) => writeln!(out, "{name}\t{error}"),
    }
}

/// Prints the times of the table of a text's routes, and of generated tables.
pub fn run<R: AllocGlobal + Clock, O: Write>(rt: &R, text: &str, out: &mut O) -> io::Result<()> {
    writeln!(
        out,
        "paths\troutes\tat\tcaptures read\tat of two methods\tfirst_captures_of_path\tcaptures_of_texts alone\tmatchit\tcaptures read\tnone: at\tat of two methods\tfirst_captures_of_path\tmatchit"
    )?;
    time_table(rt, "given", lines_of(rt.alloc(), text), out)?;
    for size in SIZES {
        time_table(rt, "made", made_routes(rt.alloc(), size), out)?;
    }
    Ok(())
}

/// Repeats the lookup with a name, for a tool that counts instructions: of a path for each route of
/// a text, or of as many made routes as its line says, or of paths that no route matches if
/// `is_missing`. Returns whether there is such a lookup.
pub fn repeat(
    alloc: Global,
    text: &str,
    lookup: &str,
    is_missing: bool,
    count: u64,
) -> Result<bool, Error> {
    let Some(lookup) = Lookup::named(lookup) else {
        return Ok(false);
    };
    let routes = match text.trim().parse::<usize>() {
        Ok(size) => made_routes(alloc, size)?,
        Err(_) => lines_of(alloc, text)?,
    };
    let table = table_of(alloc, &routes)?;
    let paths = if is_missing { &table.misses } else { &table.hits };
    let lookups = Lookups {
        table: &table,
        paths,
        lookup,
    };
    for _ in 0..count {
        lookups.call(alloc)?;
    }
    drop(table);
    Ok(true)
}
