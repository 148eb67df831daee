//! Tests that the data replayed by `bench` cannot express: components built by hand, engines that
//! return what no engine should, the elements of lists and maps, routers, conditions, static routes
//! that are read and written, borrowed matches, copies and comparisons of small values, calls with
//! no or a bounded number of requests for memory, lines that are too long, and programs that the
//! pages show. The crate has tests only.
#![tactic(auto)]

#[cfg(test)]
mod captures;
#[cfg(test)]
mod conditions;
#[cfg(test)]
mod copies;
#[cfg(test)]
mod decoded;
#[cfg(test)]
mod given;
#[cfg(test)]
mod guide;
#[cfg(test)]
mod hand_built;
#[cfg(test)]
mod lines;
#[cfg(test)]
mod lists;
#[cfg(test)]
mod maps;
#[cfg(test)]
mod mismatch;
#[cfg(test)]
mod names;
#[cfg(test)]
mod parts;
#[cfg(test)]
mod plain;
#[cfg(test)]
mod requests;
#[cfg(test)]
mod results;
#[cfg(test)]
mod route_rules;
#[cfg(test)]
mod route_tables;
#[cfg(test)]
mod routers;
#[cfg(test)]
mod routes;
#[cfg(test)]
mod stubborn;
#[cfg(test)]
mod values;
