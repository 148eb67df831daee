//! The functions of the library, as `bindings/c/urlpattern.h` declares them.
use std::ffi::c_void;

pub const NO_MATCH: u32 = 0;
pub const DONE: u32 = 1;
pub const NO_URL: u32 = 2;
pub const NO_PATH: u32 = 3;
pub const TOO_LONG: u32 = 4;
pub const REFUSED: u32 = 6;
pub const NO_PATTERN: u32 = 8;
pub const TOO_SMALL: u32 = 9;
pub const UNKNOWN: u32 = 10;
pub const SHARED: u32 = 11;
pub const NOT_ALLOWED: u32 = 12;
pub const NAME_TAKEN: u32 = 14;
pub const NOT_A_METHOD: u32 = 15;

/// What a policy decides, apart from `NO_URL`, `TOO_LONG` and that memory ran out.
pub const DENY: u32 = 0;
pub const ALLOW: u32 = 1;
pub const DENY_CREDENTIALS: u32 = 13;

/// Where the response to a request comes from, apart from a race.
pub const NETWORK: u32 = 1;
pub const FETCH_EVENT: u32 = 2;
pub const CACHE: u32 = 3;
pub const NAMED_CACHE: u32 = 4;

#[repr(C)]
pub struct List {
    pub made_by: u32,
    pub at: *mut c_void,
}

#[repr(C)]
pub struct Router {
    pub made_by: u32,
    pub at: *mut c_void,
}

#[repr(C)]
pub struct Policy {
    pub made_by: u32,
    pub at: *mut c_void,
}

#[repr(C)]
pub struct StaticRoutes {
    pub made_by: u32,
    pub at: *mut c_void,
}

#[repr(C)]
#[derive(Default)]
pub struct RouteFault {
    pub rule: usize,
    pub member: u32,
    pub reason: u32,
    pub place: Place,
}

#[repr(C)]
#[derive(Clone, Copy, Default)]
pub struct Span {
    pub component: u32,
    pub took_part: u32,
    pub group: usize,
    pub start: usize,
    pub length: usize,
}

#[repr(C)]
#[derive(Clone, Copy, Default)]
pub struct Sizes {
    pub bytes: usize,
    pub spans: usize,
}

#[repr(C)]
#[derive(Clone, Copy, Default)]
pub struct Part {
    pub start: usize,
    pub length: usize,
}

/// A part for each component, in the order of the standard.
#[repr(C)]
#[derive(Clone, Copy, Default)]
pub struct Parts(pub [Part; 8]);

#[repr(C)]
pub struct Given {
    pub component: u32,
    pub name_start: usize,
    pub name_length: usize,
    pub start: usize,
    pub length: usize,
}

#[repr(C)]
#[derive(Default)]
pub struct Place {
    pub subject: u32,
    pub start: usize,
    pub end: usize,
}

#[rustfmt::skip]
extern "C" {
    pub fn urlpattern_version() -> u32;
    pub fn urlpattern_add(list: *mut List, text: *const u8, length: usize, base: *const u8, base_length: usize, ignore_case: bool) -> u32;
    pub fn urlpattern_add_init(list: *mut List, json: *const u8, length: usize, ignore_case: bool) -> u32;
    pub fn urlpattern_free(list: *mut List);
    pub fn urlpattern_share(list: *mut List, other: *mut List) -> u32;
    pub fn urlpattern_test(list: *mut List, index: usize, url: *const u8, length: usize, base: *const u8, base_length: usize) -> u32;
    pub fn urlpattern_mismatch(list: *mut List, index: usize, url: *const u8, length: usize, base: *const u8, base_length: usize, component: *mut u32) -> u32;
    pub fn urlpattern_exec(list: *mut List, index: usize, url: *const u8, length: usize, base: *const u8, base_length: usize, buffer: *mut u8, room: usize, needed: *mut usize) -> u32;
    pub fn urlpattern_captures(list: *mut List, index: usize, url: *const u8, length: usize, base: *const u8, base_length: usize, buffer: *mut u8, room: usize, spans: *mut Span, span_room: usize, needed: *mut Sizes) -> u32;
    pub fn urlpattern_first_captures(list: *mut List, url: *const u8, length: usize, base: *const u8, base_length: usize, index: *mut usize, buffer: *mut u8, room: usize, spans: *mut Span, span_room: usize, needed: *mut Sizes) -> u32;
    pub fn urlpattern_captures_of_path(list: *mut List, index: usize, path: *const u8, length: usize, buffer: *mut u8, room: usize, spans: *mut Span, span_room: usize, needed: *mut Sizes) -> u32;
    pub fn urlpattern_first_captures_of_path(list: *mut List, path: *const u8, length: usize, index: *mut usize, buffer: *mut u8, room: usize, spans: *mut Span, span_room: usize, needed: *mut Sizes) -> u32;
    pub fn urlpattern_captures_of_texts(list: *mut List, index: usize, text: *const u8, length: usize, parts: *const Parts, buffer: *mut u8, room: usize, spans: *mut Span, span_room: usize, needed: *mut Sizes) -> u32;
    pub fn urlpattern_first_captures_of_texts(list: *mut List, text: *const u8, length: usize, parts: *const Parts, index: *mut usize, buffer: *mut u8, room: usize, spans: *mut Span, span_room: usize, needed: *mut Sizes) -> u32;
    pub fn urlpattern_captures_of_init(list: *mut List, index: usize, json: *const u8, length: usize, buffer: *mut u8, room: usize, spans: *mut Span, span_room: usize, needed: *mut Sizes) -> u32;
    pub fn urlpattern_first_captures_of_init(list: *mut List, json: *const u8, length: usize, index: *mut usize, buffer: *mut u8, room: usize, spans: *mut Span, span_room: usize, needed: *mut Sizes) -> u32;
    pub fn urlpattern_exec_of_init(list: *mut List, index: usize, json: *const u8, length: usize, buffer: *mut u8, room: usize, needed: *mut usize) -> u32;
    pub fn urlpattern_link(list: *mut List, index: usize, text: *const u8, length: usize, given: *const Given, count: usize, buffer: *mut u8, room: usize, needed: *mut usize) -> u32;
    pub fn urlpattern_generate(list: *mut List, index: usize, component: u32, text: *const u8, length: usize, given: *const Given, count: usize, buffer: *mut u8, room: usize, needed: *mut usize) -> u32;
    pub fn urlpattern_group_name(list: *mut List, index: usize, component: u32, group: usize, buffer: *mut u8, room: usize, needed: *mut usize) -> u32;
    pub fn urlpattern_component(list: *mut List, index: usize, component: u32, buffer: *mut u8, room: usize, needed: *mut usize) -> u32;
    pub fn urlpattern_text(list: *mut List, index: usize, buffer: *mut u8, room: usize, needed: *mut usize) -> u32;
    pub fn urlpattern_is_same_within(list: *mut List, index: usize, other: usize) -> u32;
    pub fn urlpattern_is_same_between(list: *mut List, index: usize, others: *mut List, other: usize) -> u32;
    pub fn urlpattern_has_regexp_groups(list: *mut List, index: usize) -> u32;
    pub fn urlpattern_has_meaning(list: *mut List, index: usize) -> u32;
    pub fn urlpattern_covers_within(list: *mut List, index: usize, asked: usize, component: *mut u32) -> u32;
    pub fn urlpattern_covers_between(list: *mut List, index: usize, others: *mut List, asked: usize, component: *mut u32) -> u32;
    pub fn urlpattern_covering_reason_within(list: *mut List, index: usize, asked: usize, reason: *mut u32) -> u32;
    pub fn urlpattern_covering_reason_between(list: *mut List, index: usize, others: *mut List, asked: usize, reason: *mut u32) -> u32;
    pub fn urlpattern_counterexample_within(list: *mut List, index: usize, asked: usize, buffer: *mut u8, room: usize, needed: *mut usize) -> u32;
    pub fn urlpattern_counterexample_between(list: *mut List, index: usize, others: *mut List, asked: usize, buffer: *mut u8, room: usize, needed: *mut usize) -> u32;
    pub fn urlpattern_overlaps_within(list: *mut List, index: usize, other: usize, buffer: *mut u8, room: usize, needed: *mut usize) -> u32;
    pub fn urlpattern_overlaps_between(list: *mut List, index: usize, others: *mut List, other: usize, buffer: *mut u8, room: usize, needed: *mut usize) -> u32;
    pub fn urlpattern_reach_of_each(list: *mut List, buffer: *mut u8, room: usize, needed: *mut usize) -> u32;
    pub fn urlpattern_diagnose(text: *const u8, length: usize, base: *const u8, base_length: usize, ignore_case: bool, buffer: *mut u8, room: usize, needed: *mut usize, place: *mut Place) -> u32;
    pub fn urlpattern_diagnose_init(json: *const u8, length: usize, ignore_case: bool, buffer: *mut u8, room: usize, needed: *mut usize, place: *mut Place) -> u32;
    pub fn urlpattern_router_insert(router: *mut Router, name: *const u8, name_length: usize, method: *const u8, method_length: usize, text: *const u8, length: usize, base: *const u8, base_length: usize, ignore_case: bool) -> u32;
    pub fn urlpattern_router_insert_init(router: *mut Router, name: *const u8, name_length: usize, method: *const u8, method_length: usize, json: *const u8, length: usize, ignore_case: bool) -> u32;
    pub fn urlpattern_router_free(router: *mut Router);
    pub fn urlpattern_router_share(router: *mut Router, other: *mut Router) -> u32;
    pub fn urlpattern_router_at(router: *mut Router, method: *const u8, method_length: usize, path: *const u8, length: usize, index: *mut usize, buffer: *mut u8, room: usize, spans: *mut Span, span_room: usize, needed: *mut Sizes) -> u32;
    pub fn urlpattern_router_at_url(router: *mut Router, method: *const u8, method_length: usize, url: *const u8, length: usize, base: *const u8, base_length: usize, index: *mut usize, buffer: *mut u8, room: usize, spans: *mut Span, span_room: usize, needed: *mut Sizes) -> u32;
    pub fn urlpattern_router_allowed(router: *mut Router, method: *const u8, method_length: usize, path: *const u8, length: usize, buffer: *mut u8, room: usize, needed: *mut usize) -> u32;
    pub fn urlpattern_router_allowed_at_url(router: *mut Router, method: *const u8, method_length: usize, url: *const u8, length: usize, base: *const u8, base_length: usize, buffer: *mut u8, room: usize, needed: *mut usize) -> u32;
    pub fn urlpattern_router_link(router: *mut Router, name: *const u8, name_length: usize, text: *const u8, length: usize, given: *const Given, count: usize, buffer: *mut u8, room: usize, needed: *mut usize) -> u32;
    pub fn urlpattern_router_group_name(router: *mut Router, index: usize, component: u32, group: usize, buffer: *mut u8, room: usize, needed: *mut usize) -> u32;
    pub fn urlpattern_policy_add(policy: *mut Policy, allows: bool, text: *const u8, length: usize, base: *const u8, base_length: usize, ignore_case: bool) -> u32;
    pub fn urlpattern_policy_add_init(policy: *mut Policy, allows: bool, json: *const u8, length: usize, ignore_case: bool) -> u32;
    pub fn urlpattern_policy_set_options(policy: *mut Policy, default_allows: bool, plain_spelling: bool, denies_credentials: bool) -> u32;
    pub fn urlpattern_policy_free(policy: *mut Policy);
    pub fn urlpattern_policy_share(policy: *mut Policy, other: *mut Policy) -> u32;
    pub fn urlpattern_policy_decide(policy: *mut Policy, url: *const u8, length: usize, base: *const u8, base_length: usize, rule: *mut usize) -> u32;
    pub fn urlpattern_static_routes_read(routes: *mut StaticRoutes, script: *const u8, script_length: usize, json: *const u8, length: usize, has_handler: bool) -> u32;
    pub fn urlpattern_static_routes_fault(routes: *mut StaticRoutes, index: usize, buffer: *mut u8, room: usize, needed: *mut usize, fault: *mut RouteFault) -> u32;
    pub fn urlpattern_static_routes_text_at_fault(routes: *mut StaticRoutes, index: usize, buffer: *mut u8, room: usize, needed: *mut usize) -> u32;
    pub fn urlpattern_static_routes_decide(routes: *mut StaticRoutes, url: *const u8, length: usize, method: *const u8, method_length: usize, mode: *const u8, mode_length: usize, destination: *const u8, destination_length: usize, is_running: bool, rule: *mut usize) -> u32;
    pub fn urlpattern_static_routes_source(routes: *mut StaticRoutes, index: usize, source: *mut u32, buffer: *mut u8, room: usize, needed: *mut usize) -> u32;
    pub fn urlpattern_static_routes_free(routes: *mut StaticRoutes);
}
