//! Names of components, and errors that are compared.

use crate::given::expect_same;
use std::test::Fail;
use urlpattern_components::ComponentName;
use urlpattern_syntax::Error;

#[test]
fn a_component_prints_as_its_name_and_is_read_from_it(rt: HostRuntime) -> Result<(), Fail> {
    for component in ComponentName::all() {
        let name = component.to_string(rt.alloc())?;
        assert_eq!(rt; ComponentName::from_name(&name), Some(component));
    }
    for name in ["", "Pathname", "path", "host", "href"] {
        expect_same(&rt, ComponentName::from_name(name), None, name);
    }
    Ok(())
}

#[test]
fn components_are_ordered_as_the_standard_lists_them(rt: HostRuntime) {
    assert!(rt; ComponentName::Protocol < ComponentName::Username);
    assert!(rt; ComponentName::Port < ComponentName::Pathname);
    assert!(rt; ComponentName::Search < ComponentName::Hash);
}

#[test]
fn errors_are_compared(rt: HostRuntime) {
    assert!(rt; Error::BaseUrlRequired == Error::BaseUrlRequired);
    assert!(rt; Error::BaseUrlRequired != Error::BaseUrlWithInit);
}
