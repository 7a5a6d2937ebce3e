//! Without the library the other tests are empty; this one fails then.

#[test]
fn the_library_is_there() {
    let there = cfg!(library);
    assert!(
        there,
        "target/staticlib/liborigins_c.a is missing: `tools/build.sh origins_c` builds it"
    );
}
