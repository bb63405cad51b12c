//! Paths that stay inside of a folder, and those that do not.
use ods_archive::is_inside;

#[test]
fn paths_that_leave_are_told(rt: HostRuntime) {
    for path in [
        b"a".as_slice(),
        b"a/b",
        b"a/",
        b"./a",
        b"a//b",
        b"...",
        b"..a",
        b"a..",
        b"a/..b/c",
        b".",
    ] {
        assert!(rt; is_inside(path));
    }
    for path in [
        b"".as_slice(),
        b"/",
        b"/a",
        b"..",
        b"../a",
        b"a/..",
        b"a/../b",
        b"a/../../b",
        b"//",
    ] {
        assert!(rt; !is_inside(path));
    }
}
