//! Paths and patterns: what texts say, what patterns match, the order of a listing, and which versions are picked.
use ods_paths::{
    BadPath, Files, Folder, Path, Shown, Step, Steps, Versions, choose_span, compare, has_wildcard,
    is_pattern, matches, no_steps, parse_path, read_step,
};
use std::cmp::Ordering;
use std::process::Abort;

/// Whether the step is that of the row: a group and a member, or a pattern.
fn is_step(step: Step<'_>, row: &[u8]) -> bool {
    match step {
        Step::Numbers {
            group: Some(1),
            member: Some(2),
        } => row == b"1,2".as_slice(),
        Step::Numbers {
            group: Some(1),
            member: None,
        } => row == b"1,*".as_slice(),
        Step::Numbers {
            group: None,
            member: None,
        } => row == b"*,*".as_slice(),
        Step::Numbers {
            group: Some(255),
            member: Some(0),
        } => row == b"377,0".as_slice(),
        Step::Numbers { .. } => false,
        Step::Pattern(pattern) => pattern == row,
    }
}

/// Whether the steps are those of the row, with a space behind each; and whether the last one comes from behind too.
fn are_steps(steps: Steps<'_>, row: &[u8]) -> bool {
    let mut rest = steps;
    let mut left = row;
    let mut last = row;
    while let Some((step, behind)) = rest.split_first() {
        let end = left.iter().position(|c| *c == b' ').unwrap_or(left.len());
        if !is_step(step, &left[..end]) {
            return false;
        }
        last = &left[..end];
        left = &left[(end + 1).min(left.len())..];
        rest = behind;
    }
    match steps.split_last() {
        Some((_, step)) => left.is_empty() && is_step(step, last),
        None => row.is_empty(),
    }
}

fn is_folder(folder: Folder<'_>, steps: &[u8], below: bool) -> bool {
    are_steps(folder.steps, steps) && folder.below == below
}

fn are_files(files: Files<'_>, name: &[u8], kind: &[u8], versions: Option<Versions>) -> bool {
    files.name == name && files.kind == kind && files.versions == versions
}

/// A path with files: its text, its steps, whether all below belong to them, the name, the type, and the versions.
type Row = (
    &'static [u8],
    &'static [u8],
    bool,
    &'static [u8],
    &'static [u8],
    Option<Versions>,
);

#[test]
fn texts_say_directories_and_files(rt: HostRuntime) {
    let rows: [Row; 41] = [
        (
            b"[1,2]NOTES.TXT;3",
            b"1,2",
            false,
            b"NOTES",
            b"TXT",
            Some(Versions::Exact(3)),
        ),
        (b"1,2/NOTES.TXT", b"1,2", false, b"NOTES", b"TXT", None),
        (b"[001,002]A.B", b"1,2", false, b"A", b"B", None),
        (b"[377,0]A.B", b"377,0", false, b"A", b"B", None),
        (
            b"[A.B]C.D;0",
            b"A B",
            false,
            b"C",
            b"D",
            Some(Versions::Highest),
        ),
        (
            b"a/b/c.d;-1",
            b"a b",
            false,
            b"c",
            b"d",
            Some(Versions::Lowest),
        ),
        (
            b"[000000]A.B;*",
            b"",
            false,
            b"A",
            b"B",
            Some(Versions::Every),
        ),
        (b"[0,0]A.B", b"", false, b"A", b"B", None),
        (b"000000/A.B", b"", false, b"A", b"B", None),
        (b"0,0/A.B", b"", false, b"A", b"B", None),
        (b"A.B:7", b"", false, b"A", b"B", Some(Versions::Exact(7))),
        (
            b"A.B;32767",
            b"",
            false,
            b"A",
            b"B",
            Some(Versions::Exact(32_767)),
        ),
        (b"/X.Y", b"", false, b"X", b"Y", None),
        (b"/A/X.Y", b"A", false, b"X", b"Y", None),
        (b"X.", b"", false, b"X", b"", None),
        (b".X", b"", false, b"", b"X", None),
        (b"*.*;*", b"", false, b"*", b"*", Some(Versions::Every)),
        (b"*", b"", false, b"*", b"*", None),
        (b"*NOTES*", b"", false, b"*NOTES*", b"*", None),
        (b"A?;2", b"", false, b"A?", b"*", Some(Versions::Exact(2))),
        (b"*;2", b"", false, b"*", b"*", Some(Versions::Exact(2))),
        (b"[A]*", b"A", false, b"*", b"*", None),
        (b"A/*", b"A", false, b"*", b"*", None),
        (b"[1,*]*.?", b"1,*", false, b"*", b"?", None),
        (b"[*,*]A.", b"*,*", false, b"A", b"", None),
        (b"*,*/A.B", b"*,*", false, b"A", b"B", None),
        (b"[*]A.B", b"*", false, b"A", b"B", None),
        (b"[A*]A.B", b"A*", false, b"A", b"B", None),
        (b"[...]A.B", b"", true, b"A", b"B", None),
        (b"[A...]A.B", b"A", true, b"A", b"B", None),
        (b".../A.B", b"", true, b"A", b"B", None),
        (b"1,2.../A.B", b"1,2", true, b"A", b"B", None),
        (
            b"[A.B...]*A*B*C*.TXT",
            b"A B",
            true,
            b"*A*B*C*",
            b"TXT",
            None,
        ),
        (b"1,2/SUB/A.B", b"1,2 SUB", false, b"A", b"B", None),
        (b"A/1,2/X.TXT", b"A 1,2", false, b"X", b"TXT", None),
        (b"[000000.A]B.C", b"000000 A", false, b"B", b"C", None),
        (b"DK0:A.B", b"", false, b"A", b"B", None),
        (
            b"db:[1,2]A.B;1",
            b"1,2",
            false,
            b"A",
            b"B",
            Some(Versions::Exact(1)),
        ),
        (b"DK377:/A/B.C", b"A", false, b"B", b"C", None),
        (
            b"DK:1,2/A.B:3",
            b"1,2",
            false,
            b"A",
            b"B",
            Some(Versions::Exact(3)),
        ),
        (b"DK0:*", b"", false, b"*", b"*", None),
    ];
    for (text, steps, below, name, kind, versions) in rows {
        match parse_path(text) {
            Ok(Path::Within(folder, Some(files))) => {
                assert!(rt; is_folder(folder, steps, below), "{text:?}");
                assert!(rt; are_files(files, name, kind, versions), "{text:?}");
            }
            _ => assert!(rt; false, "{text:?}"),
        }
    }
}

#[test]
fn texts_say_directories_alone(rt: HostRuntime) {
    let rows: [(&[u8], &[u8], bool); 39] = [
        (b"[1,2]", b"1,2", false),
        (b"A/", b"A", false),
        (b"/", b"", false),
        (b"[A.B]", b"A B", false),
        (b"A/B/", b"A B", false),
        (b"[...]", b"", true),
        (b"[0,0...]", b"", true),
        (b".../", b"", true),
        (b"[A...]", b"A", true),
        (b"A.../", b"A", true),
        (b"[*]", b"*", false),
        (b"[A*]", b"A*", false),
        (b"[1,*]", b"1,*", false),
        (b"[000000]", b"", false),
        (b"000000", b"", false),
        (b"000000/", b"", false),
        (b"0,0", b"", false),
        (b"00,000/", b"", false),
        (b"FORT", b"FORT", false),
        (b"/FORT", b"FORT", false),
        (b"A/FORT", b"A FORT", false),
        (b"/A/B/", b"A B", false),
        (b"1,2", b"1,2", false),
        (b"1,*", b"1,*", false),
        (b"*,*", b"*,*", false),
        (b"1,2/SUB", b"1,2 SUB", false),
        (b"[1,2]SUB", b"1,2 SUB", false),
        (b"[A.B]C", b"A B C", false),
        (b"[0,0]SUB", b"SUB", false),
        (b"A/1,2", b"A 1,2", false),
        (b"[A]1,2", b"A 1,2", false),
        (b"A*/", b"A*", false),
        (b"DK0:", b"", false),
        (b"DB:", b"", false),
        (b"DK0:/", b"", false),
        (b"dk12:FORT", b"FORT", false),
        (b"DK377:[1,2]", b"1,2", false),
        (b"DK0:1,2", b"1,2", false),
        (b"AB:1", b"1", false),
    ];
    for (text, steps, below) in rows {
        match parse_path(text) {
            Ok(Path::Within(folder, None)) => {
                assert!(rt; is_folder(folder, steps, below), "{text:?}");
            }
            _ => assert!(rt; false, "{text:?}"),
        }
    }
}

#[test]
fn texts_say_ids(rt: HostRuntime) {
    let rows: [(&[u8], u16, u16); 6] = [
        (b"#6,1", 6, 1),
        (b"@6,1", 6, 1),
        (b"DK0:#6,1", 6, 1),
        (b"db:@6,1", 6, 1),
        (b"#65535,65535", 65_535, 65_535),
        (b"#1,0", 1, 0),
    ];
    for (text, number, sequence) in rows {
        match parse_path(text) {
            Ok(Path::File(file)) => {
                assert!(rt;
                    file.number == number && file.sequence == sequence,
                    "{text:?}"
                );
            }
            _ => assert!(rt; false, "{text:?}"),
        }
    }
}

/// Each text is bad in this part.
fn are_bad(rt: &impl Abort, texts: &str, why: BadPath) {
    for text in texts.split('|') {
        match parse_path(text.as_bytes()) {
            Ok(_) => assert!(rt; false, "{text}"),
            Err(bad) => assert!(rt; bad == why, "{text}"),
        }
    }
}

#[test]
fn other_texts_are_bad(rt: HostRuntime) {
    are_bad(&rt, "", BadPath::Empty);
    are_bad(
        &rt,
        "#|#6|#6,|#0,1|#65536,1|#6,65536|@06,1|#6,1,1|#6,1;1|DK0:#6",
        BadPath::Id,
    );
    are_bad(&rt, "[|[1,2|[]|[]A.B|[]A|DK0:[", BadPath::Bracket);
    are_bad(
        &rt,
        "[1,2.A]|[A.1,2]|[400,1]A.B|[1,8]A.B|[0001,2]A.B|[1,]A.B|[A..B]C.D|[.A]B.C|[A.]B.C|A//B.C|000000//B.C|//X|//X.Y|//|[A.B/C]D.E|A.B/C.D|[ABCDEFGHIJ]A.B|[A...B]C.D",
        BadPath::Directory,
    );
    are_bad(
        &rt,
        "ABCDEFGHIJ|A_|A B|8,9|1,2,3|1,2A|A,B|*,|[...]FORT|[A...]FORT|.../FORT|A/.../B.C|[A]B/C|[A]B/|[1,2]8,9",
        BadPath::Directory,
    );
    are_bad(
        &rt,
        "ABCDEFGHIJ.TXT|A_.TXT|A B.TXT|[A]B/C.D|[1,2]]A.B|ABCDEFGHIJ;1|1,2;1|A,B.C",
        BadPath::Name,
    );
    are_bad(&rt, "A.TXTX|A.TX_|A.B.C|A...", BadPath::Type);
    are_bad(
        &rt,
        "FORT;1|FORT;x|FORT:1|[A]FORT;*|;1|:1|DK0:DK1:A.B|DK8:A.B|DK0000:A.B|D:A.B|DKA:A.B",
        BadPath::NoDot,
    );
    are_bad(
        &rt,
        "A.B;|A.B;01|A.B;-2|A.B;32768|A.B;1;1|A.B:|A.B;**|A.B;+1|*;x",
        BadPath::Version,
    );
}

#[test]
fn steps_are_read(rt: HostRuntime) {
    assert!(rt; no_steps().split_first().is_none());
    assert!(rt; no_steps().split_last().is_none());
    assert!(rt; is_step(read_step(b"001,2"), b"1,2"));
    assert!(rt; is_step(read_step(b"1,8"), b"1,8"));
}

#[test]
fn patterns_match_names(rt: HostRuntime) {
    let rows: [(&[u8], &[u8], bool); 20] = [
        (b"", b"", true),
        (b"", b"A", false),
        (b"*", b"", true),
        (b"*", b"ABCDEFGHI", true),
        (b"?", b"", false),
        (b"?", b"A", true),
        (b"?", b"AB", false),
        (b"a*", b"ABC", true),
        (b"A*", b"BA", false),
        (b"*A", b"BA", true),
        (b"*A*A*", b"BAB", false),
        (b"*A*A*", b"BABAB", true),
        (b"A?C", b"ABC", true),
        (b"A?C", b"AC", false),
        (b"A*?", b"A", false),
        (b"A*?", b"AB", true),
        (b"*AB*ABC", b"AABABABC", true),
        (b"*********A", b"AAAAAAAAA", true),
        (b"*A*A*A*A*A*A*A*A*A*A", b"AAAAAAAAA", false),
        (b"NOTES", b"NOTE", false),
    ];
    for (pattern, name, answer) in rows {
        assert!(rt; name.len() <= 9);
        assert!(rt; matches(pattern, name) == answer, "{pattern:?} {name:?}");
    }
    assert!(rt; is_pattern(9, b"*A*B*C*D*E*F*G*H*I*"));
    assert!(rt; !is_pattern(9, b"ABCDEFGHI?"));
    assert!(rt; has_wildcard(b"A?") && has_wildcard(b"*") && !has_wildcard(b"A.B"));
}

#[test]
fn a_listing_has_an_order(rt: HostRuntime) {
    let rows: [(&[u8], &[u8], u16); 7] = [
        (b"", b"Z", 1),
        (b"A", b"TXT", 1),
        (b"A$", b"A", 1),
        (b"A1", b"", 2),
        (b"A1", b"", 1),
        (b"AA", b"A", 1),
        (b"AA", b"B", 9),
    ];
    for (i, (name, kind, version)) in rows.iter().enumerate() {
        for (k, (other, sort, number)) in rows.iter().enumerate() {
            let a = Shown {
                name,
                kind,
                version: *version,
            };
            let b = Shown {
                name: other,
                kind: sort,
                version: *number,
            };
            let right = if i < k {
                Ordering::Less
            } else if i == k {
                Ordering::Equal
            } else {
                Ordering::Greater
            };
            assert!(rt; compare(&a, &b) == right, "{i} {k}");
        }
    }
}

#[test]
fn versions_are_picked(rt: HostRuntime) {
    let versions = [3, 1, 7, 5];
    let rows = [
        (Versions::Exact(5), [false, false, false, true]),
        (Versions::Exact(4), [false, false, false, false]),
        (Versions::Highest, [false, false, true, false]),
        (Versions::Lowest, [false, true, false, false]),
        (Versions::Every, [true, true, true, true]),
    ];
    for (choice, answers) in rows {
        let span = choose_span(choice, &versions);
        for (version, answer) in versions.iter().zip(answers) {
            assert!(rt; span.has(*version) == answer, "{choice:?} {version}");
        }
    }
}
