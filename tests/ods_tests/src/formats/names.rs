//! Texts of names, read and printed.
use ods_base::{Coded, Name, Pick, parse_name, print_name, print_words};
use std::process::Abort;
use std::test::Fail;

#[test]
fn texts_spell_names(rt: HostRuntime) -> Result<(), Fail> {
    let table = [
        (b"A.TXT;1".as_slice(), [1600, 0, 0], 32980, Pick::Exact(1)),
        (b"A.TXT;32767", [1600, 0, 0], 32980, Pick::Exact(32767)),
        (b"A.TXT;-1", [1600, 0, 0], 32980, Pick::Lowest),
        (b"A.TXT;0", [1600, 0, 0], 32980, Pick::Highest),
        (b"A.TXT", [1600, 0, 0], 32980, Pick::Highest),
        (b".", [0, 0, 0], 0, Pick::Highest),
        (b"000000.DIR;1", [49230, 49230, 0], 6778, Pick::Exact(1)),
        (b"INDEXF.SYS;1", [14964, 8966, 0], 31419, Pick::Exact(1)),
        (b"__A.;1", [1, 0, 0], 0, Pick::Exact(1)),
        (
            b"999999999.999",
            [63999, 63999, 63999],
            63999,
            Pick::Highest,
        ),
    ];
    for (text, words, ext, pick) in table {
        let (name, picked) = parse_name(text)?;
        assert!(rt; name.words() == words, "{text:?}");
        assert!(rt; name.ext() == ext, "{text:?}");
        assert!(rt; picked == pick, "{text:?}");
    }
    Ok(())
}

/// Texts that are no names, one behind another; the first is empty.
const NO_NAMES: &str = "|A|A;1|A_.TXT|A.TX_|ABCDEFGHIJ.TXT|A.TXTX|a.TXT|A B.TXT|A..";

/// Texts with a name, and a version that is none.
const NO_VERSIONS: &str =
    "A.TXT;|A.TXT;01|A.TXT;00|A.TXT;-0|A.TXT;-2|A.TXT;+1|A.TXT;1;1|A.TXT;32768|A.TXT;65537";

/// None of these is a name.
fn are_no_names(rt: &impl Abort, texts: &str) {
    for text in texts.split('|') {
        let fault = parse_name(text.as_bytes()).expect_err(rt, "a text that is no name");
        assert!(rt; fault.code() == 3 && fault.name() == "BadName", "{text}");
    }
}

#[test]
fn other_texts_are_no_names(rt: HostRuntime) {
    are_no_names(&rt, NO_NAMES);
    are_no_names(&rt, NO_VERSIONS);
}

#[test]
fn words_are_printed(rt: HostRuntime) {
    let table = [
        ([1600, 0, 0], 32980, 1, "A.TXT;1"),
        ([0, 0, 0], 0, 0, ".;0"),
        ([49230, 49230, 0], 6778, 1, "000000.DIR;1"),
        ([63999, 63999, 63999], 63999, 65535, "999999999.999;65535"),
        ([64000, 0, 0], 65535, 1, "???.???;1"),
        ([1, 0, 1600], 27 * 1600 + 28 * 40 + 29, 12, "__A___A.$&%;12"),
    ];
    for (words, ext, version, text) in table {
        let printed = print_words(words, ext, version);
        assert!(rt; printed.as_str() == text, "{text}");
    }
}

#[test]
fn a_name_is_printed_as_it_was_read(rt: HostRuntime) -> Result<(), Fail> {
    let (name, _) = parse_name(b"A.TXT;1")?;
    assert!(rt; name == Name::new([1600, 0, 0], 32980));
    assert!(rt; print_name(&name, 1).as_str() == "A.TXT;1");
    Ok(())
}
