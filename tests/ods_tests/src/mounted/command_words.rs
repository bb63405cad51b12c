//! The words of the command line, and the texts of help and of wrong words.
use ods_cli::{Run, Words, WordsFault, parse_words, run_for};
use ods_request::Stamp;
use std::alloc::Global;
use std::process::Abort;
use std::test::Fail;

/// The stamp of new files where none is given.
const STAMP: &str = "01JAN80000000";

/// What `--version` prints after the name.
const VERSION: &str = "2.0.0 (12345678)";

/// What the words ask for that say nothing of limit, stamp, file and scripts.
fn asked<'a>(
    alloc: Global,
    image: Option<&'a str>,
    header: Option<u16>,
) -> Result<Words<'a>, Fail> {
    Ok(Words {
        image,
        header,
        limit: 4_096,
        stamp: Stamp::parse(STAMP.as_bytes()).ok_or("a stamp")?,
        out: None,
        scripts: Vec::new(alloc),
        is_bare: false,
    })
}

#[test]
fn words_that_are_right(rt: HostRuntime) -> Result<(), Fail> {
    for (words, image, header) in [
        (["a.dsk"].as_slice(), Some("a.dsk"), None),
        (["--header", "1"].as_slice(), None, Some(1)),
        (["--header=16"].as_slice(), None, Some(16)),
        (
            ["a.dsk", "--header", "4"].as_slice(),
            Some("a.dsk"),
            Some(4),
        ),
        (
            ["--header", "4", "a.dsk"].as_slice(),
            Some("a.dsk"),
            Some(4),
        ),
        (["--", "--header"].as_slice(), Some("--header"), None),
    ] {
        let found = parse_words(rt.alloc(), words, VERSION)
            .ok()
            .ok_or("wrong words")?;
        let wanted = asked(rt.alloc(), image, header)?;
        assert!(rt; found == wanted, "{words:?}");
    }
    Ok(())
}

#[test]
fn runs_that_words_ask_for(rt: HostRuntime) -> Result<(), Fail> {
    for (words, run) in [
        ([].as_slice(), Run::Input),
        (["--header", "16"].as_slice(), Run::SampleHeader(16)),
        (
            ["--header", "2", "a.dsk"].as_slice(),
            Run::ImageHeader("a.dsk", 2),
        ),
        (["a.dsk"].as_slice(), Run::Scripts),
        (["--limit", "1"].as_slice(), Run::Scripts),
    ] {
        let found = parse_words(rt.alloc(), words, VERSION)
            .ok()
            .ok_or("wrong words")?;
        assert!(rt; run_for(&found) == run, "{words:?}");
    }
    Ok(())
}

/// Words that name everything but a header.
const SERVED: [&str; 9] = [
    "a.dsk",
    "--limit",
    "65536",
    "--stamp",
    "31DEC99235959",
    "--out",
    "b.dsk",
    "one",
    "two",
];

#[test]
fn words_of_a_served_run(rt: HostRuntime) -> Result<(), Fail> {
    for words in [SERVED.as_slice()] {
        let found = parse_words(rt.alloc(), words, VERSION)
            .ok()
            .ok_or("wrong words")?;
        assert!(rt; found.image == Some("a.dsk") && found.out == Some("b.dsk"));
        assert!(rt; found.header.is_none() && found.limit == 65_536);
        assert!(rt; *found.stamp.text() == *b"31DEC99235959");
        assert!(rt; found.scripts.as_slice() == ["one", "two"].as_slice());
    }
    Ok(())
}

/// The line about words that are wrong.
fn wrong(alloc: Global, words: &[&str]) -> Result<String, Fail> {
    match parse_words(alloc, words, VERSION) {
        Err(WordsFault::Wrong(line)) => Ok(line),
        _ => Err("words that are not wrong".into()),
    }
}

#[test]
fn words_that_are_wrong(rt: HostRuntime) -> Result<(), Fail> {
    for (words, line) in [
        (
            ["--header", "0"].as_slice(),
            "error: invalid value '0' for '--header <N>': 0 is not in 1..=16",
        ),
        (
            ["--header", "17"].as_slice(),
            "error: invalid value '17' for '--header <N>': 17 is not in 1..=16",
        ),
        (
            ["--header", "x"].as_slice(),
            "error: invalid value 'x' for '--header <N>': invalid digit found in string",
        ),
        (
            ["--header"].as_slice(),
            "error: a value is required for '--header <N>' but none was supplied",
        ),
        (
            ["--header", "1", "--header", "2"].as_slice(),
            "error: the argument '--header <N>' cannot be used multiple times",
        ),
        (
            ["--nope"].as_slice(),
            "error: unexpected argument '--nope' found",
        ),
        (
            ["--limit", "0"].as_slice(),
            "error: invalid value '0' for '--limit <N>': 0 is not in 1..=65536",
        ),
        (
            ["--limit", "65537"].as_slice(),
            "error: invalid value '65537' for '--limit <N>': 65537 is not in 1..=65536",
        ),
        (
            ["--header", "1", "--out", "b.dsk"].as_slice(),
            "error: the argument '--header <N>' cannot be used with '--out <FILE>'",
        ),
    ] {
        assert!(rt; wrong(rt.alloc(), words)?.as_str() == line, "{line}");
    }
    Ok(())
}

/// A stamp that is none, a script beside a header, and nine scripts.
#[test]
fn runs_that_cannot_be(rt: HostRuntime) -> Result<(), Fail> {
    for words in [
        ["--stamp", "1JAN80000000"].as_slice(),
        ["--stamp", "01jan80000000"].as_slice(),
        ["a.dsk", "--header", "1", "one"].as_slice(),
        ["a", "1", "2", "3", "4", "5", "6", "7", "8", "9"].as_slice(),
    ] {
        assert!(rt; wrong(rt.alloc(), words)?.as_str().starts_with("error: "));
    }
    Ok(())
}

/// The help names each word, each command and each status.
const HELP: [&str; 21] = [
    "[IMAGE]",
    "--limit <N>",
    "--stamp <S>",
    "--out <FILE>",
    "--header <N>",
    "SCRIPT",
    "USER ",
    "CREATE ",
    "EXTEND ",
    "DELETE ",
    "ENTER ",
    "LOOK ",
    "REMOVE ",
    "READ ",
    "WRITE ",
    "LIST ",
    "STAT ",
    "SETUSER ",
    "VIEW ",
    "status",
    "standard input",
];

/// The help that these words ask for.
fn help(alloc: Global, words: &[&str]) -> Result<String, Fail> {
    match parse_words(alloc, words, VERSION) {
        Err(WordsFault::Help(text)) => Ok(text),
        _ => Err("words that ask for no help".into()),
    }
}

/// The text has each part.
fn has_all_parts(rt: &impl Abort, text: &str) {
    for part in HELP {
        assert!(rt; text.contains(part), "{part}");
    }
}

#[test]
fn help_names_all(rt: HostRuntime) -> Result<(), Fail> {
    for words in [
        ["--help"].as_slice(),
        ["-h"].as_slice(),
        ["a.dsk", "--help"].as_slice(),
    ] {
        has_all_parts(&rt, help(rt.alloc(), words)?.as_str());
    }
    Ok(())
}
