//! Lines that are commands, and lines that are not.
use ods_script::{parse_line, parse_script};
use ods_share::{Action, Ask, Id};
use std::test::Fail;

/// Lines that are commands: each verb, and the forms of what stands behind it.
const COMMANDS: &[u8] = b"USER [20,1]
USER [001,004]
CREATE A.TXT;1 3
CREATE A.TXT 65536
CREATE A.TXT;0 4294967295
EXTEND $ 0
TRUNCATE $ 0
TRUNCATE 6,1 4294967295
DELETE 6,1
ENTER 4,4 A.TXT $
ENTER $ A.TXT;32767 65535,65535
LOOK 4,4 A.TXT;-1
REMOVE 4,4 A.TXT
READ $ 0
WRITE $ 1 41
WRITE $ 1 aBcD
LIST 4,4
STAT 1,0
SETUSER 6,1 0200
VIEW LOOK 4,4 A.TXT
VIEW READ $ 1
VIEW STAT 6,1";

/// Lines that are none, the first of which is empty.
const OTHERS: &[u8] = b"
\x20
USER
USER [400,1]
USER [0001,1]
USER [8,1]
USER [,1]
create a.txt 1
CREATE A.TXT;32768 1
CREATE A.TXT;-1 1
CREATE A.TXT;1 01
CREATE A.TXT;1 4294967296
CREATE A.TXT;1  1
CREATE A.TXT;1 1\x20
 CREATE A.TXT;1 1
CREATE A.TXT;1 1\r
ENTER 4,4 A.TXT;-1 4,4
DELETE 0,1
DELETE 65536,1
DELETE 1,65536
DELETE +1,1
DELETE $ $
WRITE 6,1 1 4
WRITE 6,1 1\x20
WRITE 6,1 1 4g
TRUNCATE 6,1
TRUNCATE 6,1 01
TRUNCATE 6,1 4294967296
TRUNCATE $ 1 1
VIEW TRUNCATE 6,1 1
VIEW LIST 4,4
VIEW VIEW STAT 6,1";

#[test]
fn lines_are_commands(rt: HostRuntime) -> Result<(), Fail> {
    for line in COMMANDS.split(|byte| *byte == b'\n') {
        let action = parse_line(rt.alloc(), line)?;
        assert!(rt; action != Action::Bad, "{line:?}");
    }
    Ok(())
}

#[test]
fn other_lines_are_none(rt: HostRuntime) -> Result<(), Fail> {
    for line in OTHERS.split(|byte| *byte == b'\n') {
        let action = parse_line(rt.alloc(), line)?;
        assert!(rt; action == Action::Bad, "{line:?}");
    }
    Ok(())
}

#[test]
fn a_script_has_its_lines_numbers(rt: HostRuntime) -> Result<(), Fail> {
    let script = parse_script(rt.alloc(), b"READ $ 1\n\nnothing\nDELETE 6,2")?;
    let commands = script.commands.as_slice();
    assert_eq!(rt; commands.len(), 3);
    assert_eq!(rt; commands[0].nth, 1);
    assert_eq!(rt; commands[1].nth, 3);
    assert_eq!(rt; commands[2].nth, 4);
    assert!(rt;
        matches!(
            &commands[0].action,
            Action::Submit(Ask::Read { vbn: 1, .. })
        )
    );
    assert!(rt; matches!(&commands[1].action, Action::Bad));
    match &commands[2].action {
        Action::Submit(
            Ask::Delete {
                file: Id::Given(file),
            },
        ) => {
            assert_eq!(rt; file.sequence, 2);
        }
        _ => assert!(rt; false),
    }
    Ok(())
}

#[test]
fn bytes_are_padded(rt: HostRuntime) -> Result<(), Fail> {
    match &parse_line(rt.alloc(), b"SETUSER 6,1 0280")? {
        Action::Submit(Ask::SetUser { attributes, .. }) => {
            assert_eq!(rt; attributes[0], 2);
            assert_eq!(rt; attributes[1], 128);
            assert_eq!(rt; attributes[31], 0);
        }
        _ => assert!(rt; false),
    }
    Ok(())
}
