//! The programs, as a user meets them.

mod common;

use common::*;
use std::io::Write;
use std::process::{Command, Output, Stdio};

fn run(program: &str, arguments: &[&str], input: impl AsRef<[u8]>) -> Output {
    let mut child = Command::new(program)
        .args(arguments)
        .stdin(Stdio::piped())
        .stdout(Stdio::piped())
        .stderr(Stdio::piped())
        .spawn()
        .unwrap();
    // A program that ends early has closed its input; that is no failure here.
    let _ = child.stdin.take().unwrap().write_all(input.as_ref());
    child.wait_with_output().unwrap()
}

fn verdicts(input: &str) -> Output {
    run(env!("CARGO_BIN_EXE_verdicts"), &[], input)
}

fn line(message: &[u8]) -> String {
    message.iter().map(|octet| format!("{octet:02x}")).collect::<String>() + "\n"
}

#[test]
fn selftest_passes() {
    let output = run(env!("CARGO_BIN_EXE_selftest"), &["12", "500"], "");
    assert_eq!(output.status.code(), Some(0));
    let text = String::from_utf8(output.stdout).unwrap();
    assert!(text.starts_with("seed 12,"), "{text}");
    let last = text.lines().last().unwrap();
    assert!(last.ends_with(" passed, 0 failed") && !last.starts_with('0'), "{last}");
}

#[test]
fn selftest_refuses_bad_arguments() {
    for arguments in [&["x"][..], &["1", "many"], &["1", "0"], &["1", "2", "3"], &["-1"]] {
        let output = run(env!("CARGO_BIN_EXE_selftest"), arguments, "");
        assert_eq!(output.status.code(), Some(2), "{arguments:?}");
        assert!(output.stdout.is_empty());
        assert!(String::from_utf8(output.stderr).unwrap().contains("usage"));
    }
}

#[test]
fn verdicts_of_messages() {
    let mut other_type = deletion(1, &[]);
    other_type[1] = 55;
    let mut long = modification(1, &[ie(40000, &[0; 2000])]);
    long.extend([0; 100]);
    let input = [
        line(&establishment(1, &[create_pdr(3, &[choose_id(7), endpoint_id(4)]), fq_csid(5, 1)])),
        line(&restoration(
            2,
            &[group(
                127,
                &[endpoint_id(9), ie(21, &given_v4(4096)), ie(93, &[0x86, 10, 0, 0, 1, 9])],
            )],
        )),
        line(&establishment(
            1,
            &[create_pdr(3, &[choose_address()]), create_pdr(4, &[ie(93, &[0x12 | 8])])],
        )),
        line(&modification(
            3,
            &[
                update_pdr(1, &[ie(108, &[]), group(2, &[])]),
                update_pdr(2, &[precedence(7), far(8)]),
                remove_pdr(3),
                remove_endpoint(4),
                ie(129, &[]),
                ie(65, &[0, 0, 0, 0, 0, 2]),
            ],
        )),
        line(&modification(3, &[ie(65, &[])])),
        line(&deletion(4, &[ie(65, &hex("22 3F F7 10 05 00 09 00 0A 05"))])),
        line(&set_deletion(&[ie(65, &hex("22 3F F7 10 05 00 09 00 0A 05")), fq_csid(5, 1)])),
        line(&set_deletion(&[ie(60, &[0]), ie(65, &[0, 0, 0, 0, 0, 1])])),
        line(&establishment(1, &[])),
        line(&modification(3, &[vec![0, 1]])),
        line(&other_type),
        line(&[0x21]),
        line(&long),
        "\n".to_string(),
    ]
    .concat();
    let output = verdicts(&input);
    assert_eq!(output.status.code(), Some(0));
    let text = String::from_utf8(output.stdout).unwrap();
    let lines: Vec<&str> = text.lines().collect();
    assert_eq!(
        lines,
        [
            "read establishment header=0000000000000000 sequence=1 seid=0000000000000001 v4=0A000001 v6=- restoration=0 | create-pdr id=3 precedence=1 source=0 f-teid=choose:4:7 endpoint=4 address=- far=- | fq-csid node=0:C000020A csids=5 node-type=1",
            "read establishment header=0000000000000000 sequence=1 seid=0000000000000002 v4=0A000001 v6=- restoration=1 | create-endpoint id=9 f-teid=given:4096:C0000201:- address=0A000001",
            "read establishment header=0000000000000000 sequence=1 seid=0000000000000001 v4=0A000001 v6=- restoration=0 | create-pdr id=3 precedence=1 source=0 f-teid=- endpoint=- address=choose far=- | create-pdr id=4 precedence=1 source=0 f-teid=- endpoint=- address=other far=-",
            "read modification header=0000000000000003 sequence=1 | update-pdr id=1 precedence=- far=none pdi=1 | update-pdr id=2 precedence=7 far=8 pdi=0 | remove-pdr id=3 | remove-endpoint id=4 | update-endpoint | fq-csid-removal node-type=2",
            "read modification header=0000000000000003 sequence=1 | fq-csid-removal-all",
            "read deletion header=0000000000000004 sequence=1",
            "read set-deletion sequence=1 | fq-csid node=2:262001:5 csids=9,10 node-type=5 | fq-csid node=0:C000020A csids=5 node-type=1",
            "cause 69 type 65 place 13",
            "cause 66 type 1 place 0",
            "cause 68 type 0 place 0",
            "outcome 5",
            "outcome 4",
            "outcome 3",
            "outcome 4",
        ]
    );
}

#[test]
fn verdicts_refuse_what_is_not_hexadecimal() {
    for (input, said) in [("2137\nxyz\n", "line 2"), ("213\n", "odd number")] {
        let output = verdicts(input);
        assert_eq!(output.status.code(), Some(2));
        assert!(String::from_utf8(output.stderr).unwrap().contains(said));
    }
    assert_eq!(run(env!("CARGO_BIN_EXE_verdicts"), &["x"], "").status.code(), Some(2));
}

/// The proved program `exchanges` is held to the file `stdout`: it has to be this program's output.
#[test]
fn exchanges_of_the_worked_examples() {
    let folder = concat!(env!("CARGO_MANIFEST_DIR"), "/../crates/exchanges");
    let input = std::fs::read(format!("{folder}/stdin")).unwrap();
    let expected = std::fs::read_to_string(format!("{folder}/stdout")).unwrap();
    let output = run(env!("CARGO_BIN_EXE_exchanges"), &[], input);
    assert_eq!(output.status.code(), Some(0));
    assert_eq!(String::from_utf8(output.stdout).unwrap(), expected);
    assert!(expected.lines().count() >= 231);
}

/// The tables of a run, by name: session limit, length and options.
fn tables_of(limit: &[&str]) -> Vec<(String, u16, usize, String)> {
    let folder =
        std::env::temp_dir().join(format!("tables-{}-{}", std::process::id(), limit.len()));
    std::fs::create_dir_all(&folder).unwrap();
    let arguments = [&[folder.to_str().unwrap(), "1", "12"], limit].concat();
    let output = run(env!("CARGO_BIN_EXE_tables"), &arguments, "");
    assert_eq!(output.status.code(), Some(0));
    let mut all = Vec::new();
    for line in String::from_utf8(output.stdout).unwrap().lines() {
        let name = line.split(' ').next().unwrap().to_string();
        let table = std::fs::read(folder.join(format!("{name}.table"))).unwrap();
        let options = std::fs::read_to_string(folder.join(format!("{name}.options"))).unwrap();
        let limit = u16::from_be_bytes([table[37], table[38]]);
        all.push((name, limit, table.len(), options));
    }
    std::fs::remove_dir_all(&folder).unwrap();
    all
}

#[test]
fn tables_of_the_limit_that_was_asked_for() {
    for (wanted, named) in [(&[][..], 64), (&["256"], 256)] {
        let all = tables_of(wanted);
        assert_eq!(all.len(), 7 + 12);
        for (name, limit, length, options) in &all {
            assert_eq!(*length, 65 + 604 * usize::from(*limit), "{name}");
            assert!(options.ends_with(&format!(" --sessions {limit}\n")), "{name}");
            let is_random = wanted.is_empty() && name.starts_with("random");
            assert!(if is_random { *limit <= 64 } else { *limit == named }, "{name}");
        }
        let some_are_small = all.iter().any(|(_, limit, _, _)| *limit < 64);
        assert_eq!(some_are_small, wanted.is_empty());
    }
}

#[test]
fn tables_refuses_bad_arguments() {
    let counts = [&[][..], &["."], &[".", "1"], &[".", "1", "1", "1", "1"]];
    let words = [&[".", "x", "1"][..], &[".", "1", "x"], &[".", "1", "1", "x"]];
    let limits = [&[".", "1", "1", "1"][..], &[".", "1", "1", "257"], &[".", "1", "1", "65538"]];
    for arguments in counts.into_iter().chain(words).chain(limits) {
        let output = run(env!("CARGO_BIN_EXE_tables"), arguments, "");
        assert_eq!(output.status.code(), Some(2), "{arguments:?}");
        assert!(output.stdout.is_empty() && !output.stderr.is_empty(), "{arguments:?}");
    }
    let output = run(env!("CARGO_BIN_EXE_tables"), &["/nonexistent", "1", "1"], "");
    assert_eq!(output.status.code(), Some(1));
}
