//! What the program's arguments ask for.

use std::ffi::OsString;

use second::mode::Mode;

fn asked_for(arguments: &[&str]) -> Result<Mode, String> {
    let arguments: Vec<OsString> = arguments.iter().map(OsString::from).collect();
    Mode::asked_for(&arguments)
}

#[test]
fn each_mode_by_its_argument() {
    assert_eq!(asked_for(&[]), Ok(Mode::Listing));
    assert_eq!(asked_for(&["--room"]), Ok(Mode::Room));
    assert_eq!(asked_for(&["--counts"]), Ok(Mode::Counts));
    assert_eq!(asked_for(&["--places"]), Ok(Mode::Places));
    assert_eq!(asked_for(&["--serial"]), Ok(Mode::Serial));
    assert_eq!(asked_for(&["--cuts"]), Ok(Mode::Cuts));
    assert_eq!(asked_for(&["--setup"]), Ok(Mode::Setup));
    assert_eq!(asked_for(&["--pack"]), Ok(Mode::Pack));
    assert_eq!(asked_for(&["--help"]), Ok(Mode::Help));
}

#[test]
fn any_other_argument_is_named_in_the_message() {
    for unknown in [
        "",
        "--rooms",
        "--ROOM",
        "room",
        "-h",
        "batch.bin",
        "--count",
        "counts",
        "--place",
        "--line",
        "serial",
        "--cut",
        "--setups",
        "setup",
        "--unpack",
        "--Pack",
    ] {
        let message = asked_for(&[unknown]).expect_err("it is refused");
        assert!(message.starts_with(&format!("unknown argument `{unknown}` ")));
    }
    for arguments in [["--room", "--help"], ["--help", "--help"]] {
        let message = asked_for(&arguments).expect_err("it is refused");
        assert!(message.starts_with("superfluous argument `--help` "));
    }
    let message = asked_for(&["--rom", "--room"]).expect_err("it is refused");
    assert!(message.starts_with("unknown argument `--rom` "));
}
