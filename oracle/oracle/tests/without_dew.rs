//! What is left where dew's source is not beside the repository.

#![cfg(not(dew))]

use std::process::Command;

#[test]
fn commands_that_ask_dew_say_that_it_is_missing() {
    let output = Command::new(env!("CARGO_BIN_EXE_oracle"))
        .arg("plan")
        .output()
        .expect("the oracle runs");
    assert_eq!(output.status.code(), Some(2));
    assert_eq!(output.stdout, b"");
    assert_eq!(
        String::from_utf8_lossy(&output.stderr),
        "oracle: dew's source is not beside the repository\n"
    );
}
