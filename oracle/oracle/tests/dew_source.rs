//! Not a test: the one line that says what was left out.

fn main() {
    if !cfg!(dew) {
        println!(
            "oracle: dew's source is not beside the repository: {} tests not run",
            env!("TESTS_THAT_NEED_DEW")
        );
    }
}
