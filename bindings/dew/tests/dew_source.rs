//! Says that nothing is compared where dew's source is missing.

fn main() {
    if cfg!(not(dew)) {
        println!(
            "sovdringa_dew: dew's source is not beside the repository: nothing is compared with it"
        );
    }
}
