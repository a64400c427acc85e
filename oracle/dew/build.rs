//! Finds dew's published source beside the repository. Three files are compiled
//! where they lie; of others, single functions are cut out of the text, since
//! the rest of those files needs the whole of dew. Nothing is copied by hand.
//! How dew lays out and writes its code is dew's: rustfmt follows no `include!`,
//! so it never reads these files, and clippy is told to say nothing of them.

use std::env;
use std::fs;
use std::path::{Path, PathBuf};

/// From this crate: out of `dew`, `oracle` and the repository.
const BESIDE_THE_REPOSITORY: &str = "../../../shared/docs/src/src";

/// Another place for the same files.
const OTHER_PLACE: &str = "DEW_SOURCE";

const WHOLE: [&str; 3] = ["stats", "display_list", "compositor"];

/// File, first words of the function, name of the piece.
const PIECES: [(&str, &str, &str); 3] = [
    ("runtime", "fn diff_dirty(", "diff_dirty"),
    ("lib", "pub fn render_frame(", "render_frame"),
    ("compositor", "fn row_of(", "row_of"),
];

fn main() {
    println!("cargo::rustc-check-cfg=cfg(dew)");
    println!("cargo::rerun-if-changed=build.rs");
    println!("cargo::rerun-if-env-changed={OTHER_PLACE}");
    let source = env::var_os(OTHER_PLACE).map_or_else(
        || Path::new(&variable("CARGO_MANIFEST_DIR")).join(BESIDE_THE_REPOSITORY),
        PathBuf::from,
    );
    // A path that does not exist makes cargo look again at the next build.
    println!("cargo::rerun-if-changed={}", source.display());
    let Ok(source) = source.canonicalize() else {
        return;
    };
    let out = PathBuf::from(variable("OUT_DIR"));
    let mut modules = String::new();
    for name in WHOLE {
        let file = source.join(format!("{name}.rs"));
        assert!(
            file.is_file(),
            "dew's {name}.rs is missing in {}",
            source.display()
        );
        modules +=
            &format!("#[allow(dead_code, clippy::all)]\n#[path = {file:?}]\npub mod {name};\n");
    }
    write(&out.join("modules.rs"), &modules);
    for (file, start, piece) in PIECES {
        let file = source.join(format!("{file}.rs"));
        println!("cargo::rerun-if-changed={}", file.display());
        let text = fs::read_to_string(&file)
            .unwrap_or_else(|error| panic!("cannot read {}: {error}", file.display()));
        let function = cut(&text, start, piece);
        write(
            &out.join(format!("{piece}.rs")),
            &format!("#[allow(clippy::all)]\n{function}\n"),
        );
    }
    println!("cargo::rustc-cfg=dew");
    println!("cargo::metadata=present=1");
}

/// A function's text: from its first words at the start of a line to the first
/// closing brace at the start of a line.
fn cut<'text>(text: &'text str, start: &str, piece: &str) -> &'text str {
    let opening = format!("\n{start}");
    let mut found = text.match_indices(&opening);
    let (from, _) = found
        .next()
        .unwrap_or_else(|| panic!("dew's {piece} was not found by its text"));
    assert!(found.next().is_none(), "dew's {piece} was found twice");
    let body = &text[from + 1..];
    let end = body
        .find("\n}")
        .unwrap_or_else(|| panic!("the end of dew's {piece} was not found"));
    &body[..end + 2]
}

fn write(path: &Path, text: &str) {
    fs::write(path, text)
        .unwrap_or_else(|error| panic!("cannot write {}: {error}", path.display()));
}

fn variable(name: &str) -> String {
    env::var(name).unwrap_or_else(|error| panic!("{name}: {error}"))
}
