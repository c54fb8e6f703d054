//! Lays out the module tree `layout` in OUT_DIR: dbn's files as they stand, by links and `include!`, and ours where one is missing.
use std::{env, fs, io, path::Path, path::PathBuf};

/// Taken as they stand.
const PLAIN: [(&str, &str); 3] = [
    ("layout.rs", "mod.rs"),
    ("layout/compare.rs", "compare.rs"),
    ("layout/index.rs", "index.rs"),
];

/// Taken as they stand, with a child module of ours that sees their private items.
const PROBED: [&str; 3] = ["builders", "hash", "upgrade"];

/// Ours: missing in the sources, or no part of the comparison.
const OURS: [&str; 3] = ["pre_v4", "validate", "wire"];

fn here() -> PathBuf {
    PathBuf::from(env::var("CARGO_MANIFEST_DIR").unwrap())
}

fn sources() -> PathBuf {
    let given = env::var_os("OWL_RUST_SRC").map(PathBuf::from);
    given
        .unwrap_or_else(|| here().join("../../shared/docs/src"))
        .join("src")
}

fn link(to: &Path, from: &Path) -> io::Result<()> {
    println!("cargo:rerun-if-changed={}", to.display());
    std::os::unix::fs::symlink(to, from)
}

fn probed(text: &Path, probe: &Path) -> String {
    println!("cargo:rerun-if-changed={}", text.display());
    format!("include!({text:?});\n#[path = {probe:?}]\npub mod probe;\n")
}

fn lay_out(src: &Path, tree: &Path) -> io::Result<()> {
    let ours = here().join("src");
    for (from, to) in PLAIN {
        link(&src.join(from), &tree.join(to))?;
    }
    for name in PROBED {
        let file = format!("{name}.rs");
        fs::write(
            tree.join(&file),
            probed(
                &src.join("layout").join(&file),
                &ours.join("probe").join(&file),
            ),
        )?;
    }
    for name in OURS {
        let file = format!("{name}.rs");
        link(&ours.join("in_layout").join(&file), &tree.join(&file))?;
    }
    Ok(())
}

fn main() -> io::Result<()> {
    println!("cargo:rerun-if-env-changed=OWL_RUST_SRC");
    println!("cargo:rerun-if-changed=build.rs");
    let src = match fs::canonicalize(sources()) {
        Ok(found) if found.join("layout.rs").is_file() => found,
        _ => panic!("the Rust sources are not here: {}", sources().display()),
    };
    let out = PathBuf::from(env::var("OUT_DIR").unwrap());
    let tree = out.join("layout");
    let _ = fs::remove_dir_all(&tree);
    fs::create_dir_all(&tree)?;
    lay_out(&src, &tree)?;
    fs::write(
        out.join("tree.rs"),
        format!("#[path = {:?}]\npub mod layout;\n", tree.join("mod.rs")),
    )
}
