//! Links libinputflinger.a: from the folder that INPUTFLINGER_LIB_DIR names, or from where `make -C lib` put it, or from dist/ where that was built
//! from the sources of this tree.

use std::path::{Path, PathBuf};
use std::process::Command;

const NAME: &str = "libinputflinger.a";

/// Why the library of dist/ is not that of these sources.
fn against_dist(top: &Path) -> String {
    let script = r#"top=$1; . "$top/packaging/programs.sh"; against_dist_library"#;
    let ran = Command::new("sh")
        .args(["-c", script, "build.rs"])
        .arg(top)
        .output();
    match ran {
        Ok(ran) if ran.status.success() => String::from_utf8_lossy(&ran.stdout).trim().to_string(),
        _ => format!("there is no {NAME} in dist/"),
    }
}

fn folder() -> PathBuf {
    if let Some(folder) = std::env::var_os("INPUTFLINGER_LIB_DIR") {
        return PathBuf::from(folder);
    }
    let top = Path::new(env!("CARGO_MANIFEST_DIR")).join("../..");
    let made = top.join("lib/out");
    if made.join(NAME).exists() {
        return made;
    }
    let why = against_dist(&top);
    assert!(
        why.is_empty(),
        "there is no {NAME}: `make -C lib` makes it, or INPUTFLINGER_LIB_DIR names its folder ({why})"
    );
    top.join("dist")
}

fn main() {
    println!("cargo:rerun-if-env-changed=INPUTFLINGER_LIB_DIR");
    let folder = folder();
    println!("cargo:rustc-link-search=native={}", folder.display());
    println!("cargo:rustc-link-lib=static=inputflinger");
    println!("cargo:rerun-if-changed={}", folder.join(NAME).display());
}
