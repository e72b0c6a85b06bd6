//! Links the proved core, a static library. The first of these is taken:
//!
//! - that of the folder TEXTAREA_LIB_DIR, if it is set;
//! - that of the release, in this repository's folder `release`;
//! - the one that `tools/c-archive` built in this repository, with the toolchain's own part.

use std::path::{Path, PathBuf};

/// The core with the toolchain's part, as in a release.
const WHOLE: &str = "textarea";
/// The core as `tools/c-archive` builds it, and the toolchain's part, which is linked after it.
const CORE: &str = "textarea_c";
const KIT: &str = "libc_c";

fn main() {
    println!("cargo:rerun-if-env-changed=TEXTAREA_LIB_DIR");
    println!("cargo:rerun-if-env-changed=RATTLE_C_DIR");
    match found() {
        Ok(archives) => archives.iter().for_each(|archive| link(archive)),
        Err(why) => println!("cargo::error={why}"),
    }
}

/// Returns the archives to link, each after those that need it, or why there are none.
fn found() -> Result<Vec<PathBuf>, String> {
    check_target()?;
    if let Some(folder) = folder_of("TEXTAREA_LIB_DIR") {
        return in_folder(&folder)?.ok_or_else(|| {
            let folder = folder.display();
            format!(
                "There is no lib{WHOLE}.a and no lib{CORE}.a in {folder}, which TEXTAREA_LIB_DIR names: \
                 set it to the whole path of a folder with one of them, or unset it."
            )
        });
    }
    let root = Path::new(env!("CARGO_MANIFEST_DIR")).join("../..");
    for folder in [root.join("release"), root.join("crates/textarea_c/out")] {
        if let Some(archives) = in_folder(&folder)? {
            return Ok(archives);
        }
    }
    Err(format!(
        "The text area's static library is missing: a clone has release/lib{WHOLE}.a. \
         Set TEXTAREA_LIB_DIR to the folder of another, or build one with the Rattle toolchain, \
         by `rt lib` in the repository's folder crates/textarea_c."
    ))
}

/// Returns why the library isn't for the machine that this build is for, if it isn't.
fn check_target() -> Result<(), String> {
    let is = |name: &str, value: &str| std::env::var(name).is_ok_and(|found| found == value);
    if is("CARGO_CFG_TARGET_ARCH", "x86_64") && is("CARGO_CFG_TARGET_OS", "linux") {
        return Ok(());
    }
    let target = std::env::var("TARGET").unwrap_or_default();
    Err(format!(
        "The text area's static library is for Linux on x86-64, and this build is for {target}."
    ))
}

/// Returns the archives of a folder, if it has the core.
fn in_folder(folder: &Path) -> Result<Option<Vec<PathBuf>>, String> {
    let file = |folder: &Path, name: &str| folder.join(format!("lib{name}.a"));
    let whole = file(folder, WHOLE);
    if whole.is_file() {
        return Ok(Some(vec![whole]));
    }
    let core = file(folder, CORE);
    if !core.is_file() {
        return Ok(None);
    }
    let kit = folder_of("RATTLE_C_DIR").unwrap_or(PathBuf::from("/opt/rattle/c"));
    let kit = file(&kit, KIT);
    if kit.is_file() {
        return Ok(Some(vec![core, kit]));
    }
    Err(format!(
        "There is no {}, which {} needs: set RATTLE_C_DIR to the folder `c` of the Rattle toolchain, \
         which lies beside the page that `rt doc` prints.",
        kit.display(),
        core.display()
    ))
}

/// Returns the folder that a variable names, if it is set.
fn folder_of(variable: &str) -> Option<PathBuf> {
    let folder = std::env::var_os(variable)?;
    (!folder.is_empty()).then(|| PathBuf::from(folder))
}

fn link(archive: &Path) {
    let folder = archive.parent().unwrap_or(Path::new("."));
    let name = archive.file_stem().unwrap_or_default().to_string_lossy();
    let name = name.strip_prefix("lib").unwrap_or(&name);
    println!("cargo:rerun-if-changed={}", archive.display());
    println!("cargo:rustc-link-search=native={}", folder.display());
    println!("cargo:rustc-link-lib=static={name}");
}
