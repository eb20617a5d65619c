//! Links the engine's archive, target/staticlib/libexports.a at the top of the repository, if a feature asks for it; and
//! beside it, for the benchmarks, an older one that RECIPE_OLD_ARCHIVE names, its functions renamed.

use std::path::{Path, PathBuf};
use std::process::Command;

/// Names an archive of the landing before: an absolute path, or one from the top of the repository.
const OLD: &str = "RECIPE_OLD_ARCHIVE";

fn main() {
    println!("cargo:rerun-if-changed=build.rs");
    println!("cargo:rerun-if-env-changed={OLD}");
    println!("cargo:rustc-check-cfg=cfg(old_archive)");
    if !feature("CHECK") {
        return;
    }
    let top = Path::new(env!("CARGO_MANIFEST_DIR")).join("../..");
    link(&top.join("target/staticlib"), "exports");
    if let Some(old) = std::env::var_os(OLD).filter(|path| feature("RUN") && !path.is_empty()) {
        let folder = PathBuf::from(std::env::var_os("OUT_DIR").expect("cargo names OUT_DIR"));
        rename(&top.join(old), &folder.join("libold_exports.a"));
        link(&folder, "old_exports");
        println!("cargo:rustc-cfg=old_archive");
    }
}

fn feature(name: &str) -> bool {
    std::env::var_os(format!("CARGO_FEATURE_{name}")).is_some()
}

fn link(folder: &Path, name: &str) {
    println!("cargo:rustc-link-search=native={}", folder.display());
    println!("cargo:rustc-link-lib=static={name}");
    println!("cargo:rerun-if-changed={}", folder.join(format!("lib{name}.a")).display());
}

/// Writes an archive anew with `old_` before the name of each function that it exports: two archives with the same names
/// cannot be linked into one program. All its other names are local already.
fn rename(old: &Path, renamed: &Path) {
    println!("cargo:rerun-if-changed={}", old.display());
    assert!(old.is_file(), "{OLD}: there is no file {}", old.display());
    let listed = done(Command::new("nm").args(["--extern-only", "--defined-only", "--format=posix"]).arg(old));
    let lines = listed.lines().filter(|line| !line.ends_with(':'));
    let names = lines.filter_map(|line| line.split_whitespace().next());
    let renames = names.map(|name| format!("--redefine-sym={name}=old_{name}"));
    done(Command::new("objcopy").args(renames).arg(old).arg(renamed));
}

/// What a command of the binutils prints.
fn done(command: &mut Command) -> String {
    let output = command.output().unwrap_or_else(|error| panic!("{OLD} needs nm and objcopy: {command:?}: {error}"));
    assert!(output.status.success(), "{command:?}: {}", String::from_utf8_lossy(&output.stderr));
    String::from_utf8_lossy(&output.stdout).into_owned()
}
