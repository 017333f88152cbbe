//! Compiles the shim over the C header and links the proved library; with the feature `before` an earlier build of it too.

use std::env;
use std::path::{Path, PathBuf};
use std::process::Command;

/// Names of the earlier build begin with this, here and in `src/proved.rs`.
const BEFORE: &str = "before_";

fn run(command: &mut Command) -> Vec<u8> {
    let output = command.output().unwrap_or_else(|error| panic!("{command:?}: {error}"));
    let said = String::from_utf8_lossy(&output.stderr);
    assert!(output.status.success(), "{command:?}: {}\n{said}", output.status);
    output.stdout
}

/// Lines `NAME PREFIX+NAME` for each symbol that the archives define for others.
fn renamed(archives: &[PathBuf], prefix: &str) -> String {
    let listed = run(Command::new("nm").args(["--extern-only", "--defined-only", "--format=posix"]).args(archives));
    let listed = String::from_utf8(listed).expect("symbols are text");
    let named = listed.lines().filter_map(|line| line.split_once(' ')).map(|(name, _)| name);
    named.map(|name| format!("{name} {prefix}{name}\n")).collect()
}

/// Links the library of a tree with the shim compiled for its header. Where two builds are compared, every name of theirs begins with
/// the prefix, and every function begins a cache line, so that functions which are the same stand alike.
fn link(out: &Path, tree: &Path, library: &Path, prefix: &str, compared: bool) {
    assert!(library.is_file(), "{} is not there: run `rt lib` in crates/weavemitten first", library.display());
    println!("cargo:rerun-if-changed={}", library.display());
    println!("cargo:rerun-if-changed={}", tree.join("include/weavemitten.h").display());
    let object = out.join(format!("{prefix}shim.o"));
    run(Command::new("cc")
        .args(["-std=c11", "-O2", "-Wall", "-Wextra", "-Werror", "-c", "shim.c", "-I"])
        .arg(tree.join("include"))
        .arg("-o")
        .arg(&object));
    let archives = ["shim", "weavemitten"].map(|name| out.join(format!("lib{prefix}{name}.a")));
    let _ = std::fs::remove_file(&archives[0]);
    run(Command::new("ar").arg("crs").arg(&archives[0]).arg(&object));
    std::fs::copy(library, &archives[1]).expect("the library can be copied");
    if compared {
        let names = out.join(format!("{prefix}names"));
        std::fs::write(&names, renamed(&archives, prefix)).expect("the names can be written");
        for archive in &archives {
            let words = ["--set-section-alignment", ".text*=64", "--redefine-syms"];
            run(Command::new("objcopy").args(words).arg(&names).arg(archive));
        }
    }
    println!("cargo:rustc-link-lib=static={prefix}shim");
    println!("cargo:rustc-link-lib=static={prefix}weavemitten");
}

fn main() {
    println!("cargo:rerun-if-env-changed=WEAVEMITTEN_STATICLIB");
    println!("cargo:rerun-if-env-changed=WEAVEMITTEN_BEFORE");
    println!("cargo:rerun-if-changed=shim.c");
    if env::var_os("CARGO_FEATURE_PROVED").is_none() {
        return;
    }
    let out = PathBuf::from(env::var_os("OUT_DIR").expect("cargo sets OUT_DIR"));
    println!("cargo:rustc-link-search=native={}", out.display());
    let built = "crates/weavemitten/out/libweavemitten.a";
    let compared = env::var_os("CARGO_FEATURE_BEFORE").is_some();
    let library = env::var_os("WEAVEMITTEN_STATICLIB").map_or(Path::new("..").join(built), PathBuf::from);
    link(&out, Path::new(".."), &library, "", compared);
    if compared {
        let tree = env::var_os("WEAVEMITTEN_BEFORE").expect("WEAVEMITTEN_BEFORE is the folder of an earlier tree");
        link(&out, Path::new(&tree), &Path::new(&tree).join(built), BEFORE, true);
    }
}
