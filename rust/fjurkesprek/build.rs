//! Links the proved library, and has it built where it is missing.

use std::env;
use std::path::Path;
use std::process::Command;

fn main() {
    let here = env::var("CARGO_MANIFEST_DIR").expect("cargo says where the crate is");
    let root = Path::new(&here).join("../..");
    let folder = root.join("crates/lent/out");
    let library = folder.join("liblent.a");
    if !library.exists() {
        build(&root.join("crates/lent"));
    }
    println!("cargo:rustc-link-search=native={}", folder.display());
    println!("cargo:rustc-link-lib=static=lent");
    println!("cargo:rerun-if-changed={}", library.display());
}

fn build(lent: &Path) {
    let told = Command::new("rt")
        .args(["lib", "--cpu", "x86-64"])
        .current_dir(lent)
        .output();
    match told {
        Ok(output) if output.status.success() => {}
        Ok(output) => panic!(
            "rt lib failed in crates/lent:\n{}{}",
            String::from_utf8_lossy(&output.stdout),
            String::from_utf8_lossy(&output.stderr)
        ),
        Err(error) => panic!("the Rattle toolchain's rt cannot be run: {error}"),
    }
}
