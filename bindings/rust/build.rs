//! Links the archive that `bindings/archive` writes.
//!
//! TIWELZAM_LIB names the folder that holds `libexports.a`. Where it is not given, the folder is
//! `target/staticlib` of the repository; if there is no archive yet and `rt` is there, it is made.
use std::env;
use std::path::{Path, PathBuf};
use std::process::Command;

const ARCHIVE: &str = "libexports.a";

fn main() {
    println!("cargo:rerun-if-env-changed=TIWELZAM_LIB");
    let target = env::var("TARGET").unwrap_or_default();
    if !target.starts_with("x86_64-") || !target.contains("linux") {
        fail(&format!("the archive is for x86-64 Linux, not for {target}"));
    }
    let folder = match env::var_os("TIWELZAM_LIB") {
        Some(folder) => given(PathBuf::from(folder)),
        None => own(),
    };
    println!("cargo:rerun-if-changed={}", folder.join(ARCHIVE).display());
    println!("cargo:rustc-link-search=native={}", folder.display());
    println!("cargo:rustc-link-lib=static=exports");
}

/// The folder that TIWELZAM_LIB names.
fn given(folder: PathBuf) -> PathBuf {
    if !folder.join(ARCHIVE).exists() {
        fail(&format!("TIWELZAM_LIB is {}, and there is no {ARCHIVE} in it", folder.display()));
    }
    folder
}

/// The repository's own folder; the archive is made where it is missing.
fn own() -> PathBuf {
    let here = PathBuf::from(env::var_os("CARGO_MANIFEST_DIR").expect("cargo says where the crate stands"));
    let repository = here.join("../..");
    let folder = repository.join("target/staticlib");
    if !folder.join(ARCHIVE).exists() {
        make(&repository);
    }
    folder
}

fn make(repository: &Path) {
    let made = Command::new(repository.join("bindings/archive")).output();
    match made {
        Ok(output) if output.status.success() => {}
        Ok(output) => fail(&format!(
            "bindings/archive failed:\n{}{}",
            String::from_utf8_lossy(&output.stdout),
            String::from_utf8_lossy(&output.stderr)
        )),
        Err(_) => fail(
            "there is no target/staticlib/libexports.a, and no bindings/archive to make it: let TIWELZAM_LIB name the \
             folder of the archive",
        ),
    }
}

fn fail(why: &str) -> ! {
    eprintln!("tiwelzam: {why}");
    std::process::exit(1)
}
