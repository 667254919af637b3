//! Links the archive of crates/msi, libmsi.a: in the folder that STRANDROOST_LIB names, or else where `rt lib` in crates/msi or
//! where `desk/build archive` put it.
use std::env::{var, var_os};
use std::path::{Path, PathBuf};
use std::process::ExitCode;

const MADE: [&str; 2] = ["crates/msi/out", "desk/out"];

/// The folder that has the archive, or a sentence that says what to do.
fn found() -> Result<PathBuf, String> {
    let target = ["ARCH", "OS", "POINTER_WIDTH"].map(|part| var(format!("CARGO_CFG_TARGET_{part}")).unwrap_or_default());
    if target != ["x86_64", "linux", "64"] {
        let asked = var("TARGET").unwrap_or_default();
        return Err(format!("the archive is for x86-64 Linux, not for {asked}: build with --target x86_64-unknown-linux-gnu"));
    }
    let has_archive = |folder: &PathBuf| folder.join("libmsi.a").is_file();
    if let Some(named) = var_os("STRANDROOST_LIB").map(PathBuf::from) {
        // Cargo runs this script in one folder and the compiler in another.
        if named.is_relative() {
            return Err(format!("STRANDROOST_LIB names '{}', and must be a whole path, from / on", named.display()));
        }
        let missing = format!("STRANDROOST_LIB names '{}', and there is no libmsi.a in it", named.display());
        return Some(named).filter(has_archive).ok_or(missing);
    }
    let here = var("CARGO_MANIFEST_DIR").unwrap_or_default();
    let home = Path::new(&here).join("..");
    let folders = MADE.map(|folder| home.join(folder)).into_iter();
    let missing = format!("there is no archive (libmsi.a) in {}", MADE.join(" or "));
    let to_do = "run 'rt lib' in crates/msi, beside this package, or name the archive's folder by STRANDROOST_LIB";
    // A folder that comes earlier is watched too, so that an archive that is made there later is taken.
    let watched = |folder: &PathBuf| println!("cargo:rerun-if-changed={}", folder.join("libmsi.a").display());
    folders.inspect(watched).find(has_archive).ok_or(format!("{missing}: {to_do}"))
}

fn main() -> ExitCode {
    println!("cargo:rerun-if-env-changed=STRANDROOST_LIB");
    println!("cargo:rerun-if-changed=build.rs");
    match found() {
        Ok(folder) => {
            println!("cargo:rustc-link-search=native={}", folder.display());
            println!("cargo:rerun-if-changed={}", folder.join("libmsi.a").display());
            ExitCode::SUCCESS
        }
        Err(sentence) => {
            eprintln!("strandroost: {sentence}");
            ExitCode::FAILURE
        }
    }
}
