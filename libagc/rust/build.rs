//! Tells rustc where libagc.a is: where AGC_LIBRARY_DIR says, if it says anything, else in ../out, as
//! it is built or unpacked, or in ../../lib, as it is installed. Where there is none, or where this is
//! built for another target than its host, the one C99 file agc.c is compiled, as it lies here, in
//! ../out or in ../../share/agc, by what the environment's CC says, or cc.
use std::env;
use std::path::{Path, PathBuf};
use std::process::{Command, exit};

/// The path that a variable of the environment has.
fn path_in(name: &str) -> Option<PathBuf> {
    env::var_os(name).map(PathBuf::from)
}

/// The first of these folders that has a file.
fn folder_with(name: &str, folders: &[PathBuf]) -> Option<PathBuf> {
    folders.iter().find(|it| it.join(name).is_file()).cloned()
}

/// Runs a command, and says whether it succeeded.
fn runs(command: &mut Command) -> bool {
    command.status().is_ok_and(|it| it.success())
}

/// Compiles agc.c to libagc.a in this folder.
fn is_compiled(source: &Path, header: &Path, room: &Path) -> bool {
    let object = room.join("agc.o");
    let compiler = env::var("CC").unwrap_or_else(|_| "cc".to_string());
    let mut words = compiler.split_whitespace();
    let mut compile = Command::new(words.next().unwrap_or("cc"));
    compile
        .args(words)
        .args(["-std=c99", "-O2", "-fPIC", "-c", "-I"])
        .arg(header);
    let archiver = env::var("AR").unwrap_or_else(|_| "ar".to_string());
    runs(compile.arg(source).arg("-o").arg(&object))
        && runs(
            Command::new(archiver)
                .arg("rcs")
                .arg(room.join("libagc.a"))
                .arg(&object),
        )
}

fn main() {
    println!("cargo:rerun-if-env-changed=AGC_LIBRARY_DIR");
    println!("cargo:rerun-if-env-changed=CC");
    let here = path_in("CARGO_MANIFEST_DIR").unwrap_or_default();
    let near = |places: &[&str]| places.iter().map(|it| here.join(it)).collect::<Vec<_>>();
    let named = path_in("AGC_LIBRARY_DIR");
    let is_at_home = env::var("TARGET") == env::var("HOST");
    let places = match &named {
        Some(named) => vec![named.clone()],
        None if is_at_home => near(&["../out", "../../lib"]),
        None => Vec::new(),
    };
    if let Some(found) = folder_with("libagc.a", &places) {
        println!("cargo:rustc-link-search=native={}", found.display());
        return;
    }
    let source = folder_with("agc.c", &near(&[".", "../out"]));
    let header = folder_with("agc.h", &near(&[".", "../include", "../../include"]));
    if let (None, Some(source), Some(header), Some(room)) =
        (&named, source, header, path_in("OUT_DIR"))
    {
        println!("cargo:rerun-if-changed={}", source.join("agc.c").display());
        if is_compiled(&source.join("agc.c"), &header, &room) {
            println!("cargo:rustc-link-search=native={}", room.display());
            return;
        }
        eprintln!(
            "agc: {} was not compiled; CC may name a C compiler",
            source.join("agc.c").display()
        );
        exit(1);
    }
    eprintln!("agc: there is no libagc.a in {places:?}; AGC_LIBRARY_DIR may say where it is");
    exit(1);
}
