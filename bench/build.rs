//! Compiles lemon.cc and sets the cfg `lemon` where LEMON's headers are found.

use std::env;
use std::io::Write;
use std::path::{Path, PathBuf};
use std::process::{Command, Stdio};

fn main() {
    println!("cargo:rustc-check-cfg=cfg(lemon)");
    println!("cargo:rerun-if-changed=build.rs");
    println!("cargo:rerun-if-changed=lemon.cc");
    println!("cargo:rerun-if-env-changed=CXX");
    let folder = PathBuf::from(env::var_os("OUT_DIR").expect("cargo sets OUT_DIR"));
    let compiler = env::var("CXX").unwrap_or_else(|_| "g++".to_string());
    if has_lemon(&compiler) {
        compile(&compiler, &folder);
        println!("cargo:rustc-cfg=lemon");
    } else {
        // A file that is never there: the next build looks for LEMON again.
        let never = folder.join("never");
        println!("cargo:rerun-if-changed={}", never.to_string_lossy());
    }
}

/// Whether the compiler finds the header.
fn has_lemon(compiler: &str) -> bool {
    let child = Command::new(compiler)
        .args(["-E", "-x", "c++", "-"])
        .stdin(Stdio::piped())
        .stdout(Stdio::null())
        .stderr(Stdio::null())
        .spawn();
    let Ok(mut child) = child else {
        return false;
    };
    let mut input = child.stdin.take().expect("standard input is a pipe");
    let written = input.write_all(b"#include <lemon/network_simplex.h>\n");
    drop(input);
    let ended = child.wait();
    written.is_ok() && ended.is_ok_and(|status| status.success())
}

fn compile(compiler: &str, folder: &Path) {
    let object = folder.join("lemon.o");
    let archive = folder.join("libbenchlemon.a");
    let mut command = Command::new(compiler);
    command.args(["-O3", "-DNDEBUG", "-c", "lemon.cc", "-o"]);
    run(command.arg(&object));
    run(Command::new("ar").arg("crs").arg(&archive).arg(&object));
    println!(
        "cargo:rustc-link-search=native={}",
        folder.to_string_lossy()
    );
    println!("cargo:rustc-link-lib=static=benchlemon");
    println!("cargo:rustc-link-lib=stdc++");
}

fn run(command: &mut Command) {
    let status = command.status().expect("the command is installed");
    assert!(status.success(), "{command:?} failed: {status}");
}
