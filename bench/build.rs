//! Links the static library `heap_bench`, which the command `libraries` here leaves in `target/libraries`, and the
//! toolchain's C part, through which it takes memory. `HEAP_BENCH` names another folder of the first, and `RATTLE_C`
//! that of the second.
//!
//! The files of C++ are compiled if there is a compiler: `c++`, or the one that `CXX` names. `CXXSTDLIB` names its
//! library if that isn't the usual one. `SHIFT` moves the program's code, as README.md says.

use std::env;
use std::path::Path;
use std::process::{exit, Command};

fn main() {
    let Some(toolchain) = said("RATTLE_C") else {
        fail("RATTLE_C has to name the folder with the toolchain's C part, see README.md");
    };
    let built = concat!(env!("CARGO_MANIFEST_DIR"), "/target/libraries");
    let library = said("HEAP_BENCH").unwrap_or_else(|| String::from(built));
    link(&library, "heap_bench");
    link(&toolchain, "libc_c");
    println!("cargo:rustc-check-cfg=cfg(has_cpp)");
    compile("src/rivals.cpp", "rivals.o", "dary_heap_bench");
    compile("src/bin/keyed/rivals.cpp", "keyed.o", "keyed");
    println!("cargo:rustc-check-cfg=cfg(is_shifted)");
    if said("SHIFT").is_some() {
        println!("cargo:rustc-cfg=is_shifted");
    }
}

/// What a variable of the environment says.
fn said(variable: &str) -> Option<String> {
    println!("cargo:rerun-if-env-changed={variable}");
    env::var(variable).ok().filter(|text| !text.is_empty())
}

/// Links the static library of this name in the folder.
fn link(folder: &str, name: &str) {
    let file = Path::new(folder).join(format!("lib{name}.a"));
    if !file.is_file() {
        fail(&format!("there is no {}, see README.md", file.display()));
    }
    println!("cargo:rerun-if-changed={}", file.display());
    println!("cargo:rustc-link-search=native={folder}");
    println!("cargo:rustc-link-lib=static={name}");
}

/// Compiles a file of C++, if there is a compiler, and has the linker of one program get it.
fn compile(file: &str, object: &str, program: &str) {
    println!("cargo:rerun-if-changed={file}");
    // Where the compiler looks for headers.
    println!("cargo:rerun-if-env-changed=CPATH");
    println!("cargo:rerun-if-env-changed=CPLUS_INCLUDE_PATH");
    let compiler = said("CXX").unwrap_or_else(|| String::from("c++"));
    let object = format!("{}/{object}", env::var("OUT_DIR").unwrap_or_default());
    let options = ["-std=c++17", "-O3", "-fPIC", "-Wall", "-Wextra", "-c", file];
    let mut command = Command::new(&compiler);
    // Fails if there is no such program.
    let Ok(status) = command.args(options).args(["-o", &object]).status() else {
        return;
    };
    if !status.success() {
        fail(&format!("{compiler} fails on {file}"));
    }
    println!("cargo:rustc-cfg=has_cpp");
    let is_of_apple = env::var("CARGO_CFG_TARGET_VENDOR").is_ok_and(|vendor| vendor == "apple");
    let usual = if is_of_apple { "c++" } else { "stdc++" };
    let library = said("CXXSTDLIB").unwrap_or_else(|| String::from(usual));
    // The library stands behind the object, which uses it.
    for argument in [object, format!("-l{library}")] {
        println!("cargo:rustc-link-arg-bin={program}={argument}");
    }
}

fn fail(why: &str) -> ! {
    eprintln!("{why}");
    exit(1);
}
