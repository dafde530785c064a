// Links the library's archive, whose folder VOXDAG_LIB names, and the header's own functions, which the system's C
// compiler makes of ../calls.c. `cfg(voxdag = "NAME")` is set for each function that the header has.
use std::path::Path;
use std::process::Command;
use std::{env, fs};

fn main() {
    for name in ["VOXDAG_LIB", "CC"] {
        println!("cargo:rerun-if-env-changed={name}");
    }
    let here = env::var("CARGO_MANIFEST_DIR").unwrap();
    let out = env::var("OUT_DIR").unwrap();
    let include = Path::new(&here).join("../../include");
    let header = include.join("voxdag.h");
    let calls = Path::new(&here).join("../calls.c");
    for file in [&header, &calls] {
        println!("cargo:rerun-if-changed={}", file.display());
    }
    let text = fs::read_to_string(&header).expect("include/voxdag.h");
    for rest in text.split("static inline voxdag_status voxdag_").skip(1) {
        println!("cargo:rustc-cfg=voxdag=\"{}\"", rest.split('(').next().unwrap());
    }
    let object = Path::new(&out).join("calls.o");
    let archive = Path::new(&out).join("libvoxdag_calls.a");
    let compiler = env::var("CC").unwrap_or_else(|_| "cc".into());
    done(Command::new(compiler).args(["-O2", "-fPIC", "-c", "-I"]).arg(&include).arg("-o").arg(&object).arg(&calls));
    done(Command::new("ar").arg("crs").arg(&archive).arg(&object));
    let folder = env::var("VOXDAG_LIB").expect("VOXDAG_LIB: the folder of libvoxdag.a");
    println!("cargo:rerun-if-changed={folder}/libvoxdag.a");
    println!("cargo:rustc-link-search=native={out}");
    println!("cargo:rustc-link-search=native={folder}");
    println!("cargo:rustc-link-lib=static=voxdag_calls");
    println!("cargo:rustc-link-lib=static=voxdag");
}

fn done(command: &mut Command) {
    let status = command.status().unwrap_or_else(|error| panic!("{command:?}: {error}"));
    assert!(status.success(), "{command:?}: {status}");
}
