//! Where the static library is: the folder that MOKIHAZUREO_LIB names, else where
//! `./moki bindings` builds it.

use std::env;
use std::path::Path;
use std::process::exit;

fn main() {
    let built = format!("{}/../../crates/mokihazureo/out", env!("CARGO_MANIFEST_DIR"));
    let folder = env::var("MOKIHAZUREO_LIB").unwrap_or(built);
    println!("cargo:rerun-if-env-changed=MOKIHAZUREO_LIB");
    println!("cargo:rerun-if-changed={folder}/libmokihazureo.a");
    if env::var("CARGO_CFG_TARGET_ARCH").as_deref() != Ok("x86_64") {
        stop("the library is x86-64 code: build with --target x86_64-unknown-linux-gnu");
    }
    if !Path::new(&folder).join("libmokihazureo.a").is_file() {
        stop(&format!("no libmokihazureo.a in {folder}: run ./moki bindings, or set MOKIHAZUREO_LIB to an absolute folder that has it"));
    }
    println!("cargo:rustc-link-search=native={folder}");
    println!("cargo:rustc-link-lib=static=mokihazureo");
}

fn stop(why: &str) {
    eprintln!("mokihazureo: {why}");
    exit(1);
}
