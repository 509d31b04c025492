//! Compiles the C files with the C compiler that there is: CC, or cc. Nothing else is wanted.

use std::path::Path;
use std::process::Command;
use std::{env, fs};

fn run(command: &mut Command) {
    let status = command.status().unwrap_or_else(|error| panic!("{command:?}: {error}: a C compiler and ar are wanted; CC names another than cc"));
    assert!(status.success(), "{command:?}: {status}");
}

fn main() {
    let out = env::var("OUT_DIR").expect("cargo sets OUT_DIR");
    let compiler = env::var("CC").unwrap_or("cc".into());
    let mut files = vec!["mouktelf", "mouktelf_judge"];
    if env::var_os("CARGO_FEATURE_PLAY").is_some() {
        let is_there = Path::new("c/mouktelf_play.c").exists();
        assert!(is_there, "mouktelf-sys/c/mouktelf_play.c, the player, isn't in a clone: a release's packages/rust has it");
        files.push("mouktelf_play");
    }
    println!("cargo:rerun-if-changed=c");
    println!("cargo:rerun-if-env-changed=CC");
    let library = Path::new(&out).join("libmouktelf.a");
    let _ = fs::remove_file(&library);
    for name in files {
        let object = Path::new(&out).join(format!("{name}.o"));
        run(Command::new(&compiler).args(["-std=c11", "-O2", "-fPIC", "-c", "-o"]).arg(&object).arg(format!("c/{name}.c")));
        run(Command::new("ar").arg("rc").arg(&library).arg(&object));
    }
    println!("cargo:rustc-link-search=native={out}");
    println!("cargo:rustc-link-lib=static=mouktelf");
}
