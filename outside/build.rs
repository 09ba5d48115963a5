// Links the proved libraries, which bin/collect takes from where rt builds them, and Algorithm H in C, which is compiled here.
use std::path::Path;
use std::process::Command;

/// The calls for C and Rust, and the rank in two passes.
const PROVED: [&str; 2] = ["capi", "two_pass"];
const ALGORITHM_H: &str = "src/plain/algorithm_h.c";

fn main() {
    let libraries = concat!(env!("CARGO_MANIFEST_DIR"), "/../target/staticlib");
    for name in PROVED {
        link(name, libraries);
        println!("cargo:rerun-if-changed={libraries}/lib{name}.a");
    }
    algorithm_h(&std::env::var("OUT_DIR").expect("cargo names a directory for output"));
    println!("cargo:rerun-if-changed={ALGORITHM_H}");
}

fn link(name: &str, directory: &str) {
    println!("cargo:rustc-link-search=native={directory}");
    println!("cargo:rustc-link-lib=static={name}");
}

/// By cc, and by clang too where it is there; else cc makes both, so that both names can be linked.
fn algorithm_h(directory: &str) {
    let by_cc = object("cc", "cc", directory).expect("cc compiles Algorithm H");
    let by_clang = object("clang", "clang", directory)
        .or_else(|| object("cc", "clang", directory))
        .expect("cc compiles Algorithm H");
    let archive = format!("{directory}/libalgorithm_h.a");
    // What an earlier build put in would stay.
    let _ = std::fs::remove_file(&archive);
    assert!(
        run(Command::new("ar").args(["rcs", &archive, &by_cc, &by_clang])),
        "ar makes an archive"
    );
    link("algorithm_h", directory);
}

/// The object file, if the compiler is there and makes it. The names of its functions end in `_` and `ending`.
fn object(compiler: &str, ending: &str, directory: &str) -> Option<String> {
    let object = Path::new(directory)
        .join(format!("algorithm_h_{ending}.o"))
        .display()
        .to_string();
    let name = format!("-DNAME(form)=form##_{ending}");
    let made = run(Command::new(compiler).args(["-O3", "-fPIC", "-Wall", "-Wextra", "-c", &name, ALGORITHM_H, "-o", &object]));
    made.then_some(object)
}

fn run(command: &mut Command) -> bool {
    command.status().is_ok_and(|status| status.success())
}
