// Links libcapi.a, which `tools/build capi` wrote ($FM1_LIB, or the project's own target/staticlib), and holds the record's layout against it before anything is built on it: layout_check.rs asks the
// library where every field lies. Where a program for the target cannot be run here, cargo's own runner for the target is asked; without one the crate's tests check it.
use std::env::var;
use std::process::Command;

fn main() {
    let here = var("CARGO_MANIFEST_DIR").unwrap();
    let dir = var("FM1_LIB").unwrap_or_else(|_| format!("{here}/../../target/staticlib"));
    let target = var("TARGET").unwrap();
    println!("cargo:rustc-link-search=native={dir}");
    println!("cargo:rustc-link-lib=static=capi");
    println!("cargo:rerun-if-env-changed=FM1_LIB");
    for file in [format!("{dir}/libcapi.a"), "build.rs".into(), "layout_check.rs".into(), "src".into()] {
        println!("cargo:rerun-if-changed={file}");
    }
    let runner = var(format!("CARGO_TARGET_{}_RUNNER", target.to_uppercase().replace('-', "_"))).ok();
    if var("HOST").unwrap() != target && runner.is_none() {
        println!("cargo:warning=the record's layout is not checked: a program for {target} cannot be run here");
        return;
    }
    let check = format!("{}/layout_check", var("OUT_DIR").unwrap());
    let mut rustc = Command::new(var("RUSTC").unwrap());
    rustc.args(["--edition", "2021", "--target", &target, "-A", "dead_code", "-L", &format!("native={dir}"), "-l", "static=capi", "-o", &check]);
    if let Ok(linker) = var("RUSTC_LINKER") {
        rustc.args(["-C", &format!("linker={linker}")]);
    }
    assert!(rustc.arg(format!("{here}/layout_check.rs")).status().unwrap().success(), "layout_check.rs cannot be built on {dir}/libcapi.a");
    let words = runner.unwrap_or_default();
    let mut words = words.split_whitespace().chain([check.as_str()]);
    let run = Command::new(words.next().unwrap()).args(words).output().unwrap();
    assert!(run.status.success(), "{}", String::from_utf8_lossy(&run.stderr));
}
