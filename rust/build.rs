//! Finds the library for C: in the folder that CLAXON_LIB_DIR names, else where `make -C c` puts it, else beside this crate in
//! an archive, else by pkg-config. The static library is taken where there are both. Where there is the shared library alone, a
//! program has to find it when it runs: the tests and examples of this crate do, and for others a warning says how.
use std::env;
use std::path::{Path, PathBuf};
use std::process::{exit, Command};

const HELP: &str = "\
claxon: the library for C wasn't found. One of these helps:
  make -C c                        in the repository, of which this crate is the folder rust/
  an archive of claxon             whose folder rust/ is this crate, beside lib/
  CLAXON_LIB_DIR=FOLDER            the folder that has libclaxon.a or libclaxon.so
  PKG_CONFIG_PATH=PREFIX/lib/pkgconfig   where it was installed below PREFIX";

const STATIC: &str = "libclaxon.a";
const SHARED: &str = "libclaxon.so";
// The name by which a program that is linked with the shared library looks for it. c/Makefile has it too.
const AT_RUN_TIME: &str = "libclaxon.so.0.3";

fn main() {
    println!("cargo:rerun-if-env-changed=CLAXON_LIB_DIR");
    println!("cargo:rerun-if-env-changed=PKG_CONFIG_PATH");
    // Documentation is built without the library.
    if env::var_os("DOCS_RS").is_some() {
        return;
    }
    if !is_supported() {
        fail("claxon: the library for C is for Linux on x86-64 and 64-bit ARM");
    }
    match library_folder() {
        Some(folder) => link(&folder),
        None => fail(HELP),
    }
}

fn fail(reason: &str) -> ! {
    eprintln!("{reason}");
    exit(1);
}

fn target(name: &str) -> String {
    env::var(format!("CARGO_CFG_TARGET_{name}")).unwrap_or_default()
}

fn is_supported() -> bool {
    target("OS") == "linux" && ["x86_64", "aarch64"].contains(&target("ARCH").as_str())
}

fn library_folder() -> Option<PathBuf> {
    if let Some(named) = env::var_os("CLAXON_LIB_DIR") {
        let folder = PathBuf::from(named);
        if !has_library(&folder) {
            fail(&format!("claxon: CLAXON_LIB_DIR is {}, which has no libclaxon", folder.display()));
        }
        return Some(folder);
    }
    // Cargo sets it for each build script.
    let crate_folder = env::var_os("CARGO_MANIFEST_DIR")?;
    let built = if target("ARCH") == "aarch64" { "../c/out/aarch64" } else { "../c/out" };
    let folders = [built, "../lib"].map(|folder| Path::new(&crate_folder).join(folder));
    folders.into_iter().find(|folder| has_library(folder)).or_else(installed)
}

fn has_library(folder: &Path) -> bool {
    folder.join(STATIC).exists() || folder.join(SHARED).exists()
}

// What pkg-config says of the library.
fn pkg_config(option: &str) -> Option<String> {
    let output = Command::new("pkg-config").args([option, "claxon"]).output().ok()?;
    let text = String::from_utf8(output.stdout).ok()?.trim().to_string();
    Some(text).filter(|_| output.status.success())
}

// A library of another interface is refused here. Others are asked for their version when a program runs.
fn installed() -> Option<PathBuf> {
    let folder = PathBuf::from(pkg_config("--variable=libdir")?);
    if !has_library(&folder) {
        return None;
    }
    let version = pkg_config("--modversion")?;
    let interface = AT_RUN_TIME.trim_start_matches("libclaxon.so.");
    if !version.starts_with(&format!("{interface}.")) {
        fail(&format!(
            "claxon: pkg-config finds version {version} of the library for C in {}, and this crate is for version \
             {interface}: CLAXON_LIB_DIR=FOLDER names another one",
            folder.display()
        ));
    }
    Some(folder)
}

fn link(folder: &Path) {
    let (name, kind) = if folder.join(STATIC).exists() { (STATIC, "static") } else { (SHARED, "dylib") };
    println!("cargo:rerun-if-changed={}", folder.join(name).display());
    println!("cargo:rustc-link-search=native={}", folder.display());
    println!("cargo:rustc-link-lib={kind}=claxon");
    if kind == "dylib" {
        let folder = folder.canonicalize().unwrap_or_else(|_| folder.to_path_buf());
        println!("cargo:rustc-link-arg=-Wl,-rpath,{}", folder.display());
        println!("cargo:warning={}", at_run_time(&folder));
    }
}

fn at_run_time(folder: &Path) -> String {
    let folder = folder.display();
    format!(
        "there is no {STATIC} in {folder}: a program that uses claxon has to find {AT_RUN_TIME} when it runs, as with \
         LD_LIBRARY_PATH={folder}, after ldconfig, or built with RUSTFLAGS=-Clink-arg=-Wl,-rpath,{folder}"
    )
}
