//! Links the proved archive, libchuldariin.a, which `./archive` writes to target/staticlib/ at the top of the repository.
//! `CHULDARIIN_LIB` names another folder.
use std::env;
use std::path::PathBuf;

fn main() {
    let here =
        PathBuf::from(env::var_os("CARGO_MANIFEST_DIR").expect("cargo sets CARGO_MANIFEST_DIR"));
    let folder = match env::var_os("CHULDARIIN_LIB") {
        Some(folder) => PathBuf::from(folder),
        None => here.join("../../target/staticlib"),
    };
    let target = (
        env::var("CARGO_CFG_TARGET_ARCH"),
        env::var("CARGO_CFG_TARGET_OS"),
    );
    println!("cargo:rerun-if-env-changed=CHULDARIIN_LIB");
    let archive = match folder.join("libchuldariin.a").canonicalize() {
        Ok(archive) => archive,
        Err(_) => fail(&format!(
            "{} is missing: run `./archive` at the top of the repository, or set CHULDARIIN_LIB to the absolute path of the folder that has libchuldariin.a",
            folder.join("libchuldariin.a").display()
        )),
    };
    if target != (Ok("x86_64".to_string()), Ok("linux".to_string())) {
        fail("libchuldariin.a is for x86-64 Linux alone");
    }
    println!("cargo:rerun-if-changed={}", archive.display());
    println!(
        "cargo:rustc-link-search=native={}",
        archive.parent().expect("a file has a folder").display()
    );
    println!("cargo:rustc-link-lib=static=chuldariin");
}

fn fail(why: &str) -> ! {
    eprintln!("{why}");
    std::process::exit(1);
}
