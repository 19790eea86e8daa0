//! Fixes the places of the timed loops in memory, so that they do not move with the rest of the program.
//!
//! A short loop may run up to twice as fast at one place as at another. The copies of the search in
//! Rust start at multiples of 64 bytes, and each moves its own code on. The archive's sample starts
//! `CHULDARIIN_BENCH_SHIFT` bytes after one: 0 (the usual), 16, 32 or 48.
use std::env;
use std::fs;
use std::path::PathBuf;

fn main() {
    println!("cargo:rerun-if-env-changed=CHULDARIIN_BENCH_SHIFT");
    println!("cargo:rerun-if-changed=build.rs");
    if env::var("CARGO_CFG_TARGET_OS").as_deref() != Ok("linux") {
        return;
    }
    let out = PathBuf::from(env::var_os("OUT_DIR").expect("cargo sets OUT_DIR"));
    let script = out.join("places.ld");
    fs::write(&script, places(shift())).expect("OUT_DIR can be written");
    println!("cargo:rustc-link-arg-bins=-Wl,-T,{}", script.display());
}

fn shift() -> u32 {
    match env::var("CHULDARIIN_BENCH_SHIFT").as_deref() {
        Err(_) | Ok("0") => 0,
        Ok("16") => 16,
        Ok("32") => 32,
        Ok("48") => 48,
        Ok(other) => panic!("CHULDARIIN_BENCH_SHIFT is {other}, not 0, 16, 32 or 48"),
    }
}

/// A linker script that adds two sections after the usual one.
fn places(shift: u32) -> String {
    format!(
        "SECTIONS
{{
  .text.searches : SUBALIGN(64) {{ *(.text.*chuldariin_bench*window*same*) }}
  .text.archive : ALIGN(64) {{ . = . + {shift}; *(.text.chuldariin_sample) }}
}}
INSERT AFTER .text;
"
    )
}
