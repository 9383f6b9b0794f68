//! Links the library of niluppang. NILUPPANG_LIB_DIR is the folder that has libniluppang.a; without it, pkg-config says which.

use std::env;
use std::process::Command;

fn folder() -> String {
    if let Ok(folder) = env::var("NILUPPANG_LIB_DIR") {
        return folder;
    }
    let asked = Command::new("pkg-config")
        .args(["--variable=libdir", "niluppang"])
        .output();
    match asked {
        Ok(answer) if answer.status.success() => String::from_utf8_lossy(&answer.stdout).trim().to_string(),
        _ => panic!("set NILUPPANG_LIB_DIR to the folder of libniluppang.a, or install niluppang.pc for pkg-config"),
    }
}

fn main() {
    println!("cargo:rerun-if-env-changed=NILUPPANG_LIB_DIR");
    println!("cargo:rustc-link-search=native={}", folder());
    println!("cargo:rustc-link-lib=static=niluppang");
}
