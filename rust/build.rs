//! Links the proved library, `libcmwq_c.a`: the one in the folder that the variable `CMWQ_LIB` names, if that is set,
//! or `lib/libcmwq_c.a` of this package, a copy of the one in `dist/x86_64-linux-gnu` of the repository (`tools/dist`
//! writes both).
use std::{env, path::PathBuf, process::exit};

fn main() {
    let home = PathBuf::from(env::var_os("CARGO_MANIFEST_DIR").expect("cargo sets it"));
    let given = env::var_os("CMWQ_LIB").filter(|folder| !folder.is_empty());
    let folder = given.map_or(home.join("lib"), PathBuf::from);
    println!("cargo:rerun-if-env-changed=CMWQ_LIB");
    println!("cargo:rerun-if-changed={}", folder.join("libcmwq_c.a").display());
    if !folder.join("libcmwq_c.a").is_file() {
        eprintln!("error: cmwq: there is no libcmwq_c.a in {}", folder.display());
        exit(1);
    }
    println!("cargo:rustc-link-search=native={}", folder.display());
    println!("cargo:rustc-link-lib=static=cmwq_c");
}
