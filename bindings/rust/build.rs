//! Says which form of the proved code is taken: `libpokhvizi.a` of the folder that the environment's
//! POKHVIZI_DIR names, if it is set; or else the one that comes with this crate for the target, which the
//! prover's compiler made; or else the crate `pokhvizi`, which is the same source text, compiled by rustc.

use std::{env, path::PathBuf, process};

fn main() {
    println!("cargo:rerun-if-env-changed=POKHVIZI_DIR");
    println!("cargo:rustc-check-cfg=cfg(proved_archive)");
    let target = |what: &str| env::var(format!("CARGO_CFG_TARGET_{what}")).unwrap_or_default();
    let triple = format!("{}-{}-{}", target("ARCH"), target("VENDOR"), target("OS"));
    let own = || PathBuf::from(env::var("CARGO_MANIFEST_DIR").unwrap_or_default()).join("lib").join(&triple);
    let named = env::var("POKHVIZI_DIR").ok().filter(|folder| !folder.is_empty());
    let folder = named.as_ref().map_or_else(own, PathBuf::from);
    let library = folder.join("libpokhvizi.a");
    if library.is_file() {
        println!("cargo:rerun-if-changed={}", library.display());
        println!("cargo:rustc-cfg=proved_archive");
        println!("cargo:rustc-link-lib=static=pokhvizi");
        println!("cargo:rustc-link-search=native={}", folder.display());
    } else if named.is_some() {
        eprintln!("POKHVIZI_DIR may name the folder of libpokhvizi.a, and {} isn't there", library.display());
        process::exit(1);
    }
}
