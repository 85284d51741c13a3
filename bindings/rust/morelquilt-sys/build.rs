//! Links the archive. The environment variable `MORELQUILT_LIB` names the folder that holds `libboard.a` for the target:
//! after `rt lib --cpu x86-64` in `crates/board` that is `crates/board/out` of the repository, for x86-64.
use std::env;
use std::path::Path;

fn main() {
    println!("cargo:rerun-if-env-changed=MORELQUILT_LIB");
    let folder = env::var("MORELQUILT_LIB").expect("MORELQUILT_LIB must name the folder that holds libboard.a for this target");
    let archive = Path::new(&folder).join("libboard.a");
    assert!(archive.is_file(), "there is no {}: `rt lib` in crates/board makes it", archive.display());
    println!("cargo:rerun-if-changed={}", archive.display());
    println!("cargo:rustc-link-search=native={}", folder);
    println!("cargo:rustc-link-lib=static=board");
}
