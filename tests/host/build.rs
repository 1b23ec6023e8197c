// Links the two engines. tests/run says where they are:
//   TESSLA_REFERENCE_DIR   the folder with libreference.a, the plain C engine
//   TESSLA_LIBRARY_DIR     the folder with libengine.a, the proved library
// A call that libengine.a does not export ends the link: nothing stands in for it.
use std::env::var;

fn main() {
    println!("cargo:rerun-if-env-changed=TESSLA_BUILD_STAMP");
    for (name, archive) in [("TESSLA_REFERENCE_DIR", "reference"), ("TESSLA_LIBRARY_DIR", "engine")] {
        println!("cargo:rerun-if-env-changed={name}");
        let folder = var(name).expect("start the tests by tests/run");
        println!("cargo:rustc-link-search=native={folder}");
        println!("cargo:rustc-link-lib=static={archive}");
        println!("cargo:rerun-if-changed={folder}/lib{archive}.a");
    }
}
