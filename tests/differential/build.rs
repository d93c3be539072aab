// Links the engine's archive. The folder comes from the run script, so that no path stands here.
use std::env;

fn main() {
    println!("cargo:rerun-if-env-changed=ENGINE_DIR");
    let dir = env::var("ENGINE_DIR").expect("set ENGINE_DIR to the folder of libengine.a");
    println!("cargo:rerun-if-changed={dir}/libengine.a");
    println!("cargo:rustc-link-search=native={dir}");
    println!("cargo:rustc-link-lib=static=engine");
}
