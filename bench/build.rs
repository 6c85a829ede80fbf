// LIB_DIR: the folder with libdulavimorf.a (run.sh sets it).
fn main() {
    let dir = std::env::var("LIB_DIR").expect("LIB_DIR is set by run.sh");
    println!("cargo:rustc-link-search=native={dir}");
    println!("cargo:rustc-link-lib=static=dulavimorf");
    println!("cargo:rustc-link-lib=dylib=crypto");
    println!("cargo:rustc-link-lib=dylib=z");
    println!("cargo:rerun-if-changed={dir}/libdulavimorf.a");
    println!("cargo:rerun-if-env-changed=LIB_DIR");
}
