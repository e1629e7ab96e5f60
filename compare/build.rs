// Links libexports, libdecode, libbasics and libbit_stream. They are the archives that `tools/build NAME` writes; EXPORTS_DIR names another folder
// that holds them. With EXPORTS_LINK=dylib they are shared objects, which the program finds by LD_LIBRARY_PATH when it starts: compare/faults tries
// many of them.
fn main() {
    let here = std::env::var("CARGO_MANIFEST_DIR").unwrap();
    let dir = std::env::var("EXPORTS_DIR").unwrap_or(format!("{here}/../target/staticlib"));
    let link = std::env::var("EXPORTS_LINK").unwrap_or("static".to_string());
    println!("cargo:rerun-if-env-changed=EXPORTS_DIR");
    println!("cargo:rerun-if-env-changed=EXPORTS_LINK");
    println!("cargo:rustc-link-search=native={dir}");
    for name in ["exports", "decode", "basics", "bit_stream"] {
        if link == "static" {
            println!("cargo:rerun-if-changed={dir}/lib{name}.a");
        }
        println!("cargo:rustc-link-lib={link}={name}");
    }
}
