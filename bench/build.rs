//! The programs are linked with the library; the tests of the ordinary program are not.
fn main() {
    let root = std::env::var("CARGO_MANIFEST_DIR").expect("cargo names the folder");
    println!("cargo::rustc-link-arg-bin=measure={root}/../target/staticlib/libakubolinfe.a");
}
