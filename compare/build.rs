// Links the C library from its fixed place in the repository.
use std::env;
use std::path::PathBuf;

fn main() {
    let package =
        PathBuf::from(env::var_os("CARGO_MANIFEST_DIR").expect("cargo names the package"));
    let folder = package.join("..").join("target").join("staticlib");
    let library = folder.join("libgate.a");
    println!("cargo:rerun-if-changed={}", library.display());
    if !library.is_file() {
        eprintln!("{} is missing: run make lib", library.display());
        std::process::exit(1);
    }
    println!("cargo:rustc-link-search=native={}", folder.display());
    println!("cargo:rustc-link-lib=static=gate");
    place_code();
}

// With SHIFT, all code lies so many bytes further: for runs that differ in this.
fn place_code() {
    println!("cargo:rerun-if-env-changed=SHIFT");
    let shift = env::var("SHIFT")
        .ok()
        .and_then(|bytes| bytes.parse::<u32>().ok());
    if let Some(bytes) = shift {
        let address = 0x100_0000 + bytes;
        println!("cargo:rustc-link-arg-bins=-Wl,--section-start=.text={address:#x}");
    }
}
