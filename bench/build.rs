//! Links the archive of the crate `host`, whose folder `run` tells, and with the feature `before` check 7 of another one.
fn link(variable: &str, library: &str) {
    let folder = std::env::var(variable).unwrap_or_else(|_| panic!("{variable}: see `run`"));
    println!("cargo:rustc-link-search=native={folder}");
    println!("cargo:rustc-link-lib=static={library}");
    println!("cargo:rerun-if-changed={folder}/lib{library}.a");
    println!("cargo:rerun-if-env-changed={variable}");
}

fn main() {
    link("BOX_ARCHIVE_FOLDER", "host");
    if std::env::var("CARGO_FEATURE_BEFORE").is_ok() {
        link("BOX_BEFORE_FOLDER", "before");
    }
    println!("cargo:rustc-link-lib=m");
}
