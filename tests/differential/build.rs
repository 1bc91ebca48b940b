//! Links the archive under test: PFCP_ARCHIVE_DIR is its directory and PFCP_ARCHIVE_NAME its name
//! without "lib" and ".a" (pfcp_session unless said otherwise).

use std::env;
use std::path::Path;

fn main() {
    println!("cargo:rerun-if-env-changed=PFCP_ARCHIVE_DIR");
    println!("cargo:rerun-if-env-changed=PFCP_ARCHIVE_NAME");
    if env::var_os("CARGO_FEATURE_ARCHIVE").is_none() {
        return;
    }
    let Ok(directory) = env::var("PFCP_ARCHIVE_DIR") else {
        println!("cargo:warning=set PFCP_ARCHIVE_DIR to the directory of the archive under test");
        std::process::exit(1);
    };
    let name = env::var("PFCP_ARCHIVE_NAME").unwrap_or("pfcp_session".to_string());
    let archive = Path::new(&directory).join(format!("lib{name}.a"));
    if !archive.is_file() {
        println!("cargo:warning=there is no archive {}", archive.display());
        std::process::exit(1);
    }
    println!("cargo:rerun-if-changed={}", archive.display());
    println!("cargo:rustc-link-arg-bins={}", archive.display());
}
