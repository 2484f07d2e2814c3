//! Finds the kernel's archive, libborzhanu.a, and links it. BORZHANU_ARCHIVE names the archive or the folder that it is
//! in, by a whole path; where it isn't set, the folder is target/staticlib of the repository, where `hosts/archive` puts
//! the archive.

use std::env;
use std::path::{Path, PathBuf};
use std::process::exit;

const ARCHIVE: &str = "libborzhanu.a";

fn main() {
    println!("cargo:rerun-if-env-changed=BORZHANU_ARCHIVE");
    let folder = folder().unwrap_or_else(|why| {
        eprintln!("{why}");
        exit(1);
    });
    println!("cargo:rerun-if-changed={}", folder.join(ARCHIVE).display());
    println!("cargo:rustc-link-search=native={}", folder.display());
    println!("cargo:rustc-link-lib=static=borzhanu");
}

/// The folder that the archive is in, or what to do where it can't be found.
fn folder() -> Result<PathBuf, String> {
    match env::var_os("BORZHANU_ARCHIVE") {
        Some(named) if !named.is_empty() => named_folder(Path::new(&named)),
        _ => own_folder(),
    }
}

fn named_folder(named: &Path) -> Result<PathBuf, String> {
    let shown = named.display();
    if named.is_relative() {
        return Err(format!(
            "BORZHANU_ARCHIVE is {shown}, and cargo doesn't tell from which folder that is meant: \
             give the whole path, as BORZHANU_ARCHIVE=\"$PWD/{shown}\""
        ));
    }
    match named.parent() {
        Some(folder) if named.ends_with(ARCHIVE) && named.is_file() => Ok(folder.to_path_buf()),
        _ if named.join(ARCHIVE).is_file() => Ok(named.to_path_buf()),
        _ => Err(format!("BORZHANU_ARCHIVE is {shown}, which is neither {ARCHIVE} nor a folder with it")),
    }
}

fn own_folder() -> Result<PathBuf, String> {
    let repository = Path::new(env!("CARGO_MANIFEST_DIR")).join("../../..");
    let folder = repository.join("target/staticlib");
    if folder.join(ARCHIVE).is_file() {
        return Ok(folder);
    }
    let repository = repository.canonicalize().unwrap_or(repository);
    Err(format!(
        "there is no target/staticlib/{ARCHIVE}: run `hosts/archive` in {}, \
         or name the folder of an archive in BORZHANU_ARCHIVE",
        repository.display()
    ))
}
