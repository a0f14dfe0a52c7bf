// Makes the static library of the proved calls, and says plainly what is wrong where it cannot be linked.
use std::env;
use std::path::{Path, PathBuf};
use std::process::{exit, Command};

fn stop(message: &str) -> ! {
    eprintln!("oratjolet: {message}");
    exit(1);
}

fn main() {
    println!("cargo:rerun-if-env-changed=ORATJOLET_LIB");
    let arch = env::var("CARGO_CFG_TARGET_ARCH").unwrap_or_default();
    let os = env::var("CARGO_CFG_TARGET_OS").unwrap_or_default();
    if arch != "x86_64" || os != "linux" {
        stop(&format!(
            "the proved calls are x86-64 code for Linux, and this build is for {arch} {os}"
        ));
    }
    let folder = match env::var("ORATJOLET_LIB") {
        Ok(folder) => PathBuf::from(folder),
        Err(_) => made(),
    };
    if !folder.join("liboratjolet.a").is_file() {
        stop(&format!(
            "there is no liboratjolet.a in {}",
            folder.display()
        ));
    }
    println!("cargo:rustc-link-search=native={}", folder.display());
    println!("cargo:rustc-link-lib=static=oratjolet");
}

// `tools/library` proves what has changed and writes target/staticlib/liboratjolet.a of the repository.
fn made() -> PathBuf {
    let top = Path::new(env!("CARGO_MANIFEST_DIR"))
        .parent()
        .expect("rust/ stands in the repository");
    println!(
        "cargo:rerun-if-changed={}",
        top.join("crates.txt").display()
    );
    // Not out/, where rt writes
    for folder in top.join("crates").read_dir().into_iter().flatten().flatten() {
        for part in ["src", "specs", "proofs"] {
            let part = folder.path().join(part);
            if part.is_dir() {
                println!("cargo:rerun-if-changed={}", part.display());
            }
        }
    }
    match Command::new(top.join("tools/library")).output() {
        Ok(ran) if ran.status.success() => top.join("target/staticlib"),
        Ok(ran) => stop(&format!(
            "tools/library failed. It needs the Rattle kit's rt; or set ORATJOLET_LIB to a folder with liboratjolet.a:\n{}",
            String::from_utf8_lossy(&ran.stderr)
        )),
        Err(error) => stop(&format!(
            "tools/library could not be started ({error}). Set ORATJOLET_LIB to a folder with liboratjolet.a"
        )),
    }
}
