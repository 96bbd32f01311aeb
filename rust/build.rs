//! Finds the archive libstation.a and has cargo link it. If the environment variable MAWERODU_LIB_DIR is set and not
//! empty, it looks in that folder (give a full path) and nowhere else. Otherwise it takes the first of these that has
//! the archive:
//!
//! 1. `target/staticlib` of the source tree that this crate is in, where `.ci/built station` puts it
//! 2. `$PREFIX/lib`, if PREFIX is set and not empty
//! 3. `$HOME/.local/lib`, if HOME is set and not empty
//! 4. `/usr/local/lib`
//! 5. `/usr/lib`
//!
//! So an archive that `./install` put below another folder is found by MAWERODU_LIB_DIR or PREFIX alone, and one in the
//! source tree comes before one that is installed.
use std::env;
use std::path::PathBuf;
use std::process::exit;

const ARCHIVE: &str = "libstation.a";

/// The folder that an environment variable names.
fn named(variable: &str) -> Option<PathBuf> {
    println!("cargo:rerun-if-env-changed={variable}");
    env::var_os(variable).filter(|value| !value.is_empty()).map(PathBuf::from)
}

/// The folders to look in.
fn folders() -> Vec<PathBuf> {
    if let Some(folder) = named("MAWERODU_LIB_DIR") {
        return vec![folder];
    }
    let here = PathBuf::from(env::var_os("CARGO_MANIFEST_DIR").expect("cargo sets CARGO_MANIFEST_DIR"));
    let mut folders = vec![here.join("../target/staticlib")];
    let prefixes = [named("PREFIX"), named("HOME").map(|home| home.join(".local"))];
    folders.extend(prefixes.into_iter().flatten().map(|prefix| prefix.join("lib")));
    folders.extend(["/usr/local/lib", "/usr/lib"].map(PathBuf::from));
    folders
}

fn fail(message: &str) -> ! {
    eprintln!("mawerodu: {message}");
    exit(1)
}

fn main() {
    println!("cargo:rerun-if-changed=build.rs");
    let (os, arch) = (env::var("CARGO_CFG_TARGET_OS"), env::var("CARGO_CFG_TARGET_ARCH"));
    if os.as_deref() != Ok("linux") || arch.as_deref() != Ok("x86_64") {
        fail("libstation.a is for x86-64 Linux alone");
    }
    let folders = folders();
    let Some(found) = folders.iter().find(|folder| folder.join(ARCHIVE).is_file()) else {
        let mut message = format!("there is no {ARCHIVE} in\n");
        for folder in &folders {
            message += &format!("    {}\n", folder.display());
        }
        message += "Build it: .ci/built station, at the top of the source tree.\n";
        message += "Or install it: ./install PREFIX, and set MAWERODU_LIB_DIR to PREFIX/lib.";
        fail(&message)
    };
    println!("cargo:rerun-if-changed={}", found.join(ARCHIVE).display());
    println!("cargo:rustc-link-search=native={}", found.display());
    println!("cargo:rustc-link-lib=static=station");
}
