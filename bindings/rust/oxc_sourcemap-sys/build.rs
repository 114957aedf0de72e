//! Finds the library, in this order:
//!
//! 1. in the folder that `OXC_SOURCEMAP_LIB_DIR` names;
//! 2. in `lib/TARGET` of this crate, where a packed crate has it for x86-64 and aarch64 Linux;
//! 3. in `target/` of the repository in which this crate stands, if `./build c` has made it there;
//! 4. by `pkg-config oxc_sourcemap` (the program is that of `PKG_CONFIG`, if that is set).
//!
//! `OXC_SOURCEMAP_LINK=static` links `liboxc_sourcemap.a` and `OXC_SOURCEMAP_LINK=dynamic` the shared library. Without it, a folder
//! that has the archive links this, and all else the shared library. Crates that depend on this one see the folder, where it is
//! known, as `DEP_OXC_SOURCEMAP_LIB_DIR`.

use std::env;
use std::path::{Path, PathBuf};
use std::process::{Command, exit};

const ARCHIVE: &str = "liboxc_sourcemap.a";

#[derive(Clone, Copy, PartialEq)]
enum Link {
    Static,
    Dynamic,
}

fn variable(name: &str) -> Option<String> {
    println!("cargo:rerun-if-env-changed={name}");
    env::var(name).ok().filter(|value| !value.is_empty())
}

fn fail(message: &str) -> ! {
    eprintln!("oxc_sourcemap-sys: {message}");
    exit(1);
}

fn wanted_link() -> Option<Link> {
    match variable("OXC_SOURCEMAP_LINK").as_deref() {
        None => None,
        Some("static") => Some(Link::Static),
        Some("dynamic") => Some(Link::Dynamic),
        Some(other) => fail(&format!("OXC_SOURCEMAP_LINK is '{other}', and has to be 'static' or 'dynamic'")),
    }
}

fn link(link: Link) {
    let kind = if link == Link::Static { "static" } else { "dylib" };
    println!("cargo:rustc-link-lib={kind}=oxc_sourcemap");
}

fn is_library_in(folder: &Path) -> bool {
    [ARCHIVE, "liboxc_sourcemap.so", "liboxc_sourcemap.dylib"].iter().any(|name| folder.join(name).exists())
}

fn link_in(folder: &Path, wanted: Option<Link>) {
    let has_archive = folder.join(ARCHIVE).is_file();
    println!("cargo:rerun-if-changed={}", folder.join(ARCHIVE).display());
    println!("cargo:rustc-link-search=native={}", folder.display());
    println!("cargo:lib_dir={}", folder.display());
    link(wanted.unwrap_or(if has_archive { Link::Static } else { Link::Dynamic }));
}

/// The folders that pkg-config names, if it knows the library. There are none if that is where linkers look anyway.
fn folders_of_pkg_config() -> Option<Vec<PathBuf>> {
    for name in ["PKG_CONFIG_PATH", "PKG_CONFIG_LIBDIR", "PKG_CONFIG_SYSROOT_DIR"] {
        variable(name);
    }
    let program = variable("PKG_CONFIG").unwrap_or_else(|| "pkg-config".to_string());
    let ran = Command::new(program).args(["--libs-only-L", "oxc_sourcemap"]).output().ok()?;
    let words = String::from_utf8(ran.stdout).ok().filter(|_| ran.status.success())?;
    Some(words.split_whitespace().filter_map(|word| word.strip_prefix("-L")).map(PathBuf::from).collect())
}

fn main() {
    println!("cargo:rerun-if-changed=build.rs");
    let wanted = wanted_link();
    if let Some(folder) = variable("OXC_SOURCEMAP_LIB_DIR") {
        return link_in(Path::new(&folder), wanted);
    }
    let here = Path::new(env!("CARGO_MANIFEST_DIR"));
    let packed = here.join("lib").join(variable("TARGET").unwrap_or_default());
    if is_library_in(&packed) {
        return link_in(&packed, wanted);
    }
    let repository = here.join("../../../target");
    if is_library_in(&repository) {
        return link_in(&repository, wanted);
    }
    match folders_of_pkg_config().as_deref() {
        Some([folder]) => link_in(folder, wanted),
        Some(folders) => {
            for folder in folders {
                println!("cargo:rustc-link-search=native={}", folder.display());
            }
            link(wanted.unwrap_or(Link::Dynamic));
        }
        // Without a library the crate is still checked and documented; only linking then fails.
        None => link_in(&repository, wanted.or(Some(Link::Static))),
    }
}
