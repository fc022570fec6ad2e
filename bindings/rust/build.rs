//! Links the archive of cargo's target: TARGET/libfuzzydate.a below the folder that FUZZYDATE_LIB names, else below `archive` of this
//! crate, where its package has them, else below target/archive of the repository, where `bindings/archive` writes them. The header beside
//! the archive says its version, which must be one that this crate can call.
use std::path::{Path, PathBuf};

fn main() {
    println!("cargo:rerun-if-env-changed=FUZZYDATE_LIB");
    let target = said_by_cargo("TARGET");
    let folder = archives().join(&target);
    let (archive, header) = (folder.join("libfuzzydate.a"), folder.join("fuzzy.h"));
    for file in [&archive, &header] {
        println!("cargo:rerun-if-changed={}", file.display());
        if !file.exists() {
            let how =
                format!("`bindings/archive {target}` of the repository writes it, and FUZZYDATE_LIB may name the folder above {target}");
            stop(&format!("no {}: {how}", file.display()));
        }
    }
    check_version(&header);
    println!("cargo:rustc-link-search=native={}", folder.display());
    println!("cargo:rustc-link-lib=static=fuzzydate");
    println!("cargo:include={}", folder.display());
}

fn said_by_cargo(name: &str) -> String {
    std::env::var(name).unwrap_or_else(|_| stop(&format!("cargo does not say {name}")))
}

fn archives() -> PathBuf {
    let own = PathBuf::from(said_by_cargo("CARGO_MANIFEST_DIR"));
    let packaged = own.join("archive");
    match std::env::var_os("FUZZYDATE_LIB") {
        Some(named) => named.into(),
        None if packaged.exists() => packaged,
        None => own.join("../../target/archive"),
    }
}

/// Ends the build where the archive has another major version than this crate, or an older minor one. A newer minor version is accepted.
fn check_version(header: &Path) {
    let text = std::fs::read_to_string(header).unwrap_or_else(|error| stop(&format!("{}: {error}", header.display())));
    let defined = |name: &str| text.lines().find_map(|line| line.strip_prefix(&format!("#define FUZZY_VERSION{name} ")).map(str::trim));
    let number = |name: &str| defined(&format!("_{name}")).and_then(|number| number.parse::<u32>().ok());
    let own = |name: &str| said_by_cargo(&format!("CARGO_PKG_VERSION_{name}")).parse::<u32>().ok();
    if number("MAJOR") != own("MAJOR") || number("MINOR") < own("MINOR") {
        let (version, folder) = (said_by_cargo("CARGO_PKG_VERSION"), header.parent().unwrap_or(header).display());
        let found = defined("").map_or("an unknown version".to_owned(), |version| format!("version {}", version.trim_matches('"')));
        stop(&format!("the library in {folder} has {found}, and fuzzydate {version} needs that version or a newer one of the same major"));
    }
}

fn stop(why: &str) -> ! {
    eprintln!("fuzzydate: {why}");
    std::process::exit(1)
}
