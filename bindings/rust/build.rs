// SPDX-License-Identifier: LicenseRef-Wengeludo
//! Links the engine's archive, and refuses one that this crate was not made for.
//!
//! The archive is libwengeludo.a in the folder that WENGELUDO_ARCHIVE_DIR names; without it in the repository's target/staticlib;
//! without that where pkg-config finds it. Its version is asked by a program of three lines that calls it: the major version must be
//! this crate's and the minor version no lower.
//!
//! With the feature `rules` programs/rules.h is compiled beside it, by the compiler that CC names.
use std::env;
use std::fs;
use std::path::{Path, PathBuf};
use std::process::{exit, Command};

fn main() {
    println!("cargo:rerun-if-env-changed=WENGELUDO_ARCHIVE_DIR");
    println!("cargo:rerun-if-changed=build.rs");
    if env::var_os("DOCS_RS").is_some() {
        return; // pages are made without the archive
    }
    let arch = env::var("CARGO_CFG_TARGET_ARCH").unwrap_or_default();
    let os = env::var("CARGO_CFG_TARGET_OS").unwrap_or_default();
    if arch != "x86_64" || os != "linux" {
        stop(&format!("the archive is for x86-64 Linux, not for {arch} {os}"));
    }
    let folder = folder();
    let path = folder.join("libwengeludo.a");
    println!("cargo:rerun-if-changed={}", path.display());
    if env::var("HOST") == env::var("TARGET") {
        check_version(&path, version_of(&folder, &path));
    }
    if env::var_os("CARGO_FEATURE_RULES").is_some() {
        rules();
    }
    println!("cargo:rustc-link-search=native={}", folder.display());
    println!("cargo:rustc-link-lib=static=wengeludo");
    println!("cargo:archive={}", path.display()); // DEP_WENGELUDO_ARCHIVE for crates that depend on this one
}

/// Compiles the words of a broken rule, which C and Python have from the same file.
fn rules() {
    let root = PathBuf::from(env::var_os("CARGO_MANIFEST_DIR").unwrap()).join("../..");
    let out = PathBuf::from(env::var_os("OUT_DIR").unwrap());
    let rules = root.join("programs/rules.h");
    println!("cargo:rerun-if-env-changed=CC");
    println!("cargo:rerun-if-changed={}", rules.display());
    if !rules.is_file() {
        stop(&format!("no {}: the feature `rules` needs the repository", rules.display()));
    }
    let text = "#include \"rules.h\"\n_Static_assert(WORDS == 160, \"raw.rs lends 160 bytes for the words\");\n\
                int wengeludo_rust_broken_rule(const uint8_t *plant, size_t plant_length, const uint8_t *sheet, size_t sheet_length, const int64_t *numbers, size_t count, char *words)\n{\n    return broken_rule(plant, plant_length, \
                sheet, sheet_length, numbers, count, words);\n}\n";
    let (source, object, archive) = (out.join("rules.c"), out.join("rules.o"), out.join("libwengeludo_rules.a"));
    fs::write(&source, text).unwrap_or_else(|error| stop(&format!("{}: {error}", source.display())));
    let mut cc = Command::new(env::var_os("CC").unwrap_or_else(|| "cc".into()));
    cc.args(["-std=c11", "-O2", "-fPIC"]).arg("-I").arg(root.join("include")).arg("-I").arg(root.join("programs"));
    run(cc.arg("-c").arg(&source).arg("-o").arg(&object));
    run(Command::new(env::var_os("AR").unwrap_or_else(|| "ar".into())).arg("rcs").arg(&archive).arg(&object));
    println!("cargo:rustc-link-search=native={}", out.display());
    println!("cargo:rustc-link-lib=static=wengeludo_rules");
}

fn run(command: &mut Command) {
    let name = command.get_program().to_string_lossy().into_owned();
    match command.status() {
        Err(error) => stop(&format!("{name} cannot be run: {error}")),
        Ok(status) if !status.success() => stop(&format!("{name} failed: {status}")),
        Ok(_) => {}
    }
}

fn stop(text: &str) -> ! {
    eprintln!("wengeludo_balance: {text}");
    exit(1)
}

/// The archive's folder.
fn folder() -> PathBuf {
    if let Some(folder) = env::var_os("WENGELUDO_ARCHIVE_DIR") {
        let folder = PathBuf::from(folder);
        if folder.join("libwengeludo.a").is_file() {
            return folder;
        }
        stop(&format!("no libwengeludo.a in {} (WENGELUDO_ARCHIVE_DIR)", folder.display()));
    }
    let own = PathBuf::from(env::var_os("CARGO_MANIFEST_DIR").unwrap()).join("../../target/staticlib");
    if own.join("libwengeludo.a").is_file() {
        return own;
    }
    match installed() {
        Some(folder) => folder,
        None => {
            println!("cargo:rerun-if-changed={}", own.display());
            eprintln!("wengeludo_balance: no {}, and no wengeludo that pkg-config knows", own.join("libwengeludo.a").display());
            eprintln!("Build it at the repository's root with `bash packaging/archive.sh` (Rattle kit rattle-kit-13f or later),");
            eprintln!("install it with `bash install.sh PREFIX`, or name the folder that has it in WENGELUDO_ARCHIVE_DIR.");
            exit(1)
        }
    }
}

/// The folder of an installed archive.
fn installed() -> Option<PathBuf> {
    let said = Command::new("pkg-config").args(["--variable=libdir", "wengeludo"]).output().ok()?;
    let folder = PathBuf::from(String::from_utf8(said.stdout).ok()?.trim());
    folder.join("libwengeludo.a").is_file().then_some(folder)
}

/// What the archive's wengeludo_version returns; none where it has no such call.
fn version_of(folder: &Path, path: &Path) -> Option<u32> {
    let out = PathBuf::from(env::var_os("OUT_DIR").unwrap());
    let (source, program) = (out.join("version.rs"), out.join("version"));
    let text = "extern \"C\" {\n    fn wengeludo_version() -> u32;\n}\nfn main() {\n    print!(\"{}\", unsafe { wengeludo_version() });\n}\n";
    fs::write(&source, text).unwrap_or_else(|error| stop(&format!("{}: {error}", source.display())));
    let mut rustc = Command::new(env::var_os("RUSTC").unwrap_or_else(|| "rustc".into()));
    rustc.arg("--edition=2021").arg("-o").arg(&program).arg(&source);
    rustc.arg("-L").arg(format!("native={}", folder.display())).args(["-l", "static=wengeludo"]);
    if let Some(linker) = env::var_os("RUSTC_LINKER") {
        rustc.arg("-C").arg(format!("linker={}", linker.to_string_lossy()));
    }
    let built = rustc.output().unwrap_or_else(|error| stop(&format!("rustc cannot be run: {error}")));
    if !built.status.success() {
        let said = String::from_utf8_lossy(&built.stderr);
        if said.contains("wengeludo_version") {
            return None;
        }
        stop(&format!("{} cannot be linked:\n{said}", path.display()));
    }
    let ran = Command::new(&program).output().unwrap_or_else(|error| stop(&format!("{}: {error}", program.display())));
    Some(String::from_utf8_lossy(&ran.stdout).parse().unwrap_or_else(|_| stop(&format!("{} tells no version", path.display()))))
}

fn check_version(path: &Path, found: Option<u32>) {
    let part = |name: &str| -> u32 { env::var(name).unwrap().parse().unwrap() };
    let (major, minor) = (part("CARGO_PKG_VERSION_MAJOR"), part("CARGO_PKG_VERSION_MINOR"));
    let needs = format!("this crate needs {major}.{minor} or a later {major}");
    match found {
        None => stop(&format!("{} is older than 1.0.0 (it has no wengeludo_version); {needs}", path.display())),
        Some(n) if n / 10_000 != major || n / 100 % 100 < minor => {
            stop(&format!("{} is version {}.{}.{}; {needs}", path.display(), n / 10_000, n / 100 % 100, n % 100))
        }
        Some(_) => {}
    }
}
