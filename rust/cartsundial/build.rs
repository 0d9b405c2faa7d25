//! Links the proved archive. It is looked for in this order: in the folder that `CARTSUNDIAL_LIB_DIR` names; in the repository,
//! where `make library` writes it; where pkg-config finds `cartsundial` installed. Wherever it was found, it is then asked
//! for its version, which has to be this crate's.

use std::env;
use std::fs;
use std::path::{Path, PathBuf};
use std::process::Command;

#[path = "src/version.rs"]
mod version;

const VARIABLE: &str = "CARTSUNDIAL_LIB_DIR";

/// What the archive is called where it is installed, and as rt writes it.
const INSTALLED: &str = "cartsundial";
const BUILT: &str = "capi";

/// An archive that is there, `folder/libname.a`.
struct Archive {
    folder: PathBuf,
    name: &'static str,
}

/// Asks an archive for its version.
const ASKING: &str = "\
extern \"C\" { fn cartsundial_version() -> u32; }
fn main() { println!(\"{}\", unsafe { cartsundial_version() }); }
";

fn main() {
    for name in [VARIABLE, "PKG_CONFIG", "PKG_CONFIG_PATH", "PKG_CONFIG_LIBDIR"] {
        println!("cargo::rerun-if-env-changed={name}");
    }
    if let Err(message) = link() {
        message.lines().for_each(|line| println!("cargo::error={line}"));
    }
}

fn link() -> Result<(), String> {
    let [architecture, width, system] =
        ["ARCH", "POINTER_WIDTH", "OS"].map(|name| variable(&format!("CARGO_CFG_TARGET_{name}")));
    if !fits(&architecture, &width, &system) {
        return Err(format!("the proved archive is ELF code for x86-64, which {} is not", variable("TARGET")));
    }
    let archive = archive()?;
    let Archive { folder, name } = &archive;
    // A new archive may be older than the last build, where it was copied with its time; putting it there is new.
    println!("cargo::rerun-if-changed={}", folder.join(file(name)).display());
    println!("cargo::rerun-if-changed={}", folder.display());
    let path = folder.join(file(name));
    match asked(&archive).map_err(|why| format!("{} does not tell its version: {why}", path.display()))? {
        Some(found) => same(&path, found)?,
        None => println!("cargo::warning=the version of {} is not asked for: no such code runs here", path.display()),
    }
    println!("cargo::rustc-link-search=native={}", folder.display());
    println!("cargo::rustc-link-lib=static={name}");
    Ok(())
}

/// The archive's own version: what a program answers that is linked with it, where this machine runs its code.
fn asked(Archive { folder, name }: &Archive) -> Result<Option<u32>, String> {
    if !cfg!(all(target_arch = "x86_64", target_pointer_width = "64", target_os = "linux")) {
        return Ok(None);
    }
    let program = Path::new(&variable("OUT_DIR")).join("version");
    let source = program.with_extension("rs");
    fs::write(&source, ASKING).map_err(|error| format!("{}: {error}", source.display()))?;
    let mut compiler = Command::new(variable("RUSTC"));
    compiler.arg("--edition=2021").arg("-o").arg(&program).arg(&source).arg(format!("-lstatic={name}"));
    compiler.arg("-L").arg(folder);
    // The linker of a build for this machine; that of another target is of no use here.
    if let Some(linker) = env::var_os("RUSTC_LINKER").filter(|_| variable("TARGET") == variable("HOST")) {
        compiler.arg("-C").arg(format!("linker={}", linker.to_string_lossy()));
    }
    let told = answer(&mut compiler).and_then(|_| answer(&mut Command::new(&program)))?;
    told.parse().map(Some).map_err(|_| format!("it answers {told}"))
}

/// What a program prints, or what it says where it fails.
fn answer(command: &mut Command) -> Result<String, String> {
    let output = command.output().map_err(|error| format!("{}: {error}", command.get_program().to_string_lossy()))?;
    match output.status.success() {
        true => Ok(last_line(&output.stdout)),
        false => Err(String::from_utf8_lossy(&output.stderr).trim().to_string()),
    }
}

/// Whether an archive is of this crate's version.
pub fn same(archive: &Path, found: u32) -> Result<(), String> {
    let [found, own] = [found, version::VERSION].map(dotted);
    match found == own {
        true => Ok(()),
        false => Err(format!(
            "{} is of version {found}, and this crate of {own}: take both from one state of the repository, where `make` \
             builds the archive",
            archive.display()
        )),
    }
}

fn archive() -> Result<Archive, String> {
    if let Some(named) = env::var_os(VARIABLE) {
        let folder = resolved(Path::new(&named), &variable("PWD"))?;
        let missing =
            || format!("{VARIABLE} is {}, which has neither {} nor {}", folder.display(), file(INSTALLED), file(BUILT));
        return archive_in(&folder, &[INSTALLED, BUILT]).ok_or_else(missing);
    }
    let package = variable("CARGO_MANIFEST_DIR");
    let built = in_repository(Path::new(&package));
    if root(Path::new(&package)).join("crates/capi").is_dir() {
        if let Some(archive) = archive_in(&built, &[BUILT]) {
            return Ok(archive);
        }
        println!("cargo::rerun-if-changed={}", built.display());
    }
    installed().map_err(|why| missing(&why))
}

/// What to do where there is no archive, with what pkg-config says.
fn missing(why: &str) -> String {
    let [installed, built] = [INSTALLED, BUILT].map(file);
    format!(
        "the proved archive is missing; there are three ways to it:\n\
         in the repository, `make`, which writes target/staticlib/{built}\n\
         `make install PREFIX=..`, and PREFIX/lib/pkgconfig in PKG_CONFIG_PATH; now pkg-config says: {why}\n\
         {VARIABLE}=FOLDER, a folder that has {installed} or {built}"
    )
}

/// The first of these names that the folder has an archive of.
fn archive_in(folder: &Path, names: &[&'static str]) -> Option<Archive> {
    let name = names.iter().find(|name| folder.join(file(name)).is_file())?;
    Some(Archive { folder: folder.into(), name })
}

/// What pkg-config finds, of this crate's version; or what it says.
fn installed() -> Result<Archive, String> {
    let program = env::var("PKG_CONFIG").unwrap_or("pkg-config".into());
    let wanted = format!("{INSTALLED} = {}", dotted(version::VERSION));
    let told = answer(Command::new(&program).args(["--print-errors", "--variable=libdir", &wanted]));
    let folder = PathBuf::from(told.map_err(|why| last_line(why.as_bytes()))?);
    archive_in(&folder, &[INSTALLED]).ok_or_else(|| format!("{} has no {}", folder.display(), file(INSTALLED)))
}

fn last_line(output: &[u8]) -> String {
    String::from_utf8_lossy(output).lines().last().unwrap_or("").trim().to_string()
}

fn variable(name: &str) -> String {
    env::var(name).unwrap_or_default()
}

fn file(name: &str) -> String {
    format!("lib{name}.a")
}

/// 3100 is 0.31.0.
pub fn dotted(version: u32) -> String {
    format!("{}.{}.{}", version / 10_000, version / 100 % 100, version % 100)
}

/// Whether the archive can be linked for a target: its machine code, its pointers, and the format of its objects.
pub fn fits(architecture: &str, width: &str, system: &str) -> bool {
    let is_elf = !matches!(system, "windows" | "cygwin" | "uefi" | "macos" | "ios" | "tvos" | "watchos" | "visionos");
    architecture == "x86_64" && width == "64" && is_elf
}

/// The folder that the variable names. Cargo starts this script in the package's folder, so a relative name is read from
/// where Cargo was started, which the shell tells.
pub fn resolved(named: &Path, started: &str) -> Result<PathBuf, String> {
    match (named.is_absolute(), started) {
        (false, "") => Err(format!("{VARIABLE} is relative, and PWD does not tell to what: {}", named.display())),
        // An absolute name stays as it is.
        _ => Ok(Path::new(started).join(named)),
    }
}

/// The repository's root, if the package is in it: two folders below.
fn root(package: &Path) -> &Path {
    package.ancestors().nth(2).unwrap_or(Path::new("."))
}

/// Where `make library` writes the archive.
pub fn in_repository(package: &Path) -> PathBuf {
    root(package).join("target/staticlib")
}
