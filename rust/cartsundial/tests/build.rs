//! The build script's decisions: which targets the archive is for, and which folder it is taken from.

#[allow(dead_code)]
#[path = "../build.rs"]
mod script;

use cartsundial::calls::VERSION;
use script::{dotted, fits, in_repository, resolved, same};
use std::path::Path;

#[test]
fn targets() {
    assert!(fits("x86_64", "64", "linux") && fits("x86_64", "64", "none") && fits("x86_64", "64", "freebsd"));
    // Other machine code, x32's pointers, and other object formats.
    for (architecture, width, system) in [
        ("aarch64", "64", "linux"),
        ("riscv64", "64", "none"),
        ("x86", "32", "linux"),
        ("x86_64", "32", "linux"),
        ("x86_64", "64", "windows"),
        ("x86_64", "64", "uefi"),
        ("x86_64", "64", "macos"),
        ("", "", ""),
    ] {
        assert!(!fits(architecture, width, system), "{architecture} {width} {system}");
    }
}

/// A relative name is read from where Cargo was started, not from the package's folder.
#[test]
fn folders() {
    let resolved = |named: &str, started: &str| resolved(Path::new(named), started);
    assert_eq!(resolved("/opt/lib", "/home/me").as_deref(), Ok(Path::new("/opt/lib")));
    assert_eq!(resolved("/opt/lib", "").as_deref(), Ok(Path::new("/opt/lib")));
    assert_eq!(resolved("lib", "/home/me").as_deref(), Ok(Path::new("/home/me/lib")));
    assert_eq!(resolved("../lib", "/home/me").as_deref(), Ok(Path::new("/home/me/../lib")));
    assert!(resolved("lib", "").unwrap_err().contains("CARTSUNDIAL_LIB_DIR is relative"));
    assert_eq!(in_repository(Path::new("/src/rust/cartsundial")), Path::new("/src/target/staticlib"));
}

/// As cartsundial.pc has it, and no other than this crate's.
#[test]
fn versions() {
    assert_eq!((dotted(3100), dotted(10203)), ("0.31.0".to_string(), "1.2.3".to_string()));
    assert_eq!(dotted(VERSION), env!("CARGO_PKG_VERSION"));
    assert_eq!(same(Path::new("libcapi.a"), VERSION), Ok(()));
    for other in [0, VERSION - 100, VERSION - 1, VERSION + 1] {
        let told = format!("libcapi.a is of version {}, and this crate of {}:", dotted(other), dotted(VERSION));
        assert!(same(Path::new("libcapi.a"), other).unwrap_err().starts_with(&told));
    }
}
