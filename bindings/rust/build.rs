//! Finds the static library: in the directory that `VBR_LIB_DIR` names, or else the crate's own, `libvbr.a` beside this file. The
//! feature `system` takes that of pkg-config before it, if it has this crate's version; without the feature it is looked for if the
//! crate has none. If another one than the crate's own is linked, a warning of cargo tells which. Pages (`DOCS_RS`) need none. A
//! program that is compiled with `-Zsanitizer=thread` gets the cfg `vbr_tsan`.
use std::env;
use std::path::{Path, PathBuf};
use std::process::Command;

fn main() {
    println!("cargo:rerun-if-env-changed=VBR_LIB_DIR");
    println!("cargo:rerun-if-env-changed=PKG_CONFIG_PATH");
    println!("cargo:rerun-if-env-changed=PKG_CONFIG_LIBDIR");
    println!("cargo:rerun-if-env-changed=DOCS_RS");
    if env::var_os("DOCS_RS").is_some() {
        return;
    }
    if env::var("CARGO_CFG_SANITIZE").is_ok_and(|all| all.split(',').any(|it| it == "thread")) {
        println!("cargo:rustc-cfg=vbr_tsan");
    }
    let [arch, width, os] =
        ["ARCH", "POINTER_WIDTH", "OS"].map(|it| env::var(format!("CARGO_CFG_TARGET_{it}")).unwrap_or_default());
    assert!(
        [&arch, &width, &os] == ["x86_64", "64", "linux"],
        "libvbr.a is for x86-64 under Linux, and the target is {arch} under {os}, of pointers of {width} bits"
    );
    let dir = found().unwrap_or_else(|why| panic!("{why}"));
    println!("cargo:rerun-if-changed={dir}/libvbr.a");
    println!("cargo:rustc-link-search=native={dir}");
    println!("cargo:rustc-link-lib=static=vbr");
}

/// The directory of the library, or why there is none.
fn found() -> Result<String, String> {
    if let Some(named) = env::var_os("VBR_LIB_DIR") {
        return match named.to_str() {
            Some(dir) if has_library(Path::new(dir)) => Ok(dir.to_owned()),
            _ => Err(format!("VBR_LIB_DIR is {}, and there is no libvbr.a", named.to_string_lossy())),
        };
    }
    let (own, is_of_system) = (own(), env::var_os("CARGO_FEATURE_SYSTEM").is_some());
    if let (Some(dir), false) = (&own, is_of_system) {
        return Ok(dir.clone());
    }
    match (installed(), own) {
        (Ok(dir), _) => {
            println!("cargo:warning=links {dir}/libvbr.a, which pkg-config names");
            Ok(dir)
        }
        (Err(why), Some(dir)) => {
            println!("cargo:warning=links the crate's own libvbr.a: {why}");
            Ok(dir)
        }
        (Err(why), None) => Err(format!(
            "libvbr.a is not found ({why}): run `make install PREFIX=DIR` in the repository and put DIR/lib/pkgconfig \
             on PKG_CONFIG_PATH, or `make lib`, and set VBR_LIB_DIR to the directory of libvbr.a"
        )),
    }
}

/// The directory of the crate, if the library lies in it.
fn own() -> Option<String> {
    let dir = PathBuf::from(env::var_os("CARGO_MANIFEST_DIR")?);
    has_library(&dir).then(|| dir.to_str().map(str::to_owned)).flatten()
}

fn has_library(dir: &Path) -> bool {
    dir.join("libvbr.a").is_file()
}

/// The directory that pkg-config names, or why it names none of use.
fn installed() -> Result<String, String> {
    let version = told_by_pkg_config("--modversion")?;
    let own = env::var("CARGO_PKG_VERSION").unwrap_or_default();
    if version != own {
        return Err(format!("pkg-config has version {version}, and this crate is of {own}"));
    }
    let dir = told_by_pkg_config("--variable=libdir")?;
    if has_library(Path::new(&dir)) {
        Ok(dir)
    } else {
        Err(format!("pkg-config names {dir}, where there is none"))
    }
}

fn told_by_pkg_config(what: &str) -> Result<String, String> {
    let told =
        Command::new("pkg-config").args([what, "vbr"]).output().map_err(|why| format!("there is no pkg-config: {why}"))?;
    let text = String::from_utf8_lossy(&told.stdout).trim().to_owned();
    if told.status.success() && !text.is_empty() {
        Ok(text)
    } else {
        Err("pkg-config knows no vbr".to_owned())
    }
}
