//! Links libwkt: that of the folder `WKT_LIB_DIR`; in the package that package.sh makes the one of portable C, which is in its
//! folder `native`; in a clone of the project the one that ../capi/build.sh makes, without the prover; elsewhere the one that
//! pkg-config finds.
use std::env;
use std::path::Path;
use std::process::Command;

fn main() {
    println!("cargo:rerun-if-env-changed=WKT_LIB_DIR");
    println!("cargo:rerun-if-env-changed=DOCS_RS");
    // The documentation is built where there is no library.
    if env::var_os("DOCS_RS").is_some() {
        return;
    }
    let is = |name: &str, value: &str| {
        env::var(format!("CARGO_CFG_TARGET_{name}")).as_deref() == Ok(value)
    };
    if is("FAMILY", "wasm") && is("OS", "unknown") {
        stop("wasm32-unknown-unknown has no C library, which libwkt needs: in a browser use the package for JavaScript");
    }
    let clone = format!("{}/..", env!("CARGO_MANIFEST_DIR"));
    let native = Path::new(env!("CARGO_MANIFEST_DIR")).join("native");
    match env::var("WKT_LIB_DIR") {
        Ok(folder) if Path::new(&folder).join("libwkt.a").exists() => link_static(&folder),
        Ok(folder) => stop(&format!("WKT_LIB_DIR: there is no libwkt.a in {folder}: capi/build.sh in a clone of wkt makes it")),
        Err(_) if native.exists() => compile(&native),
        Err(_) if Path::new(&clone).join("capi/build.sh").exists() => link_static(&built(&clone)),
        Err(_) => link_as_pkg_config_says(),
    }
}

fn stop(why: &str) -> ! {
    eprintln!("{why}");
    std::process::exit(1)
}

/// Compiles portable C and links it.
fn compile(native: &Path) {
    println!("cargo:rerun-if-changed={}", native.display());
    let (c, capi) = (native.join("dist/c"), native.join("capi"));
    let mut build = cc::Build::new();
    build
        .include(&c)
        .define("WKT_HAS_CPU", "1")
        .define("WKT_NO_ROOMS", None)
        .flag_if_supported("-fvisibility=hidden")
        .warnings(false);
    // The module's C is some hundred thousand lines: more than this takes minutes.
    let mut module = build.clone();
    module
        .opt_level(1)
        .debug(false)
        .file(c.join("wkt_module.c"));
    build
        .opt_level(2)
        .file(c.join("wkt_portable.c"))
        .file(capi.join("pointers.c"))
        .file(capi.join("heap.c"))
        .compile("wkt");
    module.compile("wkt_module");
}

/// The folder in which capi/build.sh makes the library, for the processor that cargo builds for.
fn built(clone: &str) -> String {
    let of = |name: &str| env::var(name).unwrap_or_default();
    let out = format!("{}/libwkt", of("OUT_DIR"));
    let mut command = Command::new(format!("{clone}/capi/build.sh"));
    command.arg(&out);
    if of("HOST") != of("TARGET") && of("CC").is_empty() {
        command.env("CC", cc::Build::new().get_compiler().path());
    }
    // Between releases the library says the commit.
    for part in [
        "capi",
        "dist",
        "include",
        "crates/wkt_c/out/libwkt_c.a",
        ".git/logs/HEAD",
    ] {
        let path = format!("{clone}/{part}");
        if Path::new(&path).exists() {
            println!("cargo:rerun-if-changed={path}");
        }
    }
    println!("cargo:rerun-if-env-changed=CC");
    println!("cargo:rerun-if-env-changed=WKT_C_LIB");
    match command.status() {
        Ok(status) if status.success() => out,
        _ => stop("capi/build.sh fails, which makes the library of this crate"),
    }
}

fn link_static(folder: &str) {
    println!("cargo:rerun-if-changed={folder}/libwkt.a");
    println!("cargo:rustc-link-search=native={folder}");
    println!("cargo:rustc-link-lib=static=wkt");
}

fn link_as_pkg_config_says() {
    println!("cargo:rerun-if-env-changed=PKG_CONFIG_PATH");
    let program = env::var("PKG_CONFIG").unwrap_or_else(|_| "pkg-config".to_string());
    let said = match Command::new(program).args(["--libs", "wkt"]).output() {
        Ok(said) if said.status.success() => String::from_utf8_lossy(&said.stdout).into_owned(),
        _ => stop(
            "there is no libwkt: capi/build.sh in a clone of wkt makes it, and WKT_LIB_DIR names its folder; \
             rust/package.sh FOLDER makes a package that carries it, which `cargo package` doesn't",
        ),
    };
    for word in words(&said) {
        if let Some(folder) = word.strip_prefix("-L") {
            println!("cargo:rustc-link-search=native={folder}");
        } else if let Some(name) = word.strip_prefix("-l") {
            println!("cargo:rustc-link-lib={name}");
        }
    }
}

/// The words that pkg-config prints, where a space within one has a backslash before it.
fn words(said: &str) -> Vec<String> {
    let mut words = vec![String::new()];
    let mut characters = said.trim().chars();
    while let Some(character) = characters.next() {
        match character {
            '\\' => words.last_mut().unwrap().extend(characters.next()),
            ' ' => words.push(String::new()),
            character => words.last_mut().unwrap().push(character),
        }
    }
    words
}
