// The build script of both crates. It names the crate's library to the linker: from the folder that a variable names, else by pkg-config.
// In the repository each build.rs includes this file. An installed crate has this file as its build.rs, and so needs nothing beside it.

use std::path::Path;
use std::process::{exit, Command};

/// A library, and how it is found.
struct Library {
    /// Its name, which is also the name of the crate.
    name: &'static str,
    /// The variable that names the folder of its archive.
    variable: &'static str,
    /// The library and what it stands on, as archives; a folder need only have the first one, if that has all of it.
    archives: &'static [&'static str],
    /// What is said of PKG_CONFIG_PATH where pkg-config doesn't know the library.
    hint: &'static str,
}

const LIBRARIES: [Library; 2] = [
    Library {
        name: "nc_host",
        variable: "NC_HOST_LIB_DIR",
        archives: &["nc_host", "libc_c"],
        hint: ", for which PKG_CONFIG_PATH has to name the folder of nc_host.pc",
    },
    Library {
        name: "nc_sandbox",
        variable: "NC_SANDBOX_LIB_DIR",
        archives: &["nc_sandbox", "nc_host", "libc_c"],
        hint: " (does PKG_CONFIG_PATH name the folder of nc_sandbox.pc?)",
    },
];

fn main() {
    let of_crate = |library: &&Library| library.name == env!("CARGO_PKG_NAME");
    let library = LIBRARIES.iter().find(of_crate).expect("the crate has the name of a library");
    for name in [library.variable, "PKG_CONFIG", "PKG_CONFIG_PATH"] {
        println!("cargo:rerun-if-env-changed={name}");
    }
    let told = match std::env::var(library.variable) {
        Ok(folder) => library.link_from(&folder),
        Err(_) => library.link_by_pkg_config(),
    };
    if let Err(why) = told {
        eprintln!("the library {} wasn't found: {why}", library.name);
        exit(1);
    }
}

impl Library {
    fn link_from(&self, folder: &str) -> Result<(), String> {
        let Library { name, variable, archives, .. } = self;
        let known = std::fs::canonicalize(folder).map_err(|error| format!("{variable} is {folder}: {error}"))?;
        let shown = known.to_str().ok_or_else(|| format!("{variable} isn't UTF-8"))?;
        if !known.join(format!("lib{name}.a")).exists() {
            return Err(format!("{variable} is {folder}, which has no lib{name}.a"));
        }
        println!("cargo:rustc-link-search=native={shown}");
        for archive in archives.iter().filter(|archive| known.join(format!("lib{archive}.a")).exists()) {
            println!("cargo:rerun-if-changed={shown}/lib{archive}.a");
            println!("cargo:rustc-link-lib=static={archive}");
        }
        Ok(())
    }

    fn link_by_pkg_config(&self) -> Result<(), String> {
        let Library { name, variable, hint, .. } = self;
        let program = std::env::var("PKG_CONFIG").unwrap_or_else(|_| "pkg-config".to_string());
        let run = Command::new(&program).args(["--static", "--libs", name]).output();
        let output = run.map_err(|error| format!("{variable} isn't set, and {program} can't be run: {error}"))?;
        if !output.status.success() {
            let said = String::from_utf8_lossy(&output.stderr);
            return Err(format!("{variable} isn't set, and {program} knows no {name}{hint}: {}", said.trim()));
        }
        String::from_utf8_lossy(&output.stdout).split_whitespace().for_each(|word| self.link(word));
        Ok(())
    }

    /// Hands on a word of a linker's command line: an archive by its path, `-L` or `-l`, or another option.
    fn link(&self, word: &str) {
        let path = Path::new(word);
        let archive = path.file_name().and_then(|name| name.to_str()?.strip_prefix("lib")?.strip_suffix(".a"));
        if let (Some(folder), Some(name)) = (path.parent(), archive) {
            println!("cargo:rustc-link-search=native={}", folder.display());
            println!("cargo:rustc-link-lib=static={name}");
        } else if let Some(folder) = word.strip_prefix("-L") {
            println!("cargo:rustc-link-search=native={folder}");
        } else if let Some(name) = word.strip_prefix("-l") {
            // What isn't one of these archives is the system's.
            let kind = if self.archives.contains(&name) { "static=" } else { "" };
            println!("cargo:rustc-link-lib={kind}{name}");
        } else {
            println!("cargo:rustc-link-arg={word}");
        }
    }
}
