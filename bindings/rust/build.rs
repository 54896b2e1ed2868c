//! Links the archive that the environment variable MYSQL_PARAMS_ARCHIVE names, else the one of a package.
use std::path::{Path, PathBuf};
use std::process::exit;

const VARIABLE: &str = "MYSQL_PARAMS_ARCHIVE";

/// The archive within this folder, as a package has it.
fn packed() -> Option<PathBuf> {
    let folder = PathBuf::from(std::env::var_os("CARGO_MANIFEST_DIR")?);
    let path = folder.join("native/libmysql_params_c.a");
    path.is_file().then_some(path)
}

/// Folder and name of the archive, or what is wrong with the variable.
fn archive() -> Result<(String, String), String> {
    let named = std::env::var_os(VARIABLE).map(PathBuf::from);
    let path = named.or_else(packed).ok_or(
        "it isn't set. It is the path of libmysql_params_c.a, which `bindings/build FOLDER` makes",
    )?;
    // Cargo runs this in the crate's folder.
    let hint = if path.is_relative() {
        ". Give the whole path"
    } else {
        ""
    };
    let whole = path
        .canonicalize()
        .map_err(|error| format!("{}: {error}{hint}", path.display()))?;
    // Cargo reads lines of UTF-8.
    let whole = whole.to_str().filter(|whole| !whole.contains(['\n', '\r']));
    let whole = whole.ok_or(format!("{path:?}: its whole path isn't UTF-8 in one line"))?;
    let folder = Path::new(whole).parent().and_then(Path::to_str);
    let folder = folder.ok_or("it is no file")?;
    let file = whole.rsplit('/').next().unwrap_or("");
    let name = file
        .strip_prefix("lib")
        .and_then(|name| name.strip_suffix(".a"));
    let name = name.ok_or(format!("{}: it isn't named libNAME.a", path.display()))?;
    println!("cargo:rerun-if-changed={whole}");
    Ok((folder.to_string(), name.to_string()))
}

fn main() {
    println!("cargo:rerun-if-env-changed={VARIABLE}");
    match archive() {
        Ok((folder, name)) => {
            println!("cargo:rustc-link-search=native={folder}");
            println!("cargo:rustc-link-lib=static={name}");
        }
        Err(fault) => {
            eprintln!("error: the environment variable {VARIABLE}: {fault}");
            exit(1);
        }
    }
}
