//! Links the archive that `./build` makes, and takes the reset bytes from the header beside it. Their
//! folder is `dist` of the project, or what the variable `ZELCANDRY_DIST` names.

use std::path::{Path, PathBuf};
use std::{env, fs};

/// What a macro of the header has between its braces.
fn braced<'a>(header: &'a str, name: &str) -> &'a str {
    let start = format!("#define {name} {{");
    let rest = header.split(&start).nth(1).unwrap_or_else(|| panic!("the header has no {name}"));
    rest.split('}').next().expect("split gives at least one part")
}

fn main() {
    println!("cargo:rerun-if-env-changed=ZELCANDRY_DIST");
    let own = Path::new(&env::var_os("CARGO_MANIFEST_DIR").unwrap()).join("../dist");
    let folder = env::var_os("ZELCANDRY_DIST").map_or(own, PathBuf::from);
    for file in ["zelcandry.h", "libzelcandry.a"] {
        println!("cargo:rerun-if-changed={}", folder.join(file).display());
    }
    let header = fs::read_to_string(folder.join("zelcandry.h"))
        .unwrap_or_else(|e| panic!("{}: {e}; ./build makes it", folder.display()));
    let mut text = String::new();
    for end in ["CODER", "DECODER"] {
        let bytes = braced(&header, &format!("ZELCANDRY_{end}_RESET")).replace('\\', "");
        text +=
            &format!("/// The state at reset.\npub const {end}_RESET: [u8; 125] = [{bytes}];\n");
    }
    fs::write(Path::new(&env::var_os("OUT_DIR").unwrap()).join("reset.rs"), text).unwrap();
    println!("cargo:rustc-link-search=native={}", folder.display());
    println!("cargo:rustc-link-lib=static=zelcandry");
}
