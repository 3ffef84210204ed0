// Links the archive that `tools/archive` writes, and makes the twin: the sources of capi_c and of the crates below it
// without their contracts, as Rust.
use std::collections::BTreeMap;
use std::path::{Path, PathBuf};
use std::{env, fs};

/// What stands in front of a line's contract or attribute, and is no Rust: the kinds of clause, each perhaps with a star and a name.
fn is_clause(bare: &str) -> bool {
    ["requires", "ensures", "ghost"].iter().any(|word| {
        bare.strip_prefix(word).is_some_and(|rest| rest.starts_with([' ', '*']) && rest.contains('{'))
    })
}

/// How many braces a line opens, and does not close.
fn open_braces(line: &str) -> isize {
    line.chars().map(|c| match c { '{' => 1, '}' => -1, _ => 0 }).sum()
}

/// What a type derives in the twin: what it derives in Rattle but for `Drop`, which Rust has of itself, and that it can be copied.
fn derives(line: &str) -> String {
    let listed = line.trim_start_matches("#[derive(").trim_end_matches(")]");
    let own = listed.split(", ").filter(|name| !["", "Drop", "Clone", "Copy"].contains(name));
    format!("#[derive({})]\n", ["Clone", "Copy"].into_iter().chain(own).collect::<Vec<_>>().join(", "))
}

/// A call of the C boundary, by the first line of its head.
fn boundary_call(line: &str) -> Option<&str> {
    line.strip_prefix("pub extern \"C\" fn ")?.split(['<', '(']).next()
}

/// A source file as the body of a Rust module of the crate `name`, which uses the crates `below`.
fn body(file: &Path, name: &str, below: &[String]) -> String {
    let text = fs::read_to_string(file).unwrap();
    let mut out = format!("use crate::twin::{{{}}};\n", below.join(", "));
    let mut clause = 0;
    let mut derived = String::new();
    for line in text.lines() {
        let bare = line.trim_start();
        if clause > 0 || is_clause(bare) && !bare.starts_with("ghost use ") {
            clause += open_braces(line);
            assert!(clause >= 0, "{}: a contract of a form that this cannot take away", file.display());
            continue;
        }
        if ["ghost use ", "pub mod ", "mod ", "#![", "#[tactic", "#[cycle", "#[unsafe(no_mangle)]", "prove!("].iter().any(|it| bare.starts_with(it)) {
            continue;
        }
        if bare.starts_with("#[derive(") {
            derived = bare.to_string();
            continue;
        }
        let item = line.strip_prefix("pub(crate) ").or(line.strip_prefix("pub ")).unwrap_or(line);
        if item.starts_with("struct ") || item.starts_with("enum ") {
            out += &derives(&std::mem::take(&mut derived));
        }
        if boundary_call(line).is_some() {
            out += "#[inline(never)]\n";
        }
        out += &line.replace("extern \"C\" ", "").replace("crate::", &format!("crate::twin::{name}::"));
        out += "\n";
    }
    out
}

/// The crates that each crate uses, by crates.txt.
fn crates(root: &Path) -> BTreeMap<String, Vec<String>> {
    let list = root.join("crates.txt");
    println!("cargo:rerun-if-changed={}", list.display());
    let text = fs::read_to_string(list).unwrap();
    let lines = text.lines().filter_map(|line| line.split_once(':'));
    let of = |name: &str| name.split_whitespace().next().unwrap_or_default().to_string();
    lines.map(|(name, below)| (of(name), below.split_whitespace().map(String::from).collect())).collect()
}

fn files(folder: &Path) -> Vec<PathBuf> {
    let mut files: Vec<_> = fs::read_dir(folder).unwrap().map(|f| f.unwrap().path()).collect();
    files.sort();
    files
}

/// What other code may call by its name alone.
fn exports(file: &Path) -> String {
    let text = fs::read_to_string(file).unwrap();
    text.lines().filter_map(boundary_call).map(|name| format!("pub use capi_c::{name};\n")).collect()
}

fn twin(root: &Path) -> String {
    let all = crates(root);
    let mut twin = String::new();
    for name in all["capi"].iter().map(String::as_str).chain(["capi", "capi_c"]) {
        let folder = root.join("crates").join(name).join("src");
        println!("cargo:rerun-if-changed={}", folder.display());
        let lib = folder.join("lib.rt");
        twin += &format!("pub mod {name} {{\n{}", body(&lib, name, &all[name]));
        for file in files(&folder).iter().filter(|f| !f.ends_with("lib.rt")) {
            let module = file.file_stem().unwrap().to_str().unwrap();
            twin += &format!("pub mod {module} {{\n{}}}\n", body(file, name, &all[name]));
        }
        twin += "}\n";
    }
    twin + &exports(&root.join("crates/capi_c/src/lib.rt"))
}

fn main() {
    let root = Path::new(env!("CARGO_MANIFEST_DIR")).parent().unwrap().to_path_buf();
    println!("cargo:rustc-link-search=native={}", root.join("target/staticlib").display());
    println!("cargo:rustc-link-lib=static=capi");
    println!("cargo:rerun-if-changed={}", root.join("target/staticlib/libcapi.a").display());
    fs::write(Path::new(&env::var("OUT_DIR").unwrap()).join("twin.rs"), twin(&root)).unwrap();
}
