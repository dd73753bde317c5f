//! Takes the files of carcara from the folder that `NAPSILO_CARCARA` names and puts them, unchanged, where the crate includes them.
//!
//! The folder is a checkout of carcara (its root, or the folder of its crate with `src/` in it), or a flat folder whose files are
//! named `src--src--ast--sort.rs.txt`. Nothing of the files is kept in this repository.
//!
//! Two more things are made from them: the `mod` lines, with the folder's path, and the lists of operators in the order of their enums.

use std::env;
use std::fmt::Write;
use std::fs;
use std::path::{Path, PathBuf};

/// The files that are taken, by their path in carcara.
const FILES: [&str; 7] = [
    "src/ast/rc.rs",
    "src/ast/sort.rs",
    "src/ast/term.rs",
    "src/ast/substitution.rs",
    "src/ast/pool/mod.rs",
    "src/ast/pool/storage.rs",
    "src/utils.rs",
];

fn main() {
    println!("cargo::rerun-if-changed=build.rs");
    println!("cargo::rerun-if-env-changed=NAPSILO_CARCARA");
    let Ok(from) = env::var("NAPSILO_CARCARA") else {
        panic!("NAPSILO_CARCARA must name a folder with carcara's source (see rust/README.md)");
    };
    let from = PathBuf::from(from);
    let out = PathBuf::from(env::var("OUT_DIR").unwrap());
    for file in FILES {
        let source = find(&from, file);
        println!("cargo::rerun-if-changed={}", source.display());
        let target = out.join(file);
        fs::create_dir_all(target.parent().unwrap()).unwrap();
        let bytes = fs::read(&source).unwrap();
        fs::write(&target, bytes).unwrap();
    }
    let ast = ["rc", "sort", "term", "substitution"].map(|name| (name, format!("src/ast/{name}.rs")));
    let mut modules = String::new();
    for (name, file) in ast {
        module(&mut modules, "", name, &out.join(file));
    }
    module(&mut modules, "pub ", "pool", &out.join("src/ast/pool/mod.rs"));
    fs::write(out.join("ast_modules.rs"), modules).unwrap();
    let mut utils = String::new();
    module(&mut utils, "pub ", "utils", &out.join("src/utils.rs"));
    fs::write(out.join("root_modules.rs"), utils).unwrap();
    let term = fs::read_to_string(out.join("src/ast/term.rs")).unwrap();
    let mut lists = String::new();
    for (list, name) in [
        ("OPERATORS", "Operator"),
        ("INDEXED", "ParamOperator"),
        ("BINDERS", "Binder"),
        ("QUALIFIED", "QualifiedOperator"),
    ] {
        let cases = cases(&term, name);
        writeln!(lists, "/// The cases of `{name}` without a part, in its order.").unwrap();
        writeln!(lists, "pub const {list}: [{name}; {}] = [", cases.len()).unwrap();
        for case in cases {
            writeln!(lists, "    {name}::{case},").unwrap();
        }
        writeln!(lists, "];").unwrap();
    }
    fs::write(out.join("lists.rs"), lists).unwrap();
}

/// Where a file of carcara stands in the folder.
fn find(from: &Path, file: &str) -> PathBuf {
    let flat = format!("src--{}.txt", file.replace('/', "--"));
    [from.join(file), from.join("carcara").join(file), from.join(flat)]
        .into_iter()
        .find(|path| path.is_file())
        .unwrap_or_else(|| panic!("no {file} in the folder that NAPSILO_CARCARA names"))
}

/// Writes the lines that make a file a module. Most of carcara's functions have no caller here.
fn module(text: &mut String, visible: &str, name: &str, file: &Path) {
    writeln!(text, "#[allow(dead_code, clippy::all)]").unwrap();
    writeln!(text, "#[path = {:?}]", file.to_str().unwrap()).unwrap();
    writeln!(text, "{visible}mod {name};").unwrap();
}

/// The cases of an enum without a part, in order. Each stands on a line of its own.
fn cases<'a>(text: &'a str, name: &str) -> Vec<&'a str> {
    let head = format!("pub enum {name} {{");
    text.lines()
        .skip_while(|line| *line != head)
        .skip(1)
        .take_while(|line| *line != "}")
        .filter_map(|line| line.trim().strip_suffix(','))
        .filter(|case| !case.is_empty() && case.chars().all(|c| c.is_ascii_alphanumeric()))
        .collect()
}
