//! prepare SRC ORACLE OUT: makes the folder OUT, in which the original's parser can be compiled.
//!
//! SRC holds the original sources (src/compiler, src/utils), ORACLE is this folder. The original's files are copied. parser.rs is there
//! twice: as bare.rs with nothing but the way in, and changed by the named patches of patches.rs and the numbering of branches.rs.

mod branches;
mod edits;
mod patches;
mod tokens;

use std::{env, error::Error, fs, path::Path};

const UNCHANGED: [&str; 4] = ["compiler/error.rs", "compiler/lexer.rs", "compiler/token.rs", "utils/locatable.rs"];

const TREE: [&str; 14] = [
    "assign", "block", "effect", "expr", "function", "ident", "import", "lit", "member", "operator", "params", "pattern",
    "program", "ty",
];

/// Shims of this folder and where they go; the harness goes beside them as it is.
const SHIMS: [(&str, &str); 6] = [
    ("compiler", "compiler/mod"),
    ("ast", "compiler/ast/mod"),
    ("interning", "compiler/interning"),
    ("value", "compiler/value"),
    ("index", "compiler/index"),
    ("utils", "utils/mod"),
];

fn put(from: &Path, to: &Path) -> Result<(), Box<dyn Error>> {
    fs::write(to, fs::read(from).map_err(|e| format!("{}: {e}", from.display()))?)?;
    Ok(())
}

fn main() -> Result<(), Box<dyn Error>> {
    let words: Vec<String> = env::args().collect();
    let [_, source, oracle, out] = words.as_slice() else {
        return Err("prepare SRC ORACLE OUT".into());
    };
    let (source, oracle, out) = (Path::new(source).join("src"), Path::new(oracle), Path::new(out));
    fs::create_dir_all(out.join("compiler/ast"))?;
    fs::create_dir_all(out.join("utils"))?;
    for name in UNCHANGED {
        put(&source.join(name), &out.join(name))?;
    }
    for name in TREE {
        let name = format!("compiler/ast/{name}.rs");
        put(&source.join(&name), &out.join(&name))?;
    }
    for (from, to) in SHIMS {
        put(&oracle.join(format!("shims/modules/{from}.rs")), &out.join(format!("{to}.rs")))?;
    }
    for entry in fs::read_dir(oracle.join("harness"))? {
        let entry = entry?;
        put(&entry.path(), &out.join(entry.file_name()))?;
    }
    let original = fs::read_to_string(source.join("compiler/parser.rs"))?;
    let tokens = tokens::cut(&original);
    let mut edits = patches::edits(&original, &tokens)?;
    let sites = branches::edits(&original, &tokens, &mut edits);
    fs::write(out.join("compiler/bare.rs"), original.clone() + patches::WAY_IN)?;
    fs::write(out.join("compiler/parser.rs"), edits::apply(&original, edits) + patches::WAY_IN + patches::SCOPE)?;
    fs::write(out.join("sites.rs"), branches::table(&sites))?;
    Ok(())
}
