//! The modules stand in layers: README.md has them from the ground up, and each uses only modules
//! of the lines above its own. So there is no circle.

use std::collections::BTreeMap;
use std::fs;
use std::path::Path;

/// Each module by its path, `gen::sets`, with its source.
type Sources = BTreeMap<String, String>;

fn sources(folder: &Path, within: &str, found: &mut Sources) {
    for entry in fs::read_dir(folder).expect("a folder") {
        let path = entry.expect("an entry").path();
        let name = path.file_stem().and_then(|stem| stem.to_str()).expect("a name");
        if path.is_dir() {
            sources(&path, &format!("{within}{name}::"), found);
        } else if !["lib", "main"].contains(&name) {
            found.insert(format!("{within}{name}"), fs::read_to_string(&path).expect("text"));
        }
    }
}

/// The paths that a source names: of `crate::a::{b, c}` both, `super::` from where the module stands.
fn named(module: &str, source: &str) -> Vec<String> {
    let parent =
        module.rsplit_once("::").map_or(String::new(), |(parent, _)| format!("{parent}::"));
    let mut paths = vec![];
    for (word, within) in [("crate::", ""), ("super::", &parent), ("mod ", &format!("{module}::"))]
    {
        for (at, _) in source.match_indices(word) {
            let rest = &source[at + word.len()..];
            let plain = |c: char| c.is_alphanumeric() || "_:".contains(c);
            let (path, behind) = rest.split_at(rest.find(|c| !plain(c)).unwrap_or(rest.len()));
            let braces = behind.strip_prefix('{').and_then(|names| names.split_once('}'));
            let names = braces.map_or("", |(names, _)| names);
            paths.extend(names.split(',').map(|name| format!("{within}{path}{}", name.trim())));
        }
    }
    paths
}

/// The modules that each uses: the longest beginning of a path that is a module.
fn uses(sources: &Sources) -> BTreeMap<&str, Vec<&str>> {
    let is_within = |path: &str, module: &str| {
        path.strip_prefix(module).is_some_and(|rest| rest.is_empty() || rest.starts_with("::"))
    };
    let meant = |path: &String| {
        let modules = sources.keys().filter(|module| is_within(path, module));
        modules.max_by_key(|module| module.len()).map(String::as_str)
    };
    let of = |(module, source): (&'_ String, &String)| -> Vec<&str> {
        let used = named(module, source);
        used.iter().filter_map(meant).filter(|used| used != module).collect()
    };
    sources.iter().map(|pair| (pair.0.as_str(), of(pair))).collect()
}

/// What stands out of its order, by the lines of modules from the ground up.
fn out_of_order(sources: &Sources, lines: &[Vec<&str>]) -> Vec<String> {
    let layer = |module: &str| lines.iter().position(|line| line.contains(&module));
    let mut faults = vec![];
    for (module, used) in uses(sources) {
        let Some(own) = layer(module) else {
            faults.push(format!("{module} stands in no layer"));
            continue;
        };
        let above = used.iter().filter(|used| layer(used) >= Some(own));
        faults.extend(above.map(|used| format!("{module} uses {used}")));
    }
    faults
}

#[test]
fn no_module_uses_one_of_its_own_layer_or_above() {
    let folder = Path::new(env!("CARGO_MANIFEST_DIR"));
    let mut found = Sources::new();
    sources(&folder.join("src"), "", &mut found);
    let readme = fs::read_to_string(folder.join("README.md")).expect("text");
    let (_, part) = readme.split_once("## The modules\n").expect("the list");
    let block = part.lines().skip_while(|line| !line.starts_with("    "));
    let block = block.take_while(|line| line.starts_with("    "));
    let lines: Vec<Vec<&str>> = block.map(|line| line.split_whitespace().collect()).collect();
    assert_eq!(lines.concat().len(), found.len(), "README.md names each module once");
    assert_eq!(out_of_order(&found, &lines), Vec::<String>::new());
}

#[test]
fn a_circle_is_seen() {
    let rows = [("a", "use crate::b::{self, C};"), ("b", "pub mod c;"), ("b::c", "use super::D;")];
    let found = rows.map(|(module, source)| (module.to_string(), source.to_string())).into();
    assert_eq!(out_of_order(&found, &[vec!["b::c"], vec!["b"], vec!["a"]]), ["b::c uses b"]);
    assert_eq!(
        out_of_order(&found, &[vec!["b"], vec!["b::c"]]),
        ["a stands in no layer", "b uses b::c"]
    );
}
