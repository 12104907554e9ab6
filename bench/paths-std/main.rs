//! The same as crates/rows_runs/src/timing/paths.rt over Rust's `std::path`.
use std::cmp::Ordering;
use std::path::{Component, Path, PathBuf};

/// The rewrites of `clean`, by hand.
fn clean(path: &Path) -> PathBuf {
    let mut kept = Vec::new();
    for component in path.components() {
        match component {
            Component::CurDir => {}
            Component::ParentDir => match kept.last() {
                Some(Component::Normal(_)) => {
                    kept.pop();
                }
                Some(Component::RootDir) => {}
                _ => kept.push(component),
            },
            _ => kept.push(component),
        }
    }
    if kept.is_empty() {
        return PathBuf::from(".");
    }
    kept.iter().collect()
}

fn size(call: &str, path: &Path, other: &Path) -> usize {
    match call {
        "components" => path.components().map(|component| component.as_os_str().len()).sum(),
        "join" => path.join(other).as_os_str().len(),
        "parent" => path.parent().map_or(0, |parent| parent.as_os_str().len()),
        "clean" => clean(path).as_os_str().len(),
        _ => match path.cmp(other) {
            Ordering::Less => 0,
            Ordering::Equal => 1,
            Ordering::Greater => 2,
        },
    }
}

fn main() {
    let words: Vec<String> = std::env::args().collect();
    let rounds: u64 = words[2].parse().unwrap();
    let file = std::fs::read_to_string(&words[3]).unwrap();
    let texts: Vec<&str> = file.split('\u{1F}').collect();
    let mut sum = 0;
    for _ in 0..rounds {
        for pair in texts.windows(2) {
            sum += size(words[1].as_str(), Path::new(pair[1]), Path::new(pair[0]));
        }
    }
    println!("{sum}");
}
