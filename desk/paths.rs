// The files of a directory.

use std::path::PathBuf;

// The paths of a directory that have one of these endings, in order.
pub fn paths(directory: &str, extensions: &[&str]) -> std::io::Result<Vec<PathBuf>> {
    let entries: Result<Vec<_>, _> = std::fs::read_dir(directory)?.collect();
    let mut paths: Vec<PathBuf> = entries?.iter().map(|entry| entry.path()).collect();
    paths.retain(|path| {
        let extension = path.extension().unwrap_or_default();
        extensions.iter().any(|&wanted| extension == wanted)
    });
    paths.sort();
    Ok(paths)
}
