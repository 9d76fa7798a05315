//! Real frames: the files of a folder, each split by frmsiz.
use crate::numbered::bits;

/// Each frame with the name of its file.
pub fn frames(folder: &str) -> Vec<(String, Vec<u8>)> {
    let mut files: Vec<_> = std::fs::read_dir(folder).expect("the folder of frames").map(|f| f.unwrap().path()).collect();
    files.retain(|f| f.extension().is_some_and(|e| e == "eac3"));
    files.sort();
    let mut frames = Vec::new();
    for file in files {
        let all = std::fs::read(&file).unwrap();
        let mut at = 0;
        while at + 6 <= all.len() {
            let bytes = 2 * (bits(&all[at..], 21, 11) as usize + 1);
            frames.push((file.file_stem().unwrap().to_string_lossy().into_owned(), all[at..(at + bytes).min(all.len())].to_vec()));
            at += bytes;
        }
    }
    frames
}
