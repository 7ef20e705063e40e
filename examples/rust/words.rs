//! Counts the words of its input, in a box: nc-rustc -O words.rs -o words && nc-run words < TEXT
#![no_std]
#![no_main]
use nc::alloc::{collections::BTreeMap, string::String, vec::Vec};

nc::entry!(main);

fn main() -> i32 {
    let (mut text, mut room) = (Vec::new(), [0; 4096]);
    while let Some(count @ 1..) = nc::File(0).read(&mut room) {
        text.extend_from_slice(&room[..count]);
    }
    let text = String::from_utf8_lossy(&text);
    let mut counts: BTreeMap<String, u32> = BTreeMap::new();
    for word in text.split(|letter: char| !letter.is_alphanumeric()).filter(|word| !word.is_empty()) {
        *counts.entry(word.to_lowercase()).or_default() += 1;
    }
    let mut rows: Vec<(&String, &u32)> = counts.iter().collect();
    rows.sort_by(|a, b| b.1.cmp(a.1));
    for (word, count) in rows.iter().take(5) {
        nc::println!("{count:4} {word}");
    }
    nc::println!("{:4} words, of {:.2} letters", text.split_whitespace().count(), mean(&counts));
    0
}

fn mean(counts: &BTreeMap<String, u32>) -> f64 {
    let (letters, words) = counts
        .iter()
        .fold((0, 0), |sums, (word, &count)| (sums.0 + word.chars().count() as u32 * count, sums.1 + count));
    f64::from(letters) / f64::from(words.max(1))
}
