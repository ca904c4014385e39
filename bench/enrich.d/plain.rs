//! The plain program that `bench/enrich` compares with: reads the keys of a table and the rows of another, each a line of texts with
//! tabs between, and with the word `enriched` finds for each key the teams of the rows that have it, by a map of std.
use std::collections::HashMap;

fn lines(file: &str) -> Vec<Vec<String>> {
    let text = std::fs::read_to_string(file).expect("the file is there");
    text.lines().map(|line| line.split('\t').map(str::to_string).collect()).collect()
}

fn enriched(rows: &[Vec<String>], members: &[Vec<String>]) -> Vec<Vec<String>> {
    let mut places: HashMap<&str, Vec<usize>> = HashMap::new();
    for (place, member) in members.iter().enumerate() {
        places.entry(&member[0]).or_default().push(place);
    }
    rows.iter()
        .map(|row| match places.get(row[0].as_str()) {
            Some(found) => found.iter().map(|place| members[*place][1].clone()).collect(),
            None => vec![],
        })
        .collect()
}

fn main() {
    let is_enriched = std::env::args().nth(1).as_deref() == Some("enriched");
    let (rows, members) = (lines("big.txt"), lines("members.txt"));
    let values: usize = if is_enriched { enriched(&rows, &members).iter().map(Vec::len).sum() } else { 0 };
    println!("{values}");
}
