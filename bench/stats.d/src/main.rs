//! The plain program that `bench/stats` compares with: reads the rows of a table by `serde_json`, and with the word `grouped`
//! groups them by `indexmap`, a key and its count, its sum and its greatest number, and makes a row for each group.
use indexmap::IndexMap;
use serde_json::Value;

struct Totals {
    count: u64,
    sum: i128,
    greatest: Option<i64>,
}

fn grouped(keys: &[Option<String>], numbers: &[Option<i64>]) -> Vec<(Option<String>, u64, i128, Option<i64>)> {
    let mut groups: IndexMap<Option<String>, Totals> = IndexMap::new();
    for (key, number) in keys.iter().zip(numbers) {
        let totals = groups.entry(key.clone()).or_insert(Totals { count: 0, sum: 0, greatest: None });
        totals.count += 1;
        if let Some(number) = number {
            totals.sum = totals.sum.checked_add(i128::from(*number)).expect("a sum of 128 bits");
            totals.greatest = totals.greatest.max(Some(*number));
        }
    }
    groups.into_iter().map(|(key, totals)| (key, totals.count, totals.sum, totals.greatest)).collect()
}

fn main() {
    let mut words = std::env::args().skip(1);
    let file = words.next().expect("a file of rows");
    let is_grouped = words.next().as_deref() == Some("grouped");
    let bytes = std::fs::read(file).expect("the file is there");
    let (mut keys, mut numbers) = (vec![], vec![]);
    for line in bytes.split(|byte| *byte == b'\n').filter(|line| !line.is_empty()) {
        let row: Value = serde_json::from_slice(line).expect("the line is JSON");
        keys.push(row["name"].as_str().map(str::to_string));
        numbers.push(row["pay"].as_i64());
    }
    let rows = if is_grouped { grouped(&keys, &numbers).len() } else { 0 };
    println!("{rows}");
}
