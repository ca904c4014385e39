//! The plain program that `bench/load` compares with: reads the rows of a table into one vector for each column.
use serde_json::Value;

fn main() {
    let file = std::env::args().nth(1).expect("a file of rows");
    let bytes = std::fs::read(file).expect("the file is there");
    let (mut ids, mut depts, mut pays, mut actives, mut tags) = (vec![], vec![], vec![], vec![], vec![]);
    for line in bytes.split(|byte| *byte == b'\n').filter(|line| !line.is_empty()) {
        let row: Value = serde_json::from_slice(line).expect("the line is JSON");
        ids.push(row["id"].as_i64());
        depts.push(row["dept"].as_str().map(str::to_string));
        pays.push(row["pay"].as_i64());
        actives.push(row["active"].as_bool());
        tags.push(row["tags"].as_array().map(|tags| tags.iter().filter_map(Value::as_str).map(str::to_string).collect::<Vec<_>>()));
    }
    println!("{} rows, {} {} {} {}", ids.len(), depts.len(), pays.len(), actives.len(), tags.len());
}
