//! A table of the same rows, printed by the crate `csv`: a line a measurement.
use std::time::Instant;

enum Value {
    Int(i32),
    Long(i64),
    Text(String),
}

type Cell = Vec<Value>;

fn row(number: i64) -> Vec<Cell> {
    let tags = if number % 10 == 0 {
        vec![Value::Text("a".into()), Value::Text("b, c".into())]
    } else if number % 10 == 1 {
        vec![]
    } else {
        vec![Value::Text("plain".into())]
    };
    vec![
        vec![Value::Long(number)],
        vec![Value::Text(format!("name {number}"))],
        vec![Value::Int((number * 7919 % 100000) as i32)],
        tags,
    ]
}

fn push_value(out: &mut String, value: &Value) {
    use std::fmt::Write;
    match value {
        Value::Int(number) => write!(out, "{number}").unwrap(),
        Value::Long(number) => write!(out, "{number}").unwrap(),
        Value::Text(text) => out.push_str(text),
    }
}

fn push_cell(out: &mut String, cell: &Cell) {
    match cell.as_slice() {
        [] => {}
        [value] => push_value(out, value),
        values => {
            out.push('[');
            for (place, value) in values.iter().enumerate() {
                if place > 0 {
                    out.push_str(", ");
                }
                push_value(out, value);
            }
            out.push(']');
        }
    }
}

fn csv(names: &[&str], rows: &[Vec<Cell>]) -> Vec<u8> {
    let mut writer = csv::Writer::from_writer(Vec::new());
    writer.write_record(names).unwrap();
    let mut scratch = String::new();
    for row in rows {
        for cell in row {
            scratch.clear();
            push_cell(&mut scratch, cell);
            writer.write_field(&scratch).unwrap();
        }
        writer.write_record(None::<&[u8]>).unwrap();
    }
    writer.into_inner().unwrap()
}

fn main() {
    let rounds: usize = std::env::args().nth(1).map_or(5, |word| word.parse().unwrap());
    for count in [100_000, 1_000_000] {
        let rows: Vec<Vec<Cell>> = (1..=count).map(row).collect();
        let (mut least, mut bytes) = (u128::MAX, 0);
        for _ in 0..rounds {
            let start = Instant::now();
            bytes = csv(&["id", "name", "pay", "tags"], &rows).len();
            least = least.min(start.elapsed().as_nanos());
        }
        println!("csv;{count};{least};{bytes}");
    }
}
