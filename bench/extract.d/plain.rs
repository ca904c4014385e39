//! The same lines, cut by the crate `regex` and by `str::find`: a line a measurement.
use regex::Regex;
use std::hint::black_box;
use std::time::Instant;

const EXPANDED: &str = "(?P<f0>(?:(?:[0-9]{1,3}\\.){3}[0-9]{1,3})|(?:\\b[0-9A-Za-z][0-9A-Za-z-]*(?:\\.[0-9A-Za-z][0-9A-Za-z-]*)*\\b)) (?P<f1>[a-zA-Z0-9._-]+) \\[(?P<f2>(?:[0-9]{4})-(?:[0-9]{2})-(?:[0-9]{2})[T ](?:[0-9]{2}):(?:[0-9]{2})(?::(?:[0-9]{2}(?:[.,][0-9]+)?))?(?:Z|[+-][0-9]{2}:?[0-9]{2})?)\\] (?P<f3>\"(?:[^\"\\\\]|\\\\.)*\") (?P<f4>[+-]?[0-9]+) (?P<f5>[+-]?[0-9]+)";

const DELIMITERS: [&str; 7] = [" ", " [", "] \"", " ", " ", "\" ", " "];

fn line(place: u64) -> String {
    let number = |step: u64, bound: u64| place.wrapping_mul(step) % bound;
    let (host, user) = (number(7919, 256), number(104729, 5000));
    let (minute, second) = (number(31, 50) + 10, number(37, 50) + 10);
    let (item, bytes) = (number(15485863, 100000), number(32452843, 1000000));
    format!("192.168.7.{host} user{user} [2024-10-11T14:{minute}:{second}.123Z] \"GET /items/{item}/pictures?page=3 HTTP/1.1\" 200 {bytes}")
}

fn captured<'t>(regex: &Regex, line: &'t str) -> Option<Vec<&'t str>> {
    let found = regex.captures(line)?;
    Some((1..7).filter_map(|group| found.get(group)).map(|text| text.as_str()).collect())
}

fn captured_owned(regex: &Regex, line: &str) -> Option<Vec<Vec<String>>> {
    let found = regex.captures(line)?;
    Some((1..7).map(|group| found.get(group).iter().map(|text| text.as_str().to_string()).collect()).collect())
}

fn found<'t>(delimiters: &[&str], line: &'t str) -> Option<Vec<&'t str>> {
    let mut texts = Vec::with_capacity(delimiters.len() + 1);
    let mut left = line;
    for delimiter in delimiters {
        let place = left.find(delimiter)?;
        texts.push(&left[..place]);
        left = &left[place + delimiter.len()..];
    }
    texts.push(left);
    Some(texts)
}

fn found_owned(delimiters: &[&str], line: &str) -> Option<Vec<String>> {
    let mut texts = Vec::with_capacity(delimiters.len() + 1);
    let mut left = line;
    for delimiter in delimiters {
        let place = left.find(delimiter)?;
        texts.push(left[..place].to_string());
        left = &left[place + delimiter.len()..];
    }
    texts.push(left.to_string());
    Some(texts)
}

fn bytes<T: AsRef<str>>(texts: &[T]) -> u64 {
    texts.iter().map(|text| text.as_ref().len() as u64).sum()
}

fn report(name: &str, rounds: usize, lines: &[String], work: impl Fn(&str) -> u64) {
    let (mut least, mut sum) = (u128::MAX, 0);
    for _ in 0..rounds {
        let start = Instant::now();
        sum = black_box(lines).iter().map(|line| work(line)).sum();
        least = least.min(start.elapsed().as_nanos());
    }
    println!("{name};{};{least};{sum}", lines.len());
}

fn main() {
    let rounds: usize = std::env::args().nth(1).map_or(5, |word| word.parse().unwrap());
    let regex = Regex::new(EXPANDED).unwrap();
    for count in [10_000, 100_000] {
        let lines: Vec<String> = (0..count).map(line).collect();
        report("crate regex", rounds, &lines, |line| captured(&regex, line).map_or(0, |texts| bytes(&texts)));
        report("crate regex, owned", rounds, &lines, |line| captured_owned(&regex, line).map_or(0, |lists| lists.iter().map(|texts| bytes(texts)).sum()));
        report("find", rounds, &lines, |line| found(black_box(&DELIMITERS), line).map_or(0, |texts| bytes(&texts)));
        report("find, owned", rounds, &lines, |line| found_owned(black_box(&DELIMITERS), line).map_or(0, |texts| bytes(&texts)));
    }
}
