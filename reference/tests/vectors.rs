//! Every line of the repository's tests/vectors: both checks, all runs, all engines.

mod support;

use support::{checked, Call};

fn lines(file: &str) -> Vec<String> {
    let path = format!("{}/../tests/vectors/{file}", env!("CARGO_MANIFEST_DIR"));
    let text = std::fs::read_to_string(path).expect("a vector file");
    text.lines().filter(|line| !line.starts_with('#')).map(String::from).collect()
}

fn bytes(hex: &str) -> Vec<u8> {
    let hex = if hex == "-" { "" } else { hex };
    let byte = |at: usize| u8::from_str_radix(&hex[at..at + 2], 16).unwrap();
    (0..hex.len()).step_by(2).map(byte).collect()
}

fn words(list: &str) -> Vec<i32> {
    let list = if list == "." { "" } else { list };
    list.split(',').filter(|word| !word.is_empty()).map(|word| word.parse().unwrap()).collect()
}

#[test]
fn checks_agree() {
    let lines = lines("checks.txt");
    for (number, line) in lines.iter().enumerate() {
        let (script, verdict) = line.split_once(" | ").unwrap();
        let (number_at, offset) = checked(&bytes(script));
        assert_eq!(format!("{number_at} {offset}"), verdict, "check {}", number + 1);
    }
    println!("{} checks agree", lines.len());
    assert_eq!(lines.len(), 1_360);
}

#[test]
fn runs_agree() {
    let lines = lines("runs.txt");
    for (number, line) in lines.iter().enumerate() {
        let (fed, given) = line.split_once(" | ").unwrap();
        assert_eq!(given, replied(fed), "run {}", number + 1);
    }
    println!("{} runs agree", lines.len());
    assert_eq!(lines.len(), 530);
}

fn replied(fed: &str) -> String {
    let fed: Vec<&str> = fed.split(' ').collect();
    let call = Call {
        script: bytes(fed[0]),
        d: fed[1].parse().unwrap(),
        n: fed[2].parse().unwrap(),
        g: fed[3].parse().unwrap(),
        tally: fed[4].parse().unwrap(),
        count: fed[5].parse().unwrap(),
        name: fed[6].parse().unwrap(),
        table: words(fed[7]),
        groups: Some(words(fed[8])),
        sheet: 35 * fed[1].parse::<usize>().unwrap().min(256),
    };
    let reply = call.run();
    let answer = reply.answer;
    let end = ["finished", "spent", "stopped", "refused"][answer.words()[0] as usize];
    format!(
        "{end} {} {} {} {} {} {} {} {} {} {}",
        answer.number(),
        answer.steps,
        answer.offset,
        answer.pairs,
        answer.tally,
        answer.designator,
        answer.links,
        list(reply.sheet_words()),
        list(&reply.table),
        list(&reply.groups),
    )
}

fn list(words: &[i32]) -> String {
    if words.is_empty() {
        return ".".into();
    }
    words.iter().map(i32::to_string).collect::<Vec<_>>().join(",")
}
