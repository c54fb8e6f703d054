//! The gate's list of cases, answered by this crate's calls and compared line by line.
mod replay;

use std::{collections::BTreeMap, fs, path::Path};

fn read(name: &str) -> Vec<u8> {
    let path = Path::new(env!("CARGO_MANIFEST_DIR"))
        .join("../../crates/cases")
        .join(name);
    fs::read(&path).unwrap_or_else(|why| panic!("{}: {why}", path.display()))
}

/// Lines without their ends; the last one has an end too.
fn lines(text: &[u8]) -> Vec<&[u8]> {
    let whole = text.strip_suffix(b"\n").expect("the last line ends");
    whole.split(|&b| b == b'\n').collect()
}

fn shown(bytes: &[u8]) -> String {
    String::from_utf8_lossy(&bytes[..bytes.len().min(200)]).into_owned()
}

#[test]
fn every_recorded_case_has_its_answer() {
    let (asked, told) = (read("stdin"), read("stdout"));
    let (asked, told) = (lines(&asked), lines(&told));
    assert_eq!(
        asked.len(),
        told.len(),
        "a line of answers for each of cases"
    );
    let mut replay = replay::Replay::default();
    let mut words = BTreeMap::<String, usize>::new();
    let mut wrong = vec![];
    for (n, (line, right)) in asked.iter().zip(told).enumerate() {
        if line.is_empty() || line[0] == b'#' {
            assert_eq!(*line, right, "line {}: a title answers itself", n + 1);
            continue;
        }
        let word = line.split(|&b| b == b'\t').next().unwrap_or_default();
        *words.entry(shown(word)).or_default() += 1;
        let answer = replay.answer(line);
        if answer.as_bytes() != right {
            let (line, answer) = (shown(line), shown(answer.as_bytes()));
            wrong.push(format!(
                "line {}: {line}\n  {answer}\n  instead of {}",
                n + 1,
                shown(right)
            ));
        }
    }
    let cases: usize = words.values().sum();
    println!("{cases} recorded cases: {words:?}");
    assert!(
        wrong.is_empty(),
        "{} of {cases} cases have another answer\n{}",
        wrong.len(),
        wrong[..wrong.len().min(10)].join("\n")
    );
    // a list that lost its words would pass too easily
    assert_eq!(words.len(), replay::WORDS, "words of the list");
}
