//! `oracle histogram`: how often each answer comes up, by mark, in a file of answers or in the
//! lines of a replay.

use std::collections::BTreeMap;

/// A line for each mark and answer, with how often it came up; then one for each number in all.
pub fn histogram(lines: &str) -> String {
    let mut by_mark: BTreeMap<(&str, Answer), usize> = BTreeMap::new();
    let mut in_all: BTreeMap<Answer, usize> = BTreeMap::new();
    for line in lines.lines() {
        let words: Vec<&str> = line.split(' ').collect();
        // Headlines have two words only.
        if let [_, mark, answer, ..] = words[..] {
            let answer = Answer::of(answer);
            *by_mark.entry((mark, answer.clone())).or_default() += 1;
            *in_all.entry(answer).or_default() += 1;
        }
    }
    let mut text = String::new();
    for ((mark, answer), count) in by_mark {
        text += &format!("{mark} {answer:>4} {count:>9}\n");
    }
    for (answer, count) in in_all {
        text += &format!("all {answer:>3} {count:>9}\n");
    }
    text
}

/// Numbers in their own order, then words.
#[derive(Debug, Clone, PartialEq, Eq, PartialOrd, Ord)]
enum Answer {
    Number(u64),
    Word(String),
}

impl Answer {
    fn of(word: &str) -> Self {
        word.parse()
            .map_or_else(|_| Answer::Word(word.to_owned()), Answer::Number)
    }
}

impl std::fmt::Display for Answer {
    fn fmt(&self, f: &mut std::fmt::Formatter<'_>) -> std::fmt::Result {
        match self {
            Answer::Number(number) => f.pad(&number.to_string()),
            Answer::Word(word) => f.pad(word),
        }
    }
}
