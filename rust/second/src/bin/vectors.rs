//! Writes the answers of vectors of tokens as they arrive: `vectors FOLDER` makes FOLDER/stdout from
//! FOLDER/stdin. Lines that give a state in numbers are answered by hand, and stay as they stand in
//! FOLDER/stdout.

use std::fs;

fn main() {
    let folder = std::env::args().nth(1).expect("a folder");
    let file = |name: &str| format!("{folder}/{name}");
    let questions = fs::read_to_string(file("stdin")).expect("vectors");
    let old = fs::read_to_string(file("stdout")).unwrap_or_default();
    let answered = |question: &str| match second::calls::answers(question) {
        Some(answers) => format!("{question} ={answers}\n"),
        None => {
            let begin = format!("{question} =");
            let line = old.lines().find(|line| line.starts_with(&begin));
            format!("{}\n", line.unwrap_or_else(|| panic!("no answer by hand: {question}")))
        }
    };
    let answers: String = questions.lines().map(answered).collect();
    fs::write(file("stdout"), answers).expect("written");
}
