//! The vectors of tokens as they arrive: each answer that isn't by hand is this program's.

const QUESTIONS: &str = include_str!("../../../crates/stream_run/stdin");
const ANSWERS: &str = include_str!("../../../crates/stream_run/stdout");

#[test]
fn answers() {
    assert_eq!(QUESTIONS.lines().count(), ANSWERS.lines().count());
    let mut wrong = Vec::new();
    for (question, line) in QUESTIONS.lines().zip(ANSWERS.lines()) {
        let Some(answers) = second::calls::answers(question) else { continue };
        let due = format!("{question} ={answers}");
        if line != due {
            wrong.push(format!("{line}\n  for {due}"));
        }
    }
    assert!(wrong.is_empty(), "{} are others:\n{}", wrong.len(), wrong.join("\n"));
}
