//! A refusal for people: where, by which number, what it means, and the line.

use flascjuvan::{Reason, Refusal};

use crate::input::Text;
use crate::paint::Paint;
use crate::quote::quote;

/// `FILE:LINE:COLUMN: refused N: MEANING`, then the line with a caret under the place. A refusal
/// that is about the whole text has its start for a place, and no line is blamed.
pub fn shown(text: &Text, refusal: Refusal, paint: Paint) -> String {
    let meaning = meaning(&text.bytes, refusal);
    let head = head(text, refusal.place, refusal.reason, meaning, paint);
    if is_whole(refusal.reason) {
        return head;
    }
    head + &quote(&text.bytes, refusal.place, paint)
}

/// The same for a refusal whose own place is none of the text: by a place and in words that were
/// found for it.
pub fn shown_at(text: &Text, place: usize, reason: Reason, said: &str, paint: Paint) -> String {
    head(text, place, reason, said, paint) + &quote(&text.bytes, place, paint)
}

/// A text that the first edition reads and the second refuses: which of them read it, and what the
/// other says.
pub fn shown_of_second(text: &Text, refusal: Refusal, paint: Paint) -> String {
    let at = flascjuvan::line_column(&text.bytes, refusal.place);
    let place = paint.bold(&format!("{}:{at}:", text.name));
    let number = number(refusal.reason, paint);
    let said = format!("read by edition 1; by edition 2 {number} {}", refusal.meaning());
    format!("{place} {said}\n{}", quote(&text.bytes, refusal.place, paint))
}

fn head(text: &Text, place: usize, reason: Reason, said: &str, paint: Paint) -> String {
    let at = flascjuvan::line_column(&text.bytes, place);
    let place = paint.bold(&format!("{}:{at}:", text.name));
    format!("{place} {} {said}\n", number(reason, paint))
}

/// `refused N:`
pub fn number(reason: Reason, paint: Paint) -> String {
    paint.red(&format!("refused {}:", reason.number()))
}

/// Whether the place, 0, says nothing: it is about the whole text.
fn is_whole(reason: Reason) -> bool {
    matches!(reason, Reason::TooLong | Reason::NodesRoom | Reason::StoreRoom | Reason::RulesRoom)
}

/// What the number says of this text: the two cases of 4 are told apart.
fn meaning(bytes: &[u8], refusal: Refusal) -> &'static str {
    match refusal.reason {
        Reason::NotAllowed if refusal.place == bytes.len() => "the text ends too early",
        Reason::NotAllowed => "this token isn't allowed here",
        _ => refusal.meaning(),
    }
}
