//! `dayomlak explain`.

use crate::cli::Explain;
use crate::failure::{self, Failure};
use crate::json::string;
use crate::{output, refusals, script};

pub fn explain(args: &Explain) -> Result<u8, Failure> {
    let Some(refusal) = refusals::by_number(args.number) else {
        let numbers: Vec<String> = refusals::TABLE
            .iter()
            .map(|r| r.number.to_string())
            .collect();
        let text = format!(
            "no refusal has the number {}\n  they are {}",
            args.number,
            numbers.join(", ")
        );
        return Err(Failure::Wrong(text));
    };
    if args.script.json {
        let fields = vec![
            ("number", refusal.number.to_string()),
            ("name", string(refusal.word)),
            ("given_when", string(refusal.given_when)),
            ("what_to_do", string(refusal.what_to_do)),
        ];
        script::print_alone("explain", fields)?;
        return Ok(failure::COMPLETED);
    }
    let text = format!(
        "{}, {}\n\nGiven when: {}\n\nWhat to do: {}\n",
        refusal.number, refusal.word, refusal.given_when, refusal.what_to_do
    );
    output::print(text.as_bytes())?;
    Ok(failure::COMPLETED)
}
