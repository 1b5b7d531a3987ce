//! Questions about the geometry as lines of text, one answer line each.

use crate::bits::hex;
use crate::functions::{all, Answer, Function};
use crate::inputs::{crossings, fill, Form};
use crate::random::Random;

/// Inputs that the questions are chosen from.
const INPUTS: u64 = 10_000_000;

/// The questions: half with special values crossed, half drawn.
pub fn questions(seed: u64) -> String {
    let mut random = Random::new(seed);
    let mut text = String::new();
    for function in all() {
        for number in 0..how_many(function.form) {
            text += &question(&function, number, &mut random);
            text += "\n";
        }
    }
    text
}

/// Fewer where a question is long.
fn how_many(form: Form) -> u64 {
    match form.floats() {
        1..=3 => 150,
        4..=8 => 110,
        _ => 85,
    }
}

/// Every third question is drawn again until it is not answered with no, and some until the Rust
/// departs, if it ever does.
fn question(function: &Function, number: u64, random: &mut Random) -> String {
    let crossed = crossings(function.form, INPUTS);
    let mut numbers = vec![0.0; function.form.floats()];
    let child = loop {
        let drawn = crossed + random.below(INPUTS - crossed);
        let input = if number % 2 == 0 { random.below(crossed) } else { drawn };
        let child = fill(function.form, input, INPUTS, &mut numbers);
        let wanted = match number % 9 {
            0 | 3 | 6 => function.answer(&numbers, child) != Answer::Yes(false),
            1 => function.departure.is_none() || function.departs(&numbers).is_some(),
            _ => true,
        };
        if wanted {
            break child;
        }
    };
    let mut fields = vec![function.word.to_string()];
    fields.extend(numbers.iter().map(|x| hex(*x)));
    if function.form.children() > 1 {
        fields.push(child.to_string());
    }
    fields.join(",")
}

/// The answers to questions; a line that is no question stops with its text.
pub fn answers(questions: &str) -> Result<String, String> {
    let functions = all();
    questions.lines().map(|line| answer(&functions, line)).collect()
}

fn answer(functions: &[Function], line: &str) -> Result<String, String> {
    let no_question = || format!("not a question: {line}");
    let mut fields = line.split(',');
    let word = fields.next().ok_or_else(no_question)?;
    let function = functions.iter().find(|f| f.word == word).ok_or_else(no_question)?;
    let mut numbers = Vec::new();
    for field in fields.by_ref().take(function.form.floats()) {
        let bits = u64::from_str_radix(field, 16).map_err(|_| no_question())?;
        numbers.push(f64::from_bits(bits));
    }
    let child = fields.next().map_or(Ok(0), str::parse).map_err(|_| no_question())?;
    Ok(format!("{}\n", function.answer(&numbers, child)))
}
