//! The deepest stack of a line, beside the lent areas: `deepest [count] [seed]`.
//! It is measured on generated inputs and on a text for which reading calls itself
//! deepest, and is not to be more than 96 KB.

#[allow(dead_code)]
mod proved;
mod stack;

use generator::Generator;
use proved::{Areas, Question};
use stack::Stack;

const MOST: usize = 96 * 1024;

fn main() {
    let mut arguments = std::env::args().skip(1).map(|word| word.parse::<u64>().expect("a number"));
    let count = arguments.next().unwrap_or(2000);
    let seed = arguments.next().unwrap_or(1);
    let mut areas = Areas::enough();
    let mut stack = Stack::new();
    // Each message is read inside the one before it; the last is one too many.
    let messages = format!("A = {}A .", "?(string);".repeat(65));
    let [mut lent, mut own] = [[0, 0]; 2];
    let mut measure = |first: &[u8], second: &[u8]| {
        for (at, question) in [Question::Verdict, Question::Compatible].into_iter().enumerate() {
            lent[at] = lent[at].max(stack.of(&mut || {
                proved::line(question, first, second, &mut areas)
                    .expect("the areas are long enough");
            }));
            own[at] = own[at].max(stack.of(&mut || {
                proved::line_own(question, first, second, &mut areas.line)
                    .expect("the area is long enough");
            }));
        }
    };
    measure(b"A = end .", messages.as_bytes());
    let mut generator = Generator::new(seed);
    for _ in 0..count {
        let input = generator.next();
        measure(&input.first, &input.second);
    }
    println!(
        "stack of {count} inputs from seed {seed}, and of 65 messages, verdict and compatible:"
    );
    println!(
        "{} and {} bytes in lent areas, {} and {} in its own",
        lent[0], lent[1], own[0], own[1]
    );
    if lent[0].max(lent[1]) > MOST {
        println!("in lent areas that is more than {MOST}");
        std::process::exit(1);
    }
}
