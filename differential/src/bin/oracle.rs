//! Answers a case text from standard input as the original does.

use differential::original::Original;
use differential::session::answer;
use std::io::{read_to_string, stdin};

fn main() {
    let text = read_to_string(stdin()).expect("the case text");
    print!("{}", answer(Original::default(), &text));
}
