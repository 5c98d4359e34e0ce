//! Answers a case text from standard input as document 01 says.

use differential::document::Document;
use differential::language::Network;
use differential::session::answer;
use std::io::{read_to_string, stdin};

fn main() {
    let text = read_to_string(stdin()).expect("the case text");
    print!("{}", answer(Document::new(&Network::default()), &text));
}
