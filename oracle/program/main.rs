//! The oracle program: reads cases from standard input, prints every answer.
use open_hypergraphs::oracle::{answers::answers, case::print_answers};

fn main() {
    std::panic::set_hook(Box::new(|_| {})); // a panic is an answer, printed in its line
    print_answers("oracle", answers);
}
