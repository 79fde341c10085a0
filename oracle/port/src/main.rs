//! Reads cases from standard input and prints every answer of the port, in the oracle's lines. Each call is made
//! several times, in rooms of several lengths that hold noise; what is left in them is tested, and a line that ends
//! in `but ...` says what was wrong.
mod answers;
#[path = "../../program/case.rs"]
mod case;
mod lent;
mod offsets;

fn main() {
    case::print_answers("port", answers::answers);
}
