//! Prints the calls whose stack is measured, a line each, for `painted.c` to make.

fn main() {
    for case in measure::deep::deep() {
        println!("{}", measure::deep::line(&case));
    }
}
