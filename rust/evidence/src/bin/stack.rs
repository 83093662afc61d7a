//! `stack [--all]`: how many bytes of stack each exported call takes at most and by which input, as a table in markdown. With `--all`,
//! a row for every call that was measured. Fails if a call takes more than the goal allows.
use std::process::ExitCode;

use evidence::stack::calls::NAMES;
use evidence::stack::paint::on_painted_stack;
use evidence::stack::{inputs, measure, Line, MOST_STACK};

fn main() -> ExitCode {
    let lines: Vec<Line> = on_painted_stack(|stack| inputs().flat_map(|input| measure(stack, input)).collect());
    if std::env::args().any(|word| word == "--all") {
        print_all(&lines);
    }
    let above = print_worst(&lines);
    above.iter().for_each(|name| println!("above {MOST_STACK} bytes: {name}"));
    ExitCode::from(u8::from(!above.is_empty()))
}

/// A name in a table, where a bar would end its column.
fn shown(input: &str) -> String {
    input.replace('|', "\\|")
}

fn print_all(lines: &[Line]) {
    println!("| input | call | number | bytes |\n|---|---|---|---|");
    for line in lines {
        println!("| {} | {} | {} | {} |", shown(&line.input), line.call, line.number, line.bytes);
    }
    println!();
}

/// Prints the worst of each call and hands back the names of those that are above the goal.
fn print_worst(lines: &[Line]) -> Vec<&'static str> {
    println!("| call | calls measured | most bytes | number | input |\n|---|---|---|---|---|");
    let mut above = Vec::new();
    for name in NAMES {
        let of_name = || lines.iter().filter(|line| line.call.name() == name);
        let worst = of_name().max_by_key(|line| line.bytes).expect("every call is measured");
        println!("| {} | {} | {} | {} | {} |", worst.call, of_name().count(), worst.bytes, worst.number, shown(&worst.input));
        if worst.bytes > MOST_STACK {
            above.push(name);
        }
    }
    above
}
