//! `bench [PLAN..]`: times of the archive beside the plain engine, as tables in markdown. Answers are compared; times are only
//! printed. With names (B1 to B6, `deep` for the deep texts, `improve` for the plain engine's two ways to improve), only these.
//!
//! `bench against BEFORE NOW`: improve of two archives, given as shared objects.
use evidence::bench::against::{self, Opened};
use evidence::bench::calls::{improve_ways, measure, parts, read_times, Line};
use evidence::bench::deep::{deep_texts, PORTS};
use evidence::bench::growth::{larger, more_touched, ADD};
use evidence::bench::plans::{plans, Plan};
use evidence::bench::state::State;
use evidence::with_stack;

fn main() {
    let names: Vec<String> = std::env::args().skip(1).collect();
    with_stack(move || {
        if let [against, before, now] = &names[..] {
            if against == "against" {
                return print_against(Opened::of(before), Opened::of(now));
            }
        }
        let asked = |name: &str| names.is_empty() || names.iter().any(|asked| asked == name);
        if names.is_empty() {
            print_plans();
        }
        if plans().iter().any(|plan| asked(plan.name)) {
            print_calls(asked);
        }
        if asked("deep") {
            print_deep();
        }
        if asked("improve") {
            print_improve();
        }
        if names.is_empty() {
            print_growth("The plan grows, the touched cells do not", &larger());
            print_growth("The touched cells grow, the plan does not", &more_touched());
        }
    });
}

fn print_plans() {
    println!("| plan | u | sets | text bytes | nodes | cells | root |\n|---|---|---|---|---|---|---|");
    for plan in plans() {
        let (answer, state) = State::of(&plan);
        let (name, u, sets, bytes) = (plan.name, plan.u, plan.sets.len(), plan.text.len());
        println!("| {name} | {u} | {sets} | {bytes} | {} | {} | {} |", answer.nodes, answer.cells, state.cells[0]);
    }
}

fn print_calls(asked: impl Fn(&str) -> bool) {
    println!(
        "\n| plan | call | archive | plain | archive/plain | rows | rows/archive | recursion | recursion/archive | touched | changed |"
    );
    println!("|---|---|---|---|---|---|---|---|---|---|---|");
    for plan in plans().into_iter().filter(|plan| asked(plan.name)) {
        let state = State::of(&plan).1;
        measure(&plan, &state, &mut |line| print_call(plan.name, line));
    }
}

fn print_call(plan: &str, line: &Line) {
    let against = |again: f64| if again > 0.0 { format!("{} | {}", time(again), ratio(again / line.archive)) } else { " | ".to_string() };
    let count = |of: usize| if of > 0 { of.to_string() } else { String::new() };
    let times = format!("{} | {} | {}", time(line.archive), time(line.plain), ratio(line.archive / line.plain));
    let again = format!("{} | {}", against(line.by_rows), against(line.by_recursion));
    println!("| {plan} | {} | {times} | {again} | {} | {} |", line.call, count(line.touched), count(line.changed as usize));
}

/// The plain engine's reader recurses, as every evaluator here may: `with_stack` has room for it.
fn print_deep() {
    println!("\n| text read | bytes | answer | archive | plain | archive/plain |\n|---|---|---|---|---|---|");
    for deep in deep_texts() {
        let (answer, [archive, plain]) = read_times(PORTS, deep.text.as_bytes());
        let answer = answer.map_or_else(|number| format!("refused ({number})"), |a| format!("{} nodes", a.nodes));
        let times = format!("{} | {} | {}", time(archive), time(plain), ratio(archive / plain));
        println!("| {} | {} | {answer} | {times} |", deep.name, deep.text.len());
    }
}

fn print_improve() {
    println!("\n| plan | improve | candidates | plain: walks | shared | walks/shared | as chosen | walks/chosen |");
    println!("|---|---|---|---|---|---|---|---|");
    for plan in plans() {
        for w in improve_ways(&State::of(&plan).1) {
            let times = format!("{} | {} | {}", time(w.walks), time(w.shared), ratio(w.walks / w.shared));
            let chosen = format!("{} | {}", time(w.chosen), ratio(w.walks / w.chosen));
            println!("| {} | {} | {} | {times} | {chosen} |", plan.name, w.kinds, w.candidates);
        }
    }
}

fn print_against(before: Opened, now: Opened) {
    println!("| plan | improve | before | now | before/now |\n|---|---|---|---|---|");
    for plan in plans() {
        against::measure(before, now, &State::of(&plan).1, &mut |p| {
            println!("| {} | {} | {} | {} | {} |", plan.name, p.kinds, time(p.before), time(p.now), ratio(p.before / p.now));
        });
    }
}

fn print_growth(title: &str, plans: &[Plan]) {
    println!("\n{title}:\n");
    println!("| nodes | cells | touched | archive: move | refused (14) | the rest | rest by touched cell | plain: move | refused (14) | the rest |");
    println!("|---|---|---|---|---|---|---|---|---|---|");
    for plan in plans {
        let (answer, state) = State::of(plan);
        let parts = parts(&state, ADD);
        let (walk, plain_walk) = (parts.archive - parts.refused, parts.plain - parts.plain_refused);
        let sizes = format!("{} | {} | {}", answer.nodes, answer.cells, parts.touched);
        let times = [parts.archive, parts.refused, walk, walk / parts.touched as f64, parts.plain, parts.plain_refused, plain_walk];
        println!("| {sizes} | {} |", times.map(time).join(" | "));
    }
}

/// Nanoseconds in a unit that shows three digits.
fn time(ns: f64) -> String {
    let (value, unit) = match ns {
        _ if ns < 1e3 => (ns, "ns"),
        _ if ns < 1e6 => (ns / 1e3, "µs"),
        _ if ns < 1e9 => (ns / 1e6, "ms"),
        _ => (ns / 1e9, "s"),
    };
    let digits = if value < 10.0 { 2 } else { usize::from(value < 100.0) };
    format!("{value:.digits$} {unit}")
}

fn ratio(value: f64) -> String {
    if value < 100.0 {
        format!("{value:.2}")
    } else {
        format!("{value:.0}")
    }
}
