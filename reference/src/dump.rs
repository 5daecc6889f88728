//! A program written down for people to read.

use crate::harmony::{Harmony, Wish};
use crate::measure::Pitch;
use crate::state::{Call, Change, PeriodChange, Position};
use crate::text::tree::{Called, Declared, LogicForm, Target, Trigger};
use crate::text::Program;
use std::fmt::{Display, Write};

/// One line for each declaration and each order.
pub fn readable(program: &Program) -> String {
    let mut lines = String::new();
    let tree = &program.declared;
    let mut line = |kind: &str, name: &str, value: String| {
        // Writing to a string can't fail.
        let _ = writeln!(lines, "{kind} {name} = {value}");
    };
    for (declared, value) in tree.intervals.iter().zip(&program.intervals) {
        line("interval", &declared.name.text, value.0.to_string());
    }
    for (declared, value) in tree.tones.iter().zip(&program.tones) {
        line("tone", &declared.name.text, value.0.to_string());
    }
    for (declared, call) in tree.systems.iter().zip(&program.systems) {
        line("tone system", &declared.name.text, readable_call(call));
    }
    for (declared, call) in tree.retunings.iter().zip(&program.retunings) {
        let placeholders = declared.form.placeholders.iter().map(|name| &name.text);
        let name = declared.name.text.clone() + &in_brackets(placeholders);
        line("retuning", &name, readable_call(call));
    }
    for harmony in &tree.harmonies {
        line("harmony", &harmony.name.text, readable_harmony(&harmony.form));
    }
    for logic in &tree.logics {
        line("logic", &logic.name.text, readable_logic(program, logic));
    }
    lines
}

/// Nothing where there is none of these.
fn in_brackets(items: impl Iterator<Item = impl ToString>) -> String {
    let items: Vec<_> = items.map(|item| item.to_string()).collect();
    if items.is_empty() {
        return String::new();
    }
    format!(" ({})", items.join(", "))
}

fn readable_call<N: Display>(call: &Call<N>) -> String {
    match call {
        Call::Anchor(change) => format!("anchor {}", readable_change(change)),
        Call::Width(change) => format!("width {}", readable_change(change)),
        Call::Period(PeriodChange::To(period)) => format!("period {}", period.0),
        Call::Period(PeriodChange::By(by)) => format!("period @{:+}", by.0),
        Call::Tones(positions) => {
            let positions: Vec<_> = positions.iter().map(readable_position).collect();
            format!("tones [{}]", positions.join(", "))
        }
        Call::System(system) => {
            let tones: Vec<_> = system.tones.iter().map(readable_tone).collect();
            let (anchor, period) = (system.anchor, system.period.0);
            format!("anchor {anchor}, tones [{}], period {period}", tones.join(", "))
        }
    }
}

fn readable_change<N: Display>(change: &Change<N>) -> String {
    match change {
        Change::To(n) => n.to_string(),
        Change::Kept => "@".to_string(),
        Change::Plus(n) => format!("@+{n}"),
        Change::Minus(n) => format!("@-{n}"),
        Change::Times(n) => format!("@*{n}"),
        Change::Over(n) => format!("@/{n}"),
    }
}

fn readable_position(position: &Position) -> String {
    match position {
        Position::Muted => readable_tone(&None),
        Position::At(pitch) => readable_tone(&Some(*pitch)),
        Position::By(by) => format!("@{:+}", by.0),
    }
}

fn readable_tone(tone: &Option<Pitch>) -> String {
    tone.map_or("muted".to_string(), |pitch| pitch.0.to_string())
}

fn readable_harmony(harmony: &Harmony) -> String {
    let key = |key: usize| match harmony.wish(key as u8) {
        Some(Wish::Either) => format!("*{key}"),
        _ => key.to_string(),
    };
    let keys: Vec<_> = harmony.named.all().map(key).collect();
    format!("{{{}}}", keys.join(", "))
}

fn readable_logic(program: &Program, logic: &Declared<LogicForm<usize, Target>>) -> String {
    let form = &logic.form;
    let start = form.start.as_ref();
    let start = start.map_or("nothing".to_string(), |start| readable_called(program, start));
    let mut text = format!("{}, start {start}", readable_trigger(program, &form.trigger));
    for order in &form.orders {
        let called = readable_called(program, &order.called);
        let trigger = readable_trigger(program, &order.trigger);
        let _ = write!(text, "\n  order {trigger} -> {called}");
    }
    text
}

fn readable_trigger(program: &Program, trigger: &Trigger<usize>) -> String {
    match trigger {
        Trigger::Letter(letter) => format!("letter {}", char::from(letter.0)),
        Trigger::Harmony(i) => named("harmony", program.declared.harmonies.get(*i)),
    }
}

fn readable_called(program: &Program, called: &Called<Target>) -> String {
    let numbers = called.numbers.as_slice().iter();
    readable_target(program, called.target) + &in_brackets(numbers)
}

fn readable_target(program: &Program, target: Target) -> String {
    let tree = &program.declared;
    match target {
        Target::Retuning(i) => named("retuning", tree.retunings.get(i)),
        Target::System(i) => named("tone system", tree.systems.get(i)),
        Target::Logic(i) => named("logic", tree.logics.get(i)),
    }
}

fn named<F>(kind: &str, declared: Option<&Declared<F>>) -> String {
    format!("{kind} {}", declared.map_or("?", |declared| &declared.name.text))
}
