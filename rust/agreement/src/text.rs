//! Lists, elements and equations as the specification language writes them.

use lomvuze_reference::claims::{Circuit, Entry};
use lomvuze_reference::field::Element;
use std::fmt::Display;

/// A file of equations. Each has its type and its proof.
pub struct File {
    pub name: &'static str,
    pub head: String,
    pub equations: Vec<Equation>,
}

pub struct Equation {
    pub left: String,
    pub right: String,
    /// The definitions that the proof unfolds, if any.
    pub unfolding: String,
    pub proof: String,
}

impl File {
    pub fn text(&self) -> String {
        let mut text = self.head.clone();
        for (i, equation) in self.equations.iter().enumerate() {
            let Equation { left, right, unfolding, proof } = equation;
            let unfolding =
                if unfolding.is_empty() { String::new() } else { format!("unfolding {unfolding}\n") };
            text += &format!("\npub equation-{i} : {left} ≡ {right}\n{unfolding}equation-{i} = {proof}\n");
        }
        text
    }
}

pub fn list<T: Display>(members: impl IntoIterator<Item = T>) -> String {
    let members: String = members.into_iter().map(|member| format!("{member} ∷ ")).collect();
    format!("({members}[])")
}

pub fn numbers(elements: &[Element]) -> String {
    list(elements.iter().map(|element| element.number()))
}

/// The elements of numbers.
pub fn elements(elements: &[Element]) -> String {
    format!("(listed {})", numbers(elements))
}

fn entries(entries: &[Entry]) -> String {
    list(entries.iter().map(|entry| format!("entry {} {} {}", entry.row, entry.column, entry.value.number())))
}

pub fn circuit(circuit: &Circuit) -> String {
    format!(
        "(record {{ A = {}; B = {}; C = {} }})",
        entries(&circuit.a),
        entries(&circuit.b),
        entries(&circuit.c)
    )
}
