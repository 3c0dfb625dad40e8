//! The words of a line of antt: names, numbers, operators and brackets, without comments.

const BRACKETS: &str = "(){}[],;";

/// The line without its comment.
fn code_of(line: &str) -> &str {
    let mut from = 0;
    while let Some(at) = line[from..].find("--") {
        let at = from + at;
        if line[..at].chars().next_back().is_none_or(char::is_whitespace) {
            return &line[..at];
        }
        from = at + 2;
    }
    line
}

/// Splits a line into words. A bracket, a comma and a semicolon stand alone; `[]` is one word.
pub fn of_line(line: &str) -> Vec<String> {
    let spaced = code_of(line).replace("[]", " \u{0} ");
    let mut words = vec![];
    for piece in spaced.split_whitespace() {
        let mut word = String::new();
        for c in piece.chars() {
            if BRACKETS.contains(c) {
                words.extend(Some(std::mem::take(&mut word)).filter(|w| !w.is_empty()));
                words.push(c.to_string());
            } else {
                word.push(c);
            }
        }
        words.extend(Some(word).filter(|w| !w.is_empty()));
    }
    words.into_iter().map(|word| word.replace('\u{0}', "[]")).collect()
}

pub fn of_lines(lines: &[String]) -> Vec<String> {
    lines.iter().flat_map(|line| of_line(line)).collect()
}

/// A name as it is used: an operator is declared with a `◌` for each argument.
pub fn used_form(name: &str) -> String {
    name.replace('◌', "")
}

/// What a word names, without the fields that are read of it: `v` of `v.items.length`.
pub fn head(word: &str) -> &str {
    word.split_once('.').map_or(word, |(head, _)| head)
}

pub fn is_bracket(word: &str) -> bool {
    word.len() == 1 && BRACKETS.contains(word)
}

/// Where a word stands first outside brackets.
pub fn outside(words: &[String], wanted: &str) -> Option<usize> {
    let mut depth = 0;
    for (i, word) in words.iter().enumerate() {
        match word.as_str() {
            "(" | "{" | "[" => depth += 1,
            ")" | "}" | "]" => depth -= 1,
            word if depth == 0 && word == wanted => return Some(i),
            _ => {}
        }
    }
    None
}

#[cfg(test)]
mod tests {
    use super::*;

    #[test]
    fn words_stand_alone() {
        let line = "  f (x ∷ []) {A} = g x, y -- h";
        assert_eq!(of_line(line), ["f", "(", "x", "∷", "[]", ")", "{", "A", "}", "=", "g", "x", ",", "y"]);
        assert_eq!(used_form("◌⊕◌"), "⊕");
        assert_eq!((head("v.items.length"), head("v")), ("v", "v"));
    }
}
