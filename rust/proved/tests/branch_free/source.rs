//! Functions in Rattle's source: which forms stand in a function and in what it calls that field code must not
//! have.

/// No branch, no loop and no remainder.
const FORBIDDEN: [&str; 9] = ["if", "else", "match", "&&", "||", "while", "loop", "for", "%"];

/// What is wrong with a function of a file and with the functions that it calls, each as function and form. A
/// call that leads out of the file is a fault too, since what is called is then not read.
pub fn faults(source: &str, function: &str) -> Vec<String> {
    let tokens = tokens(source);
    let mut faults = vec![];
    let mut names = vec![function.to_string()];
    let mut at = 0;
    while let Some(name) = names.get(at).cloned() {
        match body(&tokens, &name) {
            None => faults.push(format!("{name}: not in this file")),
            Some(body) => {
                let forbidden = body.iter().filter(|token| FORBIDDEN.contains(&token.as_str()));
                faults.extend(forbidden.map(|token| format!("{name}: {token}")));
                for called in calls(body) {
                    if !names.contains(&called) {
                        names.push(called);
                    }
                }
            }
        }
        at += 1;
    }
    faults
}

/// Words and signs, without comments.
fn tokens(source: &str) -> Vec<String> {
    let code: String =
        source.lines().map(|line| line.split("//").next().unwrap().to_string() + "\n").collect();
    let mut tokens: Vec<String> = vec![];
    let mut before = ' ';
    for sign in code.chars() {
        let word = |c: char| c.is_alphanumeric() || c == '_';
        let joined = word(before) && word(sign) || before == sign && "&|:".contains(sign);
        match tokens.last_mut() {
            Some(last) if joined => last.push(sign),
            _ if sign.is_whitespace() => {}
            _ => tokens.push(sign.to_string()),
        }
        before = sign;
    }
    tokens
}

/// What stands between a function's braces, those of its clauses apart.
fn body<'a>(tokens: &'a [String], function: &str) -> Option<&'a [String]> {
    let head = tokens.windows(3).position(|three| three == ["fn", function, "("])?;
    let (mut depth, mut clause, mut start) = (0, false, head);
    for (i, token) in tokens.iter().enumerate().skip(head) {
        match token.as_str() {
            "requires" | "ensures" if depth == 0 => clause = true,
            "{" => {
                if depth == 0 {
                    start = i + 1;
                }
                depth += 1;
            }
            "}" => {
                depth -= 1;
                if depth == 0 && !clause {
                    return Some(&tokens[start..i]);
                }
                clause &= depth > 0;
            }
            _ => {}
        }
    }
    None
}

/// The names that are called, with their paths.
fn calls(body: &[String]) -> Vec<String> {
    let is_name = |token: &str| token.starts_with(|c: char| c.is_alphabetic() || c == '_');
    let mut calls = vec![];
    for i in 1..body.len() {
        let name = body[i - 1].as_str();
        if body[i] != "(" || !is_name(name) || FORBIDDEN.contains(&name) {
            continue;
        }
        let mut first = i - 1;
        while first > 0 && (body[first - 1] == "::" || body[first - 1] == "." || body[first] == "::") {
            first -= 1;
        }
        calls.push(body[first..i].concat());
    }
    calls
}
