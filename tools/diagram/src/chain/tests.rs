use super::*;

const CHAIN: &str = include_str!("../../../../docs/chain.txt");
const TEXT: &str = include_str!("../../../../rust/calls/calls.txt");

fn error(from: &str, to: &str) -> String {
    assert!(CHAIN.contains(from), "{from}");
    match read(&CHAIN.replacen(from, to, 1), &Calls::read(TEXT).unwrap()) {
        Ok(_) => format!("'{to}' for '{from}' is accepted"),
        Err(error) => error,
    }
}

#[test]
fn the_chain_is_read() {
    let chain = read(CHAIN, &Calls::read(TEXT).unwrap()).unwrap();
    assert_eq!(chain.actors.len(), 3);
    let fold = chain.steps.iter().find_map(|step| match step {
        Step::Call { name, signature, .. } if name == "fold" => Some(signature.as_str()),
        _ => None,
    });
    assert_eq!(fold, Some("challenge, points, circuit, items, witnesses → quotient, new item, new witness"));
}

#[test]
fn a_call_is_one_of_the_library() {
    assert!(error("call registrar interleave", "call registrar reorder").contains("reorder is no call of"));
    for name in CALLS {
        let calls = TEXT.replace(&format!("call {name} "), &format!("call another_{name} "));
        assert!(read(CHAIN, &Calls::read(&calls).unwrap()).is_err(), "{name}");
    }
}

#[test]
fn each_call_of_the_chain_is_there() {
    for name in CALLS {
        let named = |line: &&str| line.split([';', ':']).next().unwrap().ends_with(&format!(" {name}"));
        let without: Vec<&str> =
            CHAIN.lines().filter(|line| line.starts_with("word") || !named(line)).collect();
        assert!(without.len() < CHAIN.lines().count(), "{name}");
        assert!(read(&without.join("\n"), &Calls::read(TEXT).unwrap()).is_err(), "{name}");
    }
    let missing = error("call registrar interleave", "# ");
    assert!(missing.contains("the call interleave is missing"), "{missing}");
}

#[test]
fn nobody_uses_what_it_does_not_hold() {
    assert!(error("call house verify", "call decider verify").contains("decider does not hold"));
    assert!(error("call decider decide", "call house decide").contains("house does not hold points"));
    assert!(error("registrar house: openings", "house registrar: openings")
        .contains("house does not hold openings"));
    assert!(error("send registrar decider: new witness", "# ").contains("decider does not hold new witness"));
    assert!(error("registrar house: items, quotient", "registrar house: items")
        .contains("house does not hold quotient"));
    assert!(
        error("send registrar house: new item", "# ").contains("house does not hold root of the new item")
    );
    assert!(error("number challenge registrar,house", "number challenge house")
        .contains("registrar does not hold challenge"));
    assert!(error("holds registrar: x, witnesses", "holds registrar: witnesses").contains("does not hold x"));
}
