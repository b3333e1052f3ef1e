//! What must hold of the one text, whatever writes it: reading it gives the
//! tree again, its own text is itself, and trees and texts differ together.

use generator::random::Random;
use generator::spelling::{changed, pairs, replaced, respelled};
use generator::text::{any, brims, call, lengths, readable, spelling};
use generator::{limit, systematic};
use reference::grammar::read;
use reference::sheet::GRANTS;
use reference::token::{tokens, Kind, Token};
use reference::tree::Program;
use reference::writer::text_of;
use reference::{check, text, Answer, Grants};
use std::collections::BTreeMap;

const PROGRAMS: u64 = 20_000;
const MOST: u64 = 32_768;

fn show(program: &[u8]) -> String {
    String::from_utf8_lossy(program).into_owned()
}

/// The text of a program that gets one.
fn written(program: &[u8]) -> Option<Vec<u8>> {
    text(program, GRANTS, MOST).ok()
}

/// What must hold of a program and its text.
fn holds(program: &[u8], text: &[u8], tree: &Program) {
    let again = read(text).unwrap_or_else(|e| panic!("{e:?}: {}", show(text)));
    assert_eq!(&again, tree, "{}", show(program));
    // Its own text is itself.
    assert_eq!(text_of(&again), text, "{}", show(program));
    let found = tokens(text).unwrap();
    assert_eq!(show(&laid_out(text, &found)), show(text));
    // No more tokens than the program has, so no limit is met that the
    // program keeps.
    assert!(found.len() <= tokens(program).unwrap().len());
    for token in &found {
        let spelling = token.spelling(text);
        let zero = token.kind == Kind::Digits && spelling.len() > 1 && spelling[0] == b'0';
        assert!(!zero, "{}", show(text));
    }
    assert!(!has_minus_zero(text, &found), "{}", show(text));
}

/// Of each token, whether it is the parenthesis that closes the test of an if
/// or while.
fn closing_tests(found: &[Token]) -> Vec<bool> {
    let mut open = Vec::new();
    let mut before = None;
    let closes = |token: &Token| {
        let test = matches!(before, Some(Kind::If | Kind::While));
        before = Some(token.kind);
        match token.kind {
            Kind::OpenParen => open.push(test),
            Kind::CloseParen => return open.pop().unwrap_or(false),
            _ => {}
        }
        false
    };
    found.iter().map(closes).collect()
}

/// Whether a minus that belongs to a constant stands before a 0.
fn has_minus_zero(program: &[u8], found: &[Token]) -> bool {
    let tests = closing_tests(found);
    let zero = |token: &Token| token.spelling(program).iter().all(|byte| *byte == b'0');
    found.windows(3).zip(tests).any(|(three, test)| {
        let behind_operand = matches!(
            three[0].kind,
            Kind::Name
                | Kind::Digits
                | Kind::Text
                | Kind::None
                | Kind::True
                | Kind::False
                | Kind::CloseParen
                | Kind::CloseBracket
        );
        let due = test || !behind_operand;
        due && three[1].kind == Kind::Minus && zero(&three[2])
    })
}

/// The white space that tokens get by the request's sentences, worked out from
/// the tokens alone: a line ends behind `{`, `}`, `;` and `do` and behind the
/// test of an if or while, since a statement, a closing brace, a `def` or the
/// end follows.
fn laid_out(program: &[u8], found: &[Token]) -> Vec<u8> {
    let word = |token: &Token| program[token.start].is_ascii_alphanumeric();
    let mut bytes = Vec::new();
    let mut before: Option<&Token> = None;
    for (token, test) in found.iter().zip(closing_tests(found)) {
        let meets = |before: &Token| word(before) && before.kind != Kind::Do;
        if before.is_some_and(meets) && word(token) {
            bytes.push(b' ');
        }
        bytes.extend_from_slice(token.spelling(program));
        let ends = matches!(
            token.kind,
            Kind::OpenBrace | Kind::CloseBrace | Kind::Semicolon | Kind::Do
        );
        if ends || test {
            bytes.push(b'\n');
        }
        before = Some(token);
    }
    bytes
}

/// The program without this pair of parentheses, as a tree, if it can be read.
fn without(program: &[u8], (open, close): (Token, Token)) -> Option<Program> {
    let changes = [(open.start, open.end, ""), (close.start, close.end, "")];
    read(&replaced(program, &changes)).ok()
}

// Would catch a text that reads as another tree, one that is not its own text, white space too much or too little, leading zeros, and 82 off by one.
#[test]
fn reading_the_text_gives_the_tree() {
    let mut given = 0;
    for seed in 0..PROGRAMS {
        let program = any(&mut Random::new(seed));
        let Some(text) = written(&program) else {
            continue;
        };
        given += 1;
        holds(&program, &text, &read(&program).unwrap());
    }
    assert!(given > 14_000, "only {given} texts");
}

// Would catch a text that depends on white space, needless parentheses or the spelling of constants; and a spelling of the generator's that changes the tree.
#[test]
fn two_spellings_have_one_text() {
    let mut spellings = 0;
    for seed in 0..PROGRAMS {
        let mut random = Random::new(seed);
        let program = readable(&mut random);
        let Ok(tree) = read(&program) else {
            continue;
        };
        let text = text_of(&tree);
        let other = respelled(&program, &mut random).expect("a spelling");
        let again = read(&other).unwrap_or_else(|e| panic!("seed {seed}: {e:?}"));
        assert_eq!(again, tree, "seed {seed}: {}", show(&other));
        assert_eq!(show(&text_of(&again)), show(&text), "seed {seed}");
        spellings += usize::from(other != program && other != text);
    }
    assert!(spellings > 18_000, "only {spellings} spellings");
}

// Would catch two trees with one text, and two texts of one tree.
#[test]
fn trees_and_texts_differ_together() {
    let (mut same, mut other, mut refused) = (0, 0, 0);
    for seed in 0..PROGRAMS {
        let mut random = Random::new(seed);
        let program = spelling(&mut random);
        let changed = changed(&program, &mut random);
        let (Ok(tree), Ok(second)) = (read(&program), read(&changed)) else {
            refused += 1;
            continue;
        };
        let one_text = text_of(&tree) == text_of(&second);
        let one_tree = tree == second;
        assert_eq!(one_text, one_tree, "{}\n{}", show(&program), show(&changed));
        match one_tree {
            true => same += 1,
            false => other += 1,
        }
    }
    assert!(other > 6_000, "only {other} other trees");
    assert!(same > 500, "only {same} equal trees");
    assert!(refused > 3_000, "only {refused} refused");
}

// Would catch parentheses of a text that are needless: taking out any pair makes the text unreadable or its tree another.
#[test]
fn no_needless_parentheses() {
    let (mut around, mut all) = (0, 0);
    for seed in 0..PROGRAMS {
        let mut random = Random::new(seed);
        let Some(text) = written(&readable(&mut random)) else {
            continue;
        };
        let tree = read(&text).unwrap();
        let found = tokens(&text).unwrap();
        let pairs = pairs(&text, &found);
        // Of a long text only some, chosen by the seed.
        let step = 1 + pairs.len() / 8;
        for pair in pairs.iter().skip(seed as usize % step).step_by(step) {
            let second = without(&text, *pair);
            assert_ne!(second.as_ref(), Some(&tree), "{}", show(&text));
            all += 1;
            around += usize::from(second.is_some());
        }
    }
    assert!(all > 50_000, "only {all} pairs");
    // So many that only another tree tells that they are needed.
    assert!(around > 500, "only {around} pairs that change the tree");
}

// Would catch parentheses taken away that the text needs, or kept ones, by another way to find them: pair by pair, as long as one can go and the tree stays.
#[test]
fn parentheses_taken_away_one_by_one() {
    let mut taken = 0;
    for seed in 0..3_000 {
        let mut program = spelling(&mut Random::new(seed));
        if program.len() > 400 {
            continue;
        }
        let tree = read(&program).unwrap();
        loop {
            let found = tokens(&program).unwrap();
            let needless = pairs(&program, &found)
                .into_iter()
                .find(|pair| without(&program, *pair).as_ref() == Some(&tree));
            let Some((open, close)) = needless else {
                break;
            };
            let changes = [(open.start, open.end, ""), (close.start, close.end, "")];
            program = replaced(&program, &changes);
            taken += 1;
        }
        // What is left has the text's tokens but for the constants' spelling.
        let text = text_of(&tree);
        let kinds = |found: &[Token]| -> Vec<Kind> { found.iter().map(|t| t.kind).collect() };
        let left = tokens(&program).unwrap();
        if !has_minus_zero(&program, &left) {
            let shown = show(&program);
            let wanted = kinds(&tokens(&text).unwrap());
            assert_eq!(kinds(&left), wanted, "seed {seed}: {shown}");
        }
    }
    assert!(taken > 5_000, "only {taken} pairs taken away");
}

// Would catch 82 off by one at 32,768, one without the length, and one before 60 or 73.
#[test]
fn texts_at_the_limit() {
    let mut counts: BTreeMap<usize, usize> = BTreeMap::new();
    for program in lengths() {
        let checked = check(&program);
        let answer = text(&program, Grants::LARGEST, u64::MAX);
        if checked != Answer::WellFormed {
            assert_eq!(answer, Err(checked), "{} bytes", program.len());
            continue;
        }
        let tree = read(&program).unwrap();
        let length = text_of(&tree).len();
        *counts.entry(length).or_default() += 1;
        match answer {
            Ok(text) => {
                assert!(length as u64 <= MOST);
                holds(&program, &text, &tree);
            }
            Err(number) => {
                assert!(length as u64 > MOST);
                let wanted = Answer::Number {
                    number: 82,
                    place: 0,
                    steps: 0,
                    length_needed: Some(length as u64),
                };
                assert_eq!(number, wanted);
            }
        }
    }
    for length in 32_766..=32_770 {
        let count = counts.get(&length).copied().unwrap_or(0);
        assert!(count >= 8, "{length} bytes: {count} programs");
    }
    let (longest, _) = counts.last_key_value().unwrap();
    assert!(*longest > 40_000, "none longer than {longest}");
}

// Would catch a text that goes wrong in 64 levels or with 8,192 tokens.
#[test]
fn fixed_programs() {
    let brims = brims();
    let mut most = 0;
    for program in &brims {
        let count = tokens(program).unwrap().len();
        most += usize::from(count == 8_192);
        let refused = matches!(check(program), Answer::Number { number: 74, .. });
        assert_eq!(refused, count > 8_192, "{count} tokens");
    }
    assert!(most >= 4, "only {most} programs of 8,192 tokens");
    let mut given = 0;
    for program in [brims, limit::programs(), systematic::programs()].concat() {
        if let Some(text) = written(&program) {
            holds(&program, &text, &read(&program).unwrap());
            given += 1;
        }
    }
    assert!(given > 3_000, "only {given} texts");
}

// Would catch a generator that no longer leads to every outcome.
#[test]
fn every_outcome_occurs() {
    let mut counts: BTreeMap<String, usize> = BTreeMap::new();
    for seed in 0..10_000 {
        let call = call(seed);
        let name = match call.answer() {
            Ok(_) => "text".to_string(),
            Err(Answer::Number {
                number: 82,
                length_needed: Some(length),
                ..
            }) => match length > MOST {
                true => "82 in itself".to_string(),
                false => "82 of the slice".to_string(),
            },
            Err(Answer::Number { number, .. }) => number.to_string(),
            Err(other) => panic!("{other:?}"),
        };
        *counts.entry(name).or_default() += 1;
    }
    for (outcome, least) in [
        ("text", 4_000),
        ("10", 500),
        ("60", 50),
        ("73", 10),
        ("74", 5),
        ("75", 20),
        ("82 in itself", 50),
        ("82 of the slice", 1_000),
    ] {
        let count = counts.get(outcome).copied().unwrap_or(0);
        assert!(count >= least, "{outcome}: {count} of at least {least}");
    }
    assert_eq!(counts.len(), 8, "{counts:?}");
}
