//! Programs with something wrong in them.

use crate::random::Random;
use crate::words::token;
use reference::token::{tokens, Token};

/// Bytes that often matter.
const BYTES: &[u8] = b" \t\n\r\0\"!=+-*/%<>.,;()[]{}_'&#\x7f\x80\xff\xc3azAZ09d";

/// Statements and other parts that nearly fit, and some that do.
const PARTS: [&str; 68] = [
    "(w)=1;",
    "(w.h)=1;",
    "((w).h)=1;",
    "(w).h=1;",
    "w.1.2;",
    "w.1.2=3;",
    "w.(1.2)=3;",
    "1.2=3;",
    "1.2;",
    "1+2+3;",
    "(1+2)+3;",
    "w.1+w.1;",
    "w+h=1;",
    "w=h=1;",
    "w==h==w;",
    "f()=1;",
    "[1]=2;",
    "\"a\"=2;",
    "none=1;",
    "-1=1;",
    "{}",
    ";",
    "if(true){}",
    "if(true);",
    "while(false)var q;",
    "var w,h;",
    "var 1;",
    "return;",
    "return-1;",
    "-w;",
    "- 1;",
    "w=-(1);",
    "1--1;",
    "1---1;",
    "w.-1;",
    "w.- 1;",
    "f(1,);",
    "(f)(1);",
    "f(1)(2);",
    "def f(){1;}",
    "def f(x,x){return x;}",
    "def main(w,h){1;}",
    "def drawBox(x){1;}",
    "def sin(x){return x;}",
    "def f(){}",
    "1;}def f(){1;",
    "return 1;}def g(x){return x;",
    "f(1);",
    "f();",
    "main(w,h);",
    "foreach x in drawGroup() do 1;",
    "foreach x in w do{x;}",
    "foreach x in w 1;",
    "foreach x w do 1;",
    "foreach in w do 1;",
    "foreach x in do 1;",
    "foreach x in w do;",
    "foreach x in w do{}",
    "foreach x in w do",
    "foreach x in w do do 1;",
    "foreach (x) in w do 1;",
    "foreach x.1 in w do 1;",
    "foreach x in(w)do(1);",
    "foreach x in w do foreach y in x do 1;",
    "foreach foreach in w do 1;",
    "foreach x in w do var x;",
    "in;",
    "do 1;",
];

/// The program with a few changes, which may leave it well formed.
pub fn damaged(mut program: Vec<u8>, random: &mut Random) -> Vec<u8> {
    for _ in 0..random.weighted(&[0, 60, 25, 10, 5]) {
        program = if random.chance(500) {
            change_bytes(program, random)
        } else {
            change_tokens(program, random)
        };
    }
    program
}

/// A part of a slice of that length, at most `most` long.
fn part(length: usize, most: usize, random: &mut Random) -> (usize, usize) {
    let start = random.below(length + 1);
    let end = start + random.below(most.min(length - start) + 1);
    (start, end)
}

fn change_bytes(mut program: Vec<u8>, random: &mut Random) -> Vec<u8> {
    let at = random.below(program.len());
    match random.below(8) {
        0 | 1 if !program.is_empty() => program[at] ^= 1 << random.below(8),
        2 if !program.is_empty() => program[at] = *random.pick(BYTES),
        3 => program.insert(at, *random.pick(BYTES)),
        4 => program.insert(at, random.bits() as u8),
        5 if !program.is_empty() => {
            program.remove(at);
        }
        6 => program.truncate(at),
        _ => {
            let (start, end) = part(program.len(), 60, random);
            if random.chance(500) {
                program.drain(start..end);
            } else {
                let copy = program[start..end].to_vec();
                program.splice(at..at, copy);
            }
        }
    }
    program
}

/// Changes whole tokens, if the program has any.
fn change_tokens(program: Vec<u8>, random: &mut Random) -> Vec<u8> {
    let found = match tokens(&program) {
        Ok(found) if !found.is_empty() => found,
        _ => return change_bytes(program, random),
    };
    let one = *random.pick(&found);
    let other = *random.pick(&found);
    let text = |token: Token| program[token.start..token.end].to_vec();
    match random.below(10) {
        0 => replaced(&program, one, b""),
        1 => replaced(
            &program,
            one,
            &[text(one), b" ".to_vec(), text(one)].concat(),
        ),
        2 => replaced(&program, one, token(random).as_bytes()),
        3 => {
            let more = token(random).into_bytes();
            replaced(&program, one, &[more, b" ".to_vec(), text(one)].concat())
        }
        4 => replaced(&program, one, &text(other)),
        5 => replaced(
            &program,
            one,
            &[b"(".to_vec(), text(one), b")".to_vec()].concat(),
        ),
        6 => {
            let more = *random.pick(&[".1", ".w", "+1", "-1", "- 1", "=1", "==1", "(1)", ")", "}"]);
            replaced(&program, one, &[text(one), more.into()].concat())
        }
        7 | 8 => {
            // Behind the end of a statement, a block or the whole program.
            let ends = |token: &&Token| matches!(program[token.start], b';' | b'{' | b'}');
            let places: Vec<&Token> = found.iter().filter(ends).collect();
            let at = match random.below(places.len() + 1) {
                place if place < places.len() => *places[place],
                _ => *found.last().unwrap_or(&one),
            };
            let more = *random.pick(&PARTS);
            replaced(&program, at, &[text(at), more.into()].concat())
        }
        _ => {
            let (first, second) = if one.start <= other.start {
                (one, other)
            } else {
                (other, one)
            };
            let swapped = replaced(&program, second, &text(first));
            replaced(&swapped, first, &text(second))
        }
    }
}

fn replaced(program: &[u8], token: Token, by: &[u8]) -> Vec<u8> {
    [&program[..token.start], by, &program[token.end..]].concat()
}
