//! The one text, asked through the static library, agrees with the separately written interpreter: in its answer, in the text's bytes, in what it leaves in
//! its work slices, and in the out slice, which keeps what it had behind a text and, after a number, everywhere.

mod common;

use agreement::compare::{one_less, text_numbers, Lender, Lengths};
use agreement::{check, draw, text, text_to, Lent, Numbers, Work, CODE_WORDS, TOKEN_WORDS};
use common::{all_kinds, main_of};
use generator::random::Random;
use generator::text::{brims, call, call_out_of_range, lengths, readable, spelling, Call};
use generator::{damage, limit, spelling::respelled, systematic};
use reference::decisions::text_rows;
use reference::sheet::GRANTS;
use reference::Grants;
use std::ops::Range;

/// The most bytes of a text.
const MOST: usize = 32_768;

/// A call with `imgdraw`'s grants and an out slice as long as a text can be.
fn plain(program: &[u8]) -> Call {
    Call {
        program: program.to_vec(),
        grants: GRANTS,
        out_length: MOST as u64,
    }
}

/// What the library answers, with the text if there is one. Needs no reference.
fn written(program: &[u8]) -> (Numbers, Vec<u8>) {
    let mut lent = Lent::filled(1);
    let mut out = vec![b'#'; MOST];
    let (tokens, code) = (&mut lent.tokens, &mut lent.code);
    let found = text(program, GRANTS, tokens, code, &mut out);
    match found.number {
        0 => out.truncate(found.length as usize),
        _ => out.clear(),
    }
    (found, out)
}

/// Programs of every sort and spelling, each with out slices of its own length, of no byte, around what the text needs, and with a work slice one word short.
fn generated(seeds: Range<u64>) {
    let mut lender = Lender::default();
    let count = seeds.end - seeds.start;
    for seed in seeds {
        let misfit = lender.text_misfit_around(&call(seed), seed);
        assert_eq!(misfit, None, "seed {seed}");
    }
    assert!(lender.calls() > 4 * count, "only {} calls", lender.calls());
}

// Would catch any byte of a text taken otherwise, a number told otherwise or elsewhere, 82 off by one or without its length, a slice that is left dirty by any
// way out, a byte behind the text that is touched, and an out slice that is written although the text does not fit.
#[test]
fn generated_programs() {
    generated(0..10_000);
}

#[test]
fn more_generated_programs() {
    generated(10_000..20_000);
}

// Would catch a limit off by one, among them 82 at 32,768 bytes, and what goes wrong in 64 levels, with 8,192 tokens or with 8,192 lines.
#[test]
fn programs_at_every_limit() {
    let mut lender = Lender::default();
    let programs = [limit::programs(), lengths(), brims()].concat();
    for (i, program) in programs.iter().enumerate() {
        let misfit = lender.text_misfit_around(&plain(program), i as u64);
        assert_eq!(misfit, None, "limit {i}");
    }
}

// Would catch an operator, constant, name or call that is written wrongly in one place only.
#[test]
fn systematic_programs() {
    let mut lender = Lender::default();
    for (i, program) in systematic::programs().iter().enumerate() {
        let misfit = lender.text_misfit_of(&plain(program), i as u64);
        assert_eq!(misfit, None, "systematic {i}");
    }
}

// Would catch a writer that takes its program for a text already: texts with a few bytes or tokens changed.
#[test]
fn damaged_texts() {
    let mut lender = Lender::default();
    for seed in 0..3_000 {
        let mut random = Random::new(seed);
        let (_, text) = written(&spelling(&mut random));
        let call = plain(&damage::damaged(text, &mut random));
        assert_eq!(lender.text_misfit_of(&call, seed), None, "seed {seed}");
    }
}

// Texts written out by hand, with no reference.
#[test]
fn by_hand() {
    for (program, wanted) in [
        ("def main(w,h){var a;}", "def main(w,h){\nvar a;\n}\n"),
        (
            "def  main ( w , h ) { if((w)) { w = ((w.1)) - (-0) ; } return(\"a\");}",
            "def main(w,h){\nif(w)\n{\nw=w.1-0;\n}\nreturn\"a\";\n}\n",
        ),
        (
            "def f(x){return x;}def main(w,h){w--01;return-1;while(w)(w.1).(1+2)=f((3));}",
            "def f(x){\nreturn x;\n}\ndef main(w,h){\nw--1;\nreturn-1;\nwhile(w)\n(w.1).(1+2)=f(3);\n}\n",
        ),
    ] {
        let (found, text) = written(program.as_bytes());
        assert_eq!(String::from_utf8_lossy(&text), wanted);
        let answer = (found.number, found.place, found.steps, found.length);
        assert_eq!(answer, (0, 0, 0, wanted.len() as u64));
    }
}

// Would catch a slice whose length is not asked, asked off by one, or asked after something else, and one written before it is asked.
#[test]
fn short_slices_are_71_and_kept() {
    let mut lender = Lender::default();
    let needed = Lengths::needed(GRANTS);
    let mut calls = Vec::new();
    for program in [all_kinds(), Vec::new(), vec![b'('; 40_000], main_of("")] {
        for out_length in [0, 1, MOST as u64] {
            calls.push(Call {
                out_length,
                ..plain(&program)
            });
        }
    }
    for (tokens, code) in [
        (TOKEN_WORDS - 1, CODE_WORDS),
        (TOKEN_WORDS, CODE_WORDS - 1),
        (TOKEN_WORDS - 1, CODE_WORDS + 100_000),
        (TOKEN_WORDS + 100_000, CODE_WORDS - 1),
        (0, CODE_WORDS),
        (TOKEN_WORDS, 0),
        (0, 0),
    ] {
        let lengths = Lengths {
            tokens,
            code,
            ..needed
        };
        for call in &calls {
            for seed in 0..4 {
                let misfit = lender.text_misfit(call, lengths, seed);
                assert_eq!(misfit, None, "{tokens} {code}");
            }
        }
    }
    // Exactly enough is enough, also where another operation needs more.
    for call in &calls {
        let lengths = Lengths {
            words: 0,
            texts: 0,
            ..needed
        };
        assert_eq!(lender.text_misfit(call, lengths, 3), None);
    }
}

// Would catch a count that is not asked, asked off by one or asked after the program, and two counts that are swapped.
#[test]
fn counts_out_of_range_are_71() {
    let mut lender = Lender::default();
    for seed in 0..500 {
        let call = call_out_of_range(seed);
        assert_eq!(lender.text_misfit_of(&call, seed), None, "seed {seed}");
    }
    let mut all = vec![Grants::LARGEST, Grants::LEAST];
    all.extend(one_less(Grants::LARGEST));
    for count in [65_536, 1 << 32, 1 << 63, u64::MAX] {
        for kind in 0..3 {
            let mut grants = GRANTS;
            match kind {
                0 => grants.shapes = count,
                1 => grants.entries = count,
                _ => grants.text_bytes = count,
            }
            all.push(grants);
        }
    }
    for calls in [0, 65, 128, 1 << 32, (1 << 32) + 1, 1 << 63, u64::MAX] {
        all.push(Grants { calls, ..GRANTS });
    }
    for steps in [1 << 32, (1 << 32) + 1_000_000, 1 << 63, u64::MAX] {
        all.push(Grants { steps, ..GRANTS });
    }
    for grants in all {
        for (seed, program) in [all_kinds(), main_of(""), vec![b' '; 40_000]]
            .iter()
            .enumerate()
        {
            let call = Call {
                grants,
                ..plain(program)
            };
            let misfit = lender.text_misfit_around(&call, seed as u64);
            assert_eq!(misfit, None, "{grants:?}");
        }
    }
}

// Would catch 73 off by one or asked after reading.
#[test]
fn programs_beyond_the_limit_are_73() {
    let mut lender = Lender::default();
    for length in [32_767, 32_768, 32_769, 65_536, 65_537, 1 << 20] {
        for byte in [b'(', b' ', b'!', b'a'] {
            let mut program = all_kinds();
            program.resize(length, byte);
            let misfit = lender.text_misfit_around(&plain(&program), 3);
            assert_eq!(misfit, None, "{length} of {byte}");
        }
    }
}

// Would catch a text that is begun before its length is known to fit, at every length that the slice can have.
#[test]
fn out_slices_of_every_length() {
    let mut lender = Lender::default();
    for body in ["1;", "if(w){(w).((1)+-0)=h;}return\"a\";", "{{{1;}}}"] {
        let program = main_of(body);
        let need = written(&program).1.len() as u64;
        for out_length in (0..=need + 3).chain([2 * need, 32_768, 65_536, 1 << 20]) {
            let call = Call {
                out_length,
                ..plain(&program)
            };
            // Bits that differ from place to place, or all ones.
            for seed in [2, 3] {
                let misfit = lender.text_misfit_of(&call, seed);
                assert_eq!(misfit, None, "{body} into {out_length}");
            }
        }
    }
}

// Would catch an answer written beyond its slice, or in another order, a number that is not returned, or a text that depends on either. Needs no reference.
#[test]
fn an_answer_fills_what_there_is() {
    let wanted = b"def main(w,h){\nvar a;\n}\n";
    let need = wanted.len();
    let long = main_of(&format!("{};", "n".repeat(32_750)));
    let program = main_of("var a;");
    for (program, room, whole) in [
        (&program, need, [0, 0, 0, need as u64]),
        (&program, need + 9, [0, 0, 0, need as u64]),
        (&program, need - 1, [82, 0, 0, need as u64]),
        (&program, 0, [82, 0, 0, need as u64]),
        (&long, 40_000, [82, 0, 0, 32_769]),
        (&main_of(""), need, [10, 14, 0, 0]),
        (&vec![b' '; 32_769], need, [73, 0, 0, 0]),
        (
            &b"def main(w,h){1;}def main(w,h){1;}".to_vec(),
            0,
            [60, 17, 0, 0],
        ),
    ] {
        for length in 0..8 {
            let mut answer = [u64::MAX; 10];
            let mut lent = Lent::filled(1);
            let mut out = vec![b'#'; room];
            let (tokens, code) = (&mut lent.tokens, &mut lent.code);
            let returned = text_to(
                program,
                GRANTS,
                tokens,
                code,
                &mut out,
                &mut answer[..length],
            );
            assert_eq!(returned, whole[0], "{length}");
            let written = length.min(4);
            assert_eq!(answer[..written], whole[..written], "{length}");
            assert!(answer[written..].iter().all(|word| *word == u64::MAX));
            assert!(lent.is_zero());
            let front = if whole[0] == 0 { need } else { 0 };
            assert_eq!(out[..front], wanted[..front]);
            assert!(out[front..].iter().all(|byte| *byte == b'#'));
        }
    }
}

// Would catch a text that is not its own text, is not well formed, or is longer than 82 tells. Needs no reference.
#[test]
fn the_text_of_a_text_is_itself() {
    let mut texts = 0;
    for seed in 0..3_000 {
        let program = generator::text::any(&mut Random::new(seed));
        let mut lent = Lent::filled(seed);
        let (tokens, code) = (&mut lent.tokens, &mut lent.code);
        let checked = check(&program, GRANTS, tokens, code);
        let told = text(&program, GRANTS, tokens, code, &mut []);
        if checked.number != 0 {
            assert_eq!(told, checked, "seed {seed}");
            continue;
        }
        assert_eq!((told.number, told.place), (82, 0), "seed {seed}");
        let need = told.length as usize;
        let mut out = vec![b'#'; need];
        let found = text(&program, GRANTS, tokens, code, &mut out);
        if need > MOST {
            assert_eq!(found, told, "seed {seed}");
            continue;
        }
        texts += 1;
        assert_eq!(found, Numbers { number: 0, ..told }, "seed {seed}");
        assert!(out.ends_with(b"}\n"), "seed {seed}");
        let checked = check(&out, GRANTS, tokens, code);
        assert_eq!(checked.number, 0, "seed {seed}");
        assert_eq!(written(&out), (found, out), "seed {seed}");
    }
    assert!(texts > 2_000, "only {texts} texts");
}

// Would catch a text that depends on a program's spelling. Needs the reference only to spell.
#[test]
fn two_spellings_have_one_text() {
    let mut pairs = 0;
    for seed in 0..3_000 {
        let mut random = Random::new(seed);
        let program = readable(&mut random);
        let Some(other) = respelled(&program, &mut random) else {
            continue;
        };
        let (found, text) = written(&program);
        // One of them may have another place, or more bytes than a program may have.
        if found.number == 0 {
            assert_eq!(written(&other), (found, text), "seed {seed}");
            pairs += 1;
        }
    }
    assert!(pairs > 2_500, "only {pairs} pairs");
}

// Would catch a text that means something else: drawing it gives the same picture, or the same number, after the same steps. Only the place may be another.
// Needs no reference.
#[test]
fn a_text_draws_what_its_program_draws() {
    let mut drawn = 0;
    let grants = Grants {
        steps: 2_000,
        ..GRANTS
    };
    let lengths = Lengths::needed(grants);
    let mut work = Work {
        tokens: vec![0; lengths.tokens],
        code: vec![0; lengths.code],
        words: vec![0; lengths.words],
        texts: vec![0; lengths.texts],
    };
    for seed in 0..1_000 {
        let program = spelling(&mut Random::new(seed));
        let (found, text) = written(&program);
        if found.number != 0 {
            continue;
        }
        let mut drawing = |program: &[u8]| {
            let mut out = vec![b'#'; 65_536];
            let answer = draw(program, 20, 20, grants, &mut work, &mut out);
            (answer.number, answer.steps, answer.length, out)
        };
        assert!(drawing(&program) == drawing(&text), "seed {seed}");
        drawn += 1;
    }
    assert!(drawn > 800, "only {drawn} programs");
}

// Would catch any row of the decisions taken otherwise. The results are those of the document, not of the reference.
#[test]
fn decisions() {
    let rows = text_rows();
    assert!(rows.len() >= 20, "{} rows", rows.len());
    for row in rows {
        let mut lent = Lent::filled(1);
        let mut out = vec![b'#'; row.out_length as usize];
        let (tokens, code) = (&mut lent.tokens, &mut lent.code);
        let found = text(&row.program, row.grants, tokens, code, &mut out);
        let short = match (found.number, found.length) {
            (0, length) => String::from_utf8_lossy(&out[..length as usize]).replace('\n', "⏎"),
            (number, 0) => format!("{number}@{} s{}", found.place, found.steps),
            (number, length) => format!("{number}@{} s{} l{length}", found.place, found.steps),
        };
        assert_eq!(short, row.result, "row {}", row.number);
    }
}

// Would catch a slice whose garbage shows in the next answer: one set of slices serves many calls, of `text` and of checking, and is never filled again.
#[test]
fn slices_are_used_again() {
    let mut lent = Lent::filled(2);
    let mut out = vec![b'#'; MOST];
    for seed in 0..2_000 {
        let call = Call {
            out_length: MOST as u64,
            grants: GRANTS,
            ..call(seed)
        };
        let (tokens, code) = (&mut lent.tokens, &mut lent.code);
        let found = text(&call.program, GRANTS, tokens, code, &mut out);
        let wanted = call.answer();
        assert_eq!(found, text_numbers(&wanted), "seed {seed}");
        if let Ok(bytes) = wanted {
            assert_eq!(out[..bytes.len()], bytes, "seed {seed}");
        }
        check(&call.program, GRANTS, tokens, code);
    }
}

// Would catch anything kept from call to call outside the lent slices: many threads make the same calls at once.
#[test]
fn many_threads_write_the_same() {
    let threads: Vec<_> = (0..8)
        .map(|seed| {
            std::thread::spawn(move || {
                let mut lender = Lender::default();
                for turn in 0..50 {
                    let call = plain(&all_kinds());
                    assert_eq!(lender.text_misfit_of(&call, seed + turn), None);
                }
            })
        })
        .collect();
    for thread in threads {
        thread.join().expect("a thread that agrees");
    }
}
