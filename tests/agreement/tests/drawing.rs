//! Drawing, called through the static library, agrees with the separately written interpreter: in its answer, in the picture's bytes, in what it leaves in
//! its work slices, and in the out slice, which keeps what it had behind a picture and, after a number, everywhere.

mod common;

use agreement::compare::{numbers, Lender, Lengths};
use agreement::{check, draw, draw_to, Numbers, Work};
use common::{all_kinds, main_of, need, plain};
use generator::case::{needed, EVENTS};
use generator::random::Random;
use generator::{case, groups, heavy, limit, systematic, Case};
use reference::decisions::rows;
use reference::operation::with_room;
use reference::sheet::GRANTS;
use reference::{run_specified, Answer, End, Grants, Operation};
use std::collections::BTreeSet;
use std::ops::Range;

const DRAW: Operation = Operation::Draw;

const DAY: &str = "var a;var b;a=drawBox(2,9,3,h-9);b=drawText(2,h,\"day\");";

/// As document 01 prints it.
const DAY_PICTURE: &str = "<?xml version=\"1.0\"?>
<svg viewBox=\"0 0 20 20\" xmlns=\"http://www.w3.org/2000/svg\" version=\"1.1\">
<g stroke=\"black\" fill=\"black\">
<rect x=\"2\" y=\"9\" width=\"3\" height=\"11\"/>
<text x=\"2\" y=\"20\">day</text>
</g>
</svg>
";

/// Slices of the needed lengths, full of ones.
fn work(grants: Grants) -> Work {
    let lengths = Lengths::needed(grants);
    Work {
        tokens: vec![u64::MAX; lengths.tokens],
        code: vec![u64::MAX; lengths.code],
        words: vec![u64::MAX; lengths.words],
        texts: vec![u8::MAX; lengths.texts],
    }
}

/// Generated and damaged programs, each with its own grants, at what it takes and one below for each kind, in slices with garbage, longer, and one element
/// short, and with out slices of no byte, of exactly the picture's length and one byte less.
fn generated(mut lender: Lender, seeds: Range<u64>) {
    let count = seeds.end - seeds.start;
    with_room(|| {
        for seed in seeds {
            let case = Case {
                operation: DRAW,
                ..case(seed)
            };
            assert_eq!(lender.misfit_around(&case, seed), None, "seed {seed}");
        }
    });
    assert!(lender.calls() > 6 * count, "only {} calls", lender.calls());
}

// Would catch any rule of the language taken otherwise, a shortage told too early, too late or elsewhere, a miscounted step, a slice that is left dirty by any
// way out of a run, a wrong byte of any picture, a byte behind it that is touched, an out slice written by a run that ends in a number, 80 off by one, and 80
// without the length that is needed.
#[test]
fn generated_cases() {
    generated(Lender::default(), 0..4_000);
}

// The work slices of these are looked at in one of eight calls, which takes half the time.
#[test]
fn more_generated_cases() {
    generated(Lender::seldom(), 4_000..12_000);
}

#[test]
fn still_more_generated_cases() {
    generated(Lender::seldom(), 12_000..20_000);
}

// Would catch a component's step, shape or entry that falls due at another moment, a group gone through in another order, one destroyed or copied otherwise, and
// places of a loop that are mixed up when its body changes what it goes through.
#[test]
fn programs_with_groups() {
    let mut lender = Lender::seldom();
    with_room(|| {
        for seed in 0..6_000 {
            let program = groups::program(&mut Random::new(seed));
            let case = plain(DRAW, &program);
            assert_eq!(lender.misfit_around(&case, seed), None, "seed {seed}");
        }
    });
}

// Would catch a limit off by one, 73, 74, 75 or a constant's range asked in another order, and an out slice that is written before a limit is found to be
// passed.
#[test]
fn programs_at_every_limit() {
    let mut lender = Lender::default();
    for (i, program) in limit::programs().iter().enumerate() {
        let case = plain(DRAW, program);
        assert_eq!(lender.misfit_around(&case, i as u64), None, "limit {i}");
    }
}

// Would catch an operator, key, centre or library call that is wrong for one pair of kinds or one extreme integer only, and its digits written wrongly.
#[test]
fn systematic_programs() {
    let mut lender = Lender::default();
    for (i, program) in systematic::programs().iter().enumerate() {
        let case = plain(DRAW, program);
        let misfit = lender.misfit_by_room(&case, i as u64);
        assert_eq!(misfit, None, "systematic {i}");
    }
}

// Would catch a store that breaks when it is nearly full, and an index that loses entries.
#[test]
fn runs_that_take_much() {
    let mut lender = Lender::default();
    for (i, case) in heavy::cases().iter().enumerate() {
        assert_eq!(lender.misfit_of(case, i as u64), None, "heavy {i}");
    }
}

// Would catch what only goes wrong after very many steps: 100,000, where those of generated cases are fewer, and all the stores.
#[test]
fn long_runs() {
    let mut lender = Lender::default();
    let mut long = 0;
    for seed in 0..1_500 {
        let case = case(seed);
        let specified = run_specified(DRAW, &case.program, 20, 20, EVENTS);
        // One that only lacks a 65th call ends soon.
        if specified.end != End::Cut || needed(&specified.events).calls == 64 {
            continue;
        }
        long += 1;
        let case = Case {
            grants: Grants {
                steps: 100_000,
                ..Grants::LARGEST
            },
            ..plain(DRAW, &case.program)
        };
        assert_eq!(lender.misfit_by_room(&case, seed), None, "seed {seed}");
    }
    assert!(long > 20, "only {long} runs");
}

// Would catch two names taken for one, or one for two, by the index of names: many variables whose names are alike, some of them declared twice or used
// undeclared.
#[test]
fn many_names() {
    let mut lender = Lender::default();
    for seed in 0..80 {
        let mut random = Random::new(seed);
        let letters = random.pick(&["ab", "aA0", "xyzXYZ0189"]).as_bytes();
        let longest = random.between(8, 20);
        let mut name = || {
            let mut name = String::from("v");
            for _ in 0..random.between(3, longest) {
                name.push(char::from(*random.pick(letters)));
            }
            name
        };
        let names: Vec<String> = (0..500).map(|_| name()).collect();
        let mut body = String::new();
        let mut declared = BTreeSet::new();
        for (i, name) in names.iter().enumerate() {
            // Now and then one is declared again, which ends the run.
            if declared.insert(name) || i % 400 == 399 {
                body.push_str(&format!("var {name};"));
            }
            body.push_str(&format!("{name}={i};"));
        }
        for group in names.chunks(4).take(60) {
            if let [a, b, c, d] = group {
                body.push_str(&format!("{a}=drawLine({a},{b},{c},{d});{a}=1;"));
            }
        }
        body.push_str(&format!("h=drawText({},{},\"a\");", names[7], names[333]));
        let case = plain(DRAW, &main_of(&body));
        assert_eq!(lender.misfit_around(&case, seed), None, "seed {seed}");
    }
}

// Would catch a picture of 36 megabytes that wraps, stops or is written twice.
#[test]
fn the_largest_pictures() {
    let mut lender = Lender::default();
    let mut drawn = 0;
    for (i, case) in heavy::cases().into_iter().enumerate() {
        // An out slice of another length is tried with the case of the same program.
        if case.out_length != 0 {
            continue;
        }
        let Answer::Number {
            length_needed: Some(length),
            ..
        } = case.answer()
        else {
            continue;
        };
        for out_length in [length - 1, length, length + 1] {
            let case = Case {
                out_length,
                ..case.clone()
            };
            let misfit = lender.misfit_of(&case, 3 + 4 * i as u64);
            assert_eq!(misfit, None, "heavy {i} into {out_length}");
        }
        drawn += u64::from(length > 65_536);
    }
    assert!(drawn >= 2, "only {drawn} large pictures");
}

// Would catch 72 asked late, of one side only or not at all, and digits of the viewBox miscounted or written wrongly: widths and heights that are 0, negative
// or extreme, each with each.
#[test]
fn widths_and_heights() {
    const SIDES: [i32; 12] = [
        i32::MIN,
        i32::MIN + 1,
        -65_536,
        -1,
        0,
        1,
        9,
        10,
        65_536,
        999_999_999,
        i32::MAX - 1,
        i32::MAX,
    ];
    let mut lender = Lender::default();
    let programs = [
        all_kinds(),
        main_of("h=drawBox(w+h,w*h,w/h,w-h);w=drawText(w,0,\"a\");"),
        // Not well formed, and beyond the limit: 72 goes before both.
        main_of(""),
        vec![b' '; 32_769],
    ];
    let mut seed = 0;
    for width in SIDES {
        for height in SIDES {
            for program in &programs {
                let case = Case {
                    width,
                    height,
                    ..plain(DRAW, program)
                };
                let misfit = lender.misfit_around(&case, seed);
                assert_eq!(misfit, None, "{width} by {height}");
                seed += 1;
            }
        }
    }
}

// Would catch a slice whose length is not asked, asked off by one, or asked after something else, and an out slice or work slice written before all are asked.
#[test]
fn short_slices_are_71_and_kept() {
    common::short_slices(DRAW);
}

// Would catch a count's range off by one, and a needed length that wraps.
#[test]
fn counts_out_of_range_are_71() {
    common::counts_out_of_range(DRAW);
}

// Would catch 73 off by one or asked after reading.
#[test]
fn programs_beyond_the_limit_are_73() {
    let mut lender = Lender::default();
    for length in [32_768, 32_769, 65_536, 65_537, 1 << 20, (1 << 24) + 1] {
        for byte in [b'(', b' ', b'!', b'a'] {
            let mut program = all_kinds();
            program.resize(length, byte);
            let case = plain(DRAW, &program);
            let misfit = lender.misfit_by_room(&case, 3);
            assert_eq!(misfit, None, "{length} of {byte}");
        }
    }
}

// Would catch a picture that is begun before its length is known to fit, at every length that the slice can have.
#[test]
fn out_slices_of_every_length() {
    let mut lender = Lender::default();
    for body in [DAY, "1;", "w=drawEllipse(-1,-22,-333,-2147483648);"] {
        let case = plain(DRAW, &main_of(body));
        let need = need(&case);
        for out_length in (0..=need + 3).chain([2 * need, 65_536, 1 << 20]) {
            let case = Case {
                out_length,
                ..case.clone()
            };
            // Bits that differ from place to place, or all ones.
            for seed in [2, 3] {
                let misfit = lender.misfit_of(&case, seed);
                assert_eq!(misfit, None, "{body} into {out_length}");
            }
        }
    }
}

// Would catch an answer written beyond its slice, or in another order, a number that is not returned, or a picture that depends on either. Needs no reference.
#[test]
fn an_answer_fills_what_there_is() {
    let need = DAY_PICTURE.len();
    let length = need as u64;
    for (body, room, whole) in [
        (DAY, need, [0, 0, 15, length]),
        (DAY, need - 1, [80, 0, 15, length]),
        (DAY, 0, [80, 0, 15, length]),
        ("w;var w;", need, [60, 16, 3, 0]),
        ("w;var w;", 0, [60, 16, 3, 0]),
    ] {
        for length in 0..8 {
            let mut answer = [u64::MAX; 10];
            let mut out = vec![b'#'; room];
            let number = draw_to(
                &main_of(body),
                20,
                20,
                GRANTS,
                &mut work(GRANTS),
                &mut out,
                &mut answer[..length],
            );
            assert_eq!(number, whole[0], "{length}");
            let written = length.min(4);
            assert_eq!(answer[..written], whole[..written], "{length}");
            assert!(answer[written..].iter().all(|word| *word == u64::MAX));
            match whole[0] {
                0 => assert_eq!(out, DAY_PICTURE.as_bytes()),
                _ => assert!(out.iter().all(|byte| *byte == b'#')),
            }
        }
    }
}

// What document 01 checks by hand, byte by byte, with its own picture and no reference.
#[test]
fn the_day() {
    let program = main_of(DAY);
    let need = DAY_PICTURE.len();
    for (grants, room, number) in [
        (GRANTS, 65_536, 0),
        (GRANTS, need, 0),
        (GRANTS, need - 1, 80),
        (GRANTS, 0, 80),
        (
            Grants {
                steps: 15,
                ..GRANTS
            },
            need,
            0,
        ),
        (
            Grants {
                steps: 14,
                ..GRANTS
            },
            need,
            79,
        ),
        (
            Grants {
                shapes: 4,
                ..GRANTS
            },
            need,
            0,
        ),
        (
            Grants {
                shapes: 3,
                ..GRANTS
            },
            need,
            76,
        ),
    ] {
        let mut out = vec![b'#'; room];
        let found = draw(&program, 20, 20, grants, &mut work(grants), &mut out);
        assert_eq!(found.number, number);
        let mut wanted = vec![b'#'; room];
        if number == 0 {
            wanted[..need].copy_from_slice(DAY_PICTURE.as_bytes());
        }
        assert_eq!(out, wanted, "{grants:?} into {room}");
    }
}

// Would catch a length told to an empty out slice that is not the picture's: drawing into as much always fits, after the same steps, one byte less is 80 with
// that length again, and any other answer does not depend on the out slice. Needs no reference.
#[test]
fn drawn_is_as_long_as_80_tells() {
    let mut pictures = 0;
    for seed in 0..3_000 {
        let Case {
            width,
            height,
            grants,
            program,
            ..
        } = case(seed);
        let mut work = work(grants);
        let mut draw = |out: &mut [u8]| draw(&program, width, height, grants, &mut work, out);
        let told = draw(&mut []);
        assert_ne!(told.number, 0, "seed {seed}");
        let room = told.length as usize;
        let mut out = vec![b'#'; room.max(1_000)];
        if told.number != 80 {
            assert_eq!(draw(&mut out), told, "seed {seed}");
            assert!(out.iter().all(|byte| *byte == b'#'), "seed {seed}");
            continue;
        }
        pictures += 1;
        let drawn = draw(&mut out[..room]);
        let wanted = Numbers { number: 0, ..told };
        assert_eq!(drawn, wanted, "seed {seed}");
        assert!(out[..room].starts_with(b"<?xml") && out[..room].ends_with(b"</svg>\n"));
        let mut less = vec![b'#'; room - 1];
        assert_eq!(draw(&mut less), told, "seed {seed}");
        assert!(less.iter().all(|byte| *byte == b'#'), "seed {seed}");
    }
    assert!(pictures > 400, "only {pictures} pictures");
}

// Would catch any row of the decisions taken otherwise. The results are those of the document, not of the reference.
#[test]
fn decisions() {
    let rows = rows();
    for row in &rows {
        let mut work = work(row.grants);
        let checks = row.operation == Operation::Check;
        let found = if checks {
            check(&row.program, row.grants, &mut work.tokens, &mut work.code)
        } else {
            let mut out = vec![b'#'; row.out_length as usize];
            draw(&row.program, 20, 20, row.grants, &mut work, &mut out)
        };
        let short = match found.number {
            0 if checks => "well formed".to_string(),
            0 => format!("picture s{}", found.steps),
            number => format!("{number}@{} s{}", found.place, found.steps),
        };
        assert_eq!(short, row.result, "row {}", row.number);
    }
    assert!(202 <= rows.len(), "only {} rows were read", rows.len());
}

/// The answer of drawing a body into an out slice of so many bytes.
fn drawn(body: &str, grants: Grants, room: usize) -> Numbers {
    let mut out = vec![b'#'; room];
    let mut work = work(grants);
    draw(&main_of(body), 20, 20, grants, &mut work, &mut out)
}

// What document 01 checks by hand, with its numbers written out here.
#[test]
fn checked_by_hand() {
    let answer = |number, place, steps, length| Numbers {
        number,
        place,
        steps,
        length,
    };
    assert_eq!(drawn(DAY, GRANTS, 65_536), answer(0, 0, 15, 213));
    assert_eq!(drawn(DAY, GRANTS, 0), answer(80, 0, 15, 213));
    let few = |steps, shapes| Grants {
        steps,
        shapes,
        ..GRANTS
    };
    assert_eq!(drawn(DAY, few(15, 4), 213), answer(0, 0, 15, 213));
    assert_eq!(drawn(DAY, few(15, 4), 212), answer(80, 0, 15, 213));
    // With an empty out slice too, a shortage on the way goes before 80.
    for room in [0, 65_536] {
        assert_eq!(drawn(DAY, few(14, 4), room), answer(79, 47, 14, 0));
        assert_eq!(drawn(DAY, few(15, 3), room), answer(76, 47, 15, 0));
        assert_eq!(drawn("", GRANTS, room), answer(10, 14, 0, 0));
        assert_eq!(drawn("var a;", Grants::LEAST, room), answer(79, 14, 0, 0));
        assert_eq!(drawn("var w;", GRANTS, room), answer(60, 14, 1, 0));
        assert_eq!(drawn("a=1;", GRANTS, room), answer(50, 14, 2, 0));
        assert_eq!(drawn("1+2+3;", GRANTS, room), answer(10, 17, 0, 0));
        let mut out = vec![b'#'; room];
        let empty = draw(b"", 20, 20, GRANTS, &mut work(GRANTS), &mut out);
        assert_eq!(empty, answer(10, 0, 0, 0));
    }
    // Neither 50 nor 60 is found in a statement that is never reached.
    assert_eq!(drawn("if(false){a=1;var w;}", GRANTS, 65_536).number, 0);
}

// Would catch a slice whose garbage shows in the next answer: one set of slices serves many calls and is never filled again.
#[test]
fn slices_are_used_again() {
    let mut work = work(GRANTS);
    let mut out = vec![b'#'; 65_536];
    for seed in 0..2_000 {
        let program = case(seed).program;
        let case = Case {
            grants: Grants {
                steps: 5_000,
                ..GRANTS
            },
            ..plain(DRAW, &program)
        };
        let found = draw(&program, 20, 20, case.grants, &mut work, &mut out);
        let wanted = case.answer();
        assert_eq!(found, numbers(&wanted), "seed {seed}");
        if let Answer::Picture { bytes, .. } = wanted {
            assert_eq!(out[..bytes.len()], bytes, "seed {seed}");
        }
    }
}

// Would catch a result that more of anything changes although it named nothing lacking: demand 3, on the library alone.
#[test]
fn more_changes_only_a_shortage() {
    let mut settled = 0;
    let mut work = work(Grants::LARGEST);
    for seed in 0..1_500 {
        let Case {
            width,
            height,
            grants,
            program,
            out_length,
            ..
        } = case(seed);
        let mut out = vec![b'#'; out_length as usize];
        let first = draw(&program, width, height, grants, &mut work, &mut out);
        if first.number > 75 {
            continue;
        }
        settled += 1;
        let mut more_out = vec![b'#'; out_length as usize + 100];
        let second = draw(
            &program,
            width,
            height,
            Grants::LARGEST,
            &mut work,
            &mut more_out,
        );
        assert_eq!(second, first, "seed {seed}");
        assert_eq!(more_out[..out.len()], out, "seed {seed}");
        assert!(more_out[out.len()..].iter().all(|byte| *byte == b'#'));
    }
    assert!(settled > 700, "only {settled} settled");
}

// Would catch anything kept from call to call outside the lent slices: many threads make the same calls at once.
#[test]
fn many_threads_draw_the_same() {
    let case = plain(DRAW, &all_kinds());
    let threads: Vec<_> = (0..8)
        .map(|seed| {
            let case = case.clone();
            std::thread::spawn(move || {
                let mut lender = Lender::default();
                for turn in 0..50 {
                    assert_eq!(lender.misfit_of(&case, seed + turn), None);
                }
            })
        })
        .collect();
    for thread in threads {
        thread.join().expect("a thread that agrees");
    }
}
