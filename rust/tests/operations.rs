//! The operations, on programs of their own and on those in `examples/`.

use img::{Grants, Picture, Refusal, Workspace, MOST_PROGRAM};
use std::fs;
use std::path::{Path, PathBuf};

const DAY: &[u8] = br#"def main(w,h){var a;var b;a=drawBox(2,9,3,h-9);b=drawText(2,h,"day");}"#;
const DAY_LENGTH: usize = 213;
const DAY_TEXT: &str =
    "def main(w,h){\nvar a;\nvar b;\na=drawBox(2,9,3,h-9);\nb=drawText(2,h,\"day\");\n}\n";

/// An example: its name, program, width, height, and what `imgdraw` prints for it.
struct Example {
    name: String,
    program: Vec<u8>,
    width: i32,
    height: i32,
    printed: Vec<u8>,
}

fn folder(name: &str) -> PathBuf {
    Path::new(env!("CARGO_MANIFEST_DIR"))
        .join("../examples")
        .join(name)
}

fn examples(name: &str, printed: &str) -> Vec<Example> {
    let mut found: Vec<Example> = fs::read_dir(folder(name))
        .unwrap()
        .map(|entry| entry.unwrap().path())
        .filter(|path| path.extension().is_some_and(|e| e == "img"))
        .map(|path| {
            let size = fs::read_to_string(path.with_extension("size")).unwrap();
            let (width, height) = size.trim_end().split_once(' ').unwrap();
            Example {
                name: path.file_stem().unwrap().to_str().unwrap().to_owned(),
                program: fs::read(&path).unwrap(),
                width: width.parse().unwrap(),
                height: height.parse().unwrap(),
                printed: fs::read(path.with_extension(printed)).unwrap(),
            }
        })
        .collect();
    found.sort_by(|a, b| a.name.cmp(&b.name));
    found
}

#[test]
fn examples_are_drawn() {
    let found = examples("drawings", "svg");
    assert!(found.len() >= 5);
    let mut workspace = Workspace::new(Grants::IMGDRAW);
    for e in found {
        let mut out = vec![7; 65_536];
        assert_eq!(workspace.check(&e.program), Ok(()), "{}", e.name);
        let picture = workspace
            .draw(&e.program, e.width, e.height, &mut out)
            .unwrap();
        assert!(out[..picture.length] == e.printed[..], "{}", e.name);
        assert!(out[picture.length..].iter().all(|b| *b == 7), "{}", e.name);
        let told = workspace.length(&e.program, e.width, e.height);
        assert_eq!(told, Ok(picture), "{}", e.name);
        // What the vector held makes no difference.
        for mut vector in [Vec::new(), vec![7; 100_000]] {
            let drawn = workspace.draw_vec(&e.program, e.width, e.height, 65_536, &mut vector);
            assert_eq!(drawn, Ok(picture), "{}", e.name);
            assert!(vector == e.printed, "{}", e.name);
        }
    }
}

#[test]
fn examples_of_numbers_get_them() {
    let found = examples("numbers", "txt");
    let names: Vec<&str> = found.iter().map(|e| e.name.as_str()).collect();
    assert_eq!(
        names.join(" "),
        "10 20 30 40 50 60 70 72 73 74 75 76 77 78 79 80 81"
    );
    let mut workspace = Workspace::new(Grants::IMGDRAW);
    for e in found {
        let mut out = vec![7; 65_536];
        let refusal = workspace
            .draw(&e.program, e.width, e.height, &mut out)
            .unwrap_err();
        let printed = format!("error {} at {}\n", refusal.number, refusal.place);
        assert_eq!(printed.as_bytes(), e.printed);
        assert_eq!(e.name, refusal.number.to_string());
        assert!(refusal
            .to_string()
            .starts_with(&format!("{}: ", printed.trim_end())));
        assert!(out.iter().all(|b| *b == 7), "{}", e.name);
        let told = workspace.length(&e.program, e.width, e.height);
        let drawn = workspace.draw_vec(&e.program, e.width, e.height, usize::MAX, &mut out);
        match refusal.number {
            80 => {
                let picture = Picture {
                    length: refusal.length,
                    steps: refusal.steps,
                };
                assert_eq!(told, Ok(picture));
                // As much as it needs is lent.
                assert_eq!(drawn, Ok(picture));
                assert_eq!(out.len(), refusal.length);
                assert!(out.starts_with(b"<?xml") && out.ends_with(b"</svg>\n"));
                let most = refusal.length - 1;
                let drawn = workspace.draw_vec(&e.program, e.width, e.height, most, &mut out);
                assert_eq!(drawn, Err(refusal));
            }
            _ => {
                assert_eq!(told, Err(refusal));
                assert_eq!(drawn, Err(refusal));
            }
        }
        assert!(out.is_empty(), "{}", e.name);
    }
}

#[test]
fn examples_have_one_text() {
    let mut workspace = Workspace::new(Grants::IMGDRAW);
    let mut kept = 0;
    for e in examples("drawings", "svg") {
        let text = workspace.text_string(&e.program).unwrap();
        assert!(text.is_ascii(), "{}", e.name);
        let again = workspace.text_string(text.as_bytes()).unwrap();
        assert!(again == text, "{}", e.name);
        // It is the same drawing, whatever the white space is.
        let drawn = |workspace: &mut Workspace, program: &str| {
            let mut out = Vec::new();
            let picture =
                workspace.draw_vec(program.as_bytes(), e.width, e.height, 65_536, &mut out);
            assert!(out == e.printed, "{}", e.name);
            picture.unwrap().steps
        };
        let program = String::from_utf8(e.program.clone()).unwrap();
        let steps = drawn(&mut workspace, &program);
        assert_eq!(drawn(&mut workspace, &text), steps, "{}", e.name);
        for (from, to) in [("\n", "\n\n\t "), ("\n", " "), (";", " ; "), ("(", "( ")] {
            let spaced = program.replace(from, to);
            let other = workspace.text_string(spaced.as_bytes()).unwrap();
            assert!(other == text, "{}", e.name);
        }
        if let Ok(expected) = fs::read_to_string(folder("texts").join(format!("{}.img", e.name))) {
            assert!(text == expected, "{}", e.name);
            kept += 1;
        }
    }
    assert!(kept >= 3);
}

#[test]
fn a_program_that_cannot_be_read_has_no_text() {
    let mut workspace = Workspace::new(Grants::IMGDRAW);
    let mut refused = Vec::new();
    for e in examples("numbers", "txt") {
        let mut out = vec![7; MOST_PROGRAM];
        let checked = workspace.check(&e.program);
        let text = workspace.text(&e.program, &mut out);
        assert_eq!(text.map(|_| ()), checked, "{}", e.name);
        let length = text.unwrap_or(0);
        assert!(out[length..].iter().all(|b| *b == 7), "{}", e.name);
        if text.is_err() {
            refused.push(e.name);
        }
    }
    assert_eq!(refused.join(" "), "10 73 74 75");
    let twice = b"def f(){1;}def f(){1;}def main(w,h){1;}";
    let refusal = workspace.text_string(twice).unwrap_err();
    assert_eq!((refusal.number, refusal.place), (60, 11));
}

#[test]
fn what_the_text_leaves_out() {
    let mut workspace = Workspace::new(Grants::IMGDRAW);
    for (body, lines) in [
        ("w = ( ( 1 ) + ( 2 ) ) ;", "w=1+2;"),
        ("w = ( 1 + 2 ) + 3 ;", "w=(1+2)+3;"),
        ("w = ( a . b ) + ( c . d ) ;", "w=a.b+c.d;"),
        ("w = ( a . b ) . ( c ) ;", "w=(a.b).c;"),
        ("( a ) . ( b ) = ( c ) ;", "a.b=c;"),
        ("w = [ ( 0 ) ] ;", "w=[0];"),
        ("w = f ( ( w ) , ( 1 + h ) ) ;", "w=f(w,1+h);"),
        (
            "w = -00 ; w = 000 ; w = -010 ; w = w - -1 ;",
            "w=0;\nw=0;\nw=-10;\nw=w--1;",
        ),
        ("return ( w ) ;", "return w;"),
        ("return ( \"a\" ) ;", "return\"a\";"),
        ("return ( -1 ) ;", "return-1;"),
        ("return ( [ 1 ] ) ;", "return[1];"),
        ("return ( w + 1 ) + 2 ;", "return(w+1)+2;"),
        ("var  a ;", "var a;"),
        ("if ( ( w ) ) w ;", "if(w)\nw;"),
        ("while ( w ) { w ; }", "while(w)\n{\nw;\n}"),
        ("{ { w ; } }", "{\n{\nw;\n}\n}"),
    ] {
        let program = format!("def f ( a , b ) {{ 1 ; }} def main ( w , h ) {{ {body} }}");
        let text = workspace.text_string(program.as_bytes()).unwrap();
        assert_eq!(
            text,
            format!("def f(a,b){{\n1;\n}}\ndef main(w,h){{\n{lines}\n}}\n")
        );
        assert_eq!(workspace.text_string(text.as_bytes()).unwrap(), text);
    }
}

#[test]
fn a_text_that_does_not_fit_is_82() {
    let mut workspace = Workspace::new(Grants::IMGDRAW);
    let refused = |length| Refusal {
        number: 82,
        place: 0,
        steps: 0,
        length,
    };
    let length = DAY_TEXT.len();
    let mut out = vec![7; length + 1];
    assert_eq!(workspace.text(DAY, &mut out), Ok(length));
    assert_eq!(&out[..length], DAY_TEXT.as_bytes());
    assert_eq!(out[length], 7);
    let mut out = vec![7; length];
    assert_eq!(workspace.text(DAY, &mut out), Ok(length));
    let mut out = vec![7; length - 1];
    assert_eq!(workspace.text(DAY, &mut out), Err(refused(length)));
    assert!(out.iter().all(|b| *b == 7));
    assert_eq!(workspace.text(DAY, &mut []), Err(refused(length)));
    assert_eq!(
        refused(length).to_string(),
        format!("error 82 at 0: the drawing's one text is longer than 32,768 bytes, or than the place lent for it; it needs {length} bytes")
    );

    // All that a text may have, and one byte more, which no out slice is enough for.
    let longest = format!("def main(w,h){{{}}}", "wwwwwww;".repeat(3_639));
    let mut out = vec![7; MOST_PROGRAM + 1];
    let told = workspace.text(longest.as_bytes(), &mut out);
    assert_eq!(told, Ok(MOST_PROGRAM));
    assert_eq!(out[MOST_PROGRAM], 7);
    let longer = longest.replace(";}", "w;}");
    assert!(longer.len() < MOST_PROGRAM);
    assert_eq!(workspace.check(longer.as_bytes()), Ok(()));
    for room in [MOST_PROGRAM, MOST_PROGRAM + 1, 100_000] {
        let mut out = vec![7; room];
        let told = workspace.text(longer.as_bytes(), &mut out);
        assert_eq!(told, Err(refused(MOST_PROGRAM + 1)), "{room}");
        assert!(out.iter().all(|b| *b == 7));
    }
    let told = workspace.text_string(longer.as_bytes());
    assert_eq!(told, Err(refused(MOST_PROGRAM + 1)));
}

#[test]
fn every_number_has_a_sentence() {
    let sentence = |number| {
        let refusal = Refusal {
            number,
            place: 0,
            steps: 0,
            length: 0,
        };
        refusal.sentence()
    };
    let mut sentences: Vec<&str> = (10..=70).step_by(10).chain(71..=82).map(sentence).collect();
    assert!(sentences.iter().all(|s| *s != sentence(0)));
    sentences.sort_unstable();
    sentences.dedup();
    assert_eq!(sentences.len(), 19);
}

#[test]
fn the_out_slice_is_just_long_enough_or_one_byte_short() {
    let mut workspace = Workspace::new(Grants::IMGDRAW);
    let mut out = [7; DAY_LENGTH];
    let picture = Picture {
        length: DAY_LENGTH,
        steps: 15,
    };
    assert_eq!(workspace.draw(DAY, 20, 20, &mut out), Ok(picture));
    assert!(out.ends_with(b"</svg>\n"));

    let mut out = [7; DAY_LENGTH - 1];
    let refusal = workspace.draw(DAY, 20, 20, &mut out).unwrap_err();
    assert_eq!(
        refusal,
        Refusal {
            number: 80,
            place: 0,
            steps: 15,
            length: DAY_LENGTH
        }
    );
    assert_eq!(out, [7; DAY_LENGTH - 1]);
    assert_eq!(
        refusal.to_string(),
        "error 80 at 0: the picture is longer than the place lent for it; it needs 213 bytes"
    );
    assert_eq!(workspace.draw(DAY, 20, 20, &mut []), Err(refusal));
    assert_eq!(workspace.length(DAY, 20, 20), Ok(picture));
}

#[test]
fn counts_out_of_their_ranges_are_71() {
    let most = Grants::MOST;
    for grants in [
        Grants {
            steps: most.steps + 1,
            ..most
        },
        Grants {
            shapes: most.shapes + 1,
            ..most
        },
        Grants {
            entries: u64::MAX,
            ..most
        },
        Grants {
            text_bytes: u64::MAX,
            ..most
        },
        Grants { calls: 0, ..most },
        Grants { calls: 65, ..most },
    ] {
        let mut workspace = Workspace::new(grants);
        let mut out = [7; 10];
        let refused = Err(Refusal {
            number: 71,
            place: 0,
            steps: 0,
            length: 0,
        });
        assert_eq!(workspace.draw(DAY, 20, 20, &mut out), refused);
        assert_eq!(workspace.length(DAY, 20, 20), refused);
        assert_eq!(workspace.check(DAY), refused.map(|_: Picture| ()));
        assert_eq!(workspace.text(DAY, &mut out), refused.map(|_| 0));
        assert_eq!(out, [7; 10]);
    }
}

#[test]
fn all_and_nothing_can_be_granted() {
    let mut all = Workspace::new(Grants::MOST);
    assert_eq!(all.grants(), Grants::MOST);
    assert_eq!(all.length(DAY, 20, 20).unwrap().length, DAY_LENGTH);

    let nothing = Grants {
        steps: 0,
        shapes: 0,
        entries: 0,
        text_bytes: 0,
        // Main is a call.
        calls: 1,
    };
    let mut none = Workspace::new(nothing);
    assert_eq!(none.length(DAY, 20, 20).unwrap_err().number, 79);
    assert_eq!(none.length(b"", 20, 20).unwrap_err().number, 10);
    assert_eq!(none.check(b"").unwrap_err().place, 0);
    assert_eq!(none.text_string(DAY).unwrap(), DAY_TEXT);
}

#[test]
fn calls_are_granted() {
    let program = b"def f(n){if(n>0)return f(n-1);return n;}def main(w,h){f(5);}";
    for (calls, number) in [(1, 81), (6, 81), (7, 0), (64, 0)] {
        let mut workspace = Workspace::new(Grants {
            calls,
            ..Grants::IMGDRAW
        });
        let told = workspace.length(program, 20, 20);
        assert_eq!(told.map_or_else(|r| r.number, |_| 0), number, "{calls}");
        assert_eq!(workspace.check(program), Ok(()));
    }
}

#[test]
fn nothing_of_one_call_reaches_the_next() {
    let mut used = Workspace::new(Grants::IMGDRAW);
    for e in examples("numbers", "txt") {
        let first = used.length(&e.program, e.width, e.height);
        let fresh = Workspace::new(Grants::IMGDRAW).length(&e.program, e.width, e.height);
        assert_eq!(first, fresh, "{}", e.name);
    }
}

#[test]
fn workspaces_draw_at_the_same_time() {
    let threads: Vec<_> = (0..4)
        .map(|_| {
            std::thread::spawn(|| {
                let mut workspace = Workspace::new(Grants::IMGDRAW);
                (0..50).all(|_| workspace.length(DAY, 20, 20).unwrap().length == DAY_LENGTH)
            })
        })
        .collect();
    assert!(threads.into_iter().all(|t| t.join().unwrap()));
}
