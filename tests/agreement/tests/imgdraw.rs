//! The program `imgdraw` prints what the reference says of each input.

use agreement::programs::{printed, printed_piecewise, printed_with_stack};
use generator::backwards::{at_the_edges, Drawing, SIDE};
use generator::case::any_program;
use generator::random::Random;
use generator::readers::{dots, well_formed};
use reference::operation::Answer;
use reference::sheet::{answer, print};
use std::time::{Duration, Instant};

/// Both print the same; says what.
fn compare(input: &[u8]) -> Vec<u8> {
    let (is, should) = (printed("imgdraw", input), print(input));
    assert!(
        is == should,
        "an input of {} bytes that begins {:?}\nprinted {} bytes:\n{}\nexpected {} bytes:\n{}",
        input.len(),
        String::from_utf8_lossy(&input[..input.len().min(1_000)]),
        is.len(),
        String::from_utf8_lossy(&is[..is.len().min(300)]),
        should.len(),
        String::from_utf8_lossy(&should[..should.len().min(300)])
    );
    is
}

fn sheet(line: &str, program: &[u8]) -> Vec<u8> {
    [line.as_bytes(), program].concat()
}

const ERROR_72: &[u8] = b"error 72 at 0\n";
const ERROR_73: &[u8] = b"error 73 at 0\n";
const ERROR_80: &[u8] = b"error 80 at 0\n";
/// The longest line that is read.
const LONG_LINE: &str = "2147483647 0000000020\n";

/// A side as it may stand in a line, now and then one that is refused.
fn side(random: &mut Random) -> String {
    let value = match random.weighted(&[60, 30, 5, 5]) {
        0 => random.between(1, 40) as u64,
        1 => random.between(1, 10_000) as u64,
        2 => *random.pick(&[0, 1, 2_147_483_647, 2_147_483_648, 9_999_999_999]),
        _ => random.bits() >> 31,
    };
    match random.weighted(&[90, 4, 4, 1, 1]) {
        0 => format!("{value}"),
        1 => format!("{value:010}"),
        2 => format!("0{value}"),
        3 => format!("{value:011}"),
        _ => format!("-{value}"),
    }
}

/// A group that was doubled so often has more empty places than any grant has steps: a foreach ends at once, and the picture counts to its last step.
#[test]
fn doublings() {
    let doubled = |rest: &str| {
        let program = format!("def main(w,h){{var g;g=drawGroup();var i;i=0;while(i<250){{g=drawGroup(g,g);i=i+1;}}{rest}}}");
        let begun = Instant::now();
        let found = compare(&sheet("640 480\n", program.as_bytes()));
        (found, begun.elapsed())
    };
    let (picture, time) = doubled("foreach x in g do 1;g=none;w=drawLine(1,2,3,4);");
    assert!(picture.starts_with(b"<?xml"));
    assert!(time < Duration::from_secs(30), "{time:?}");
    let (number, time) = doubled("foreach x in g do 1;");
    assert_eq!(number, b"error 79 at 0\n");
    assert!(time < Duration::from_secs(30), "{time:?}");
}

#[test]
fn generated_sheets() {
    let mut pictures = 0;
    let mut numbers = 0;
    for seed in 0..1_000 {
        let mut random = Random::new(seed);
        let line = format!("{} {}\n", side(&mut random), side(&mut random));
        let text = compare(&sheet(&line, &any_program(&mut random)));
        match text.starts_with(b"<?xml") {
            true => pictures += 1,
            false => numbers += 1,
        }
    }
    assert!(pictures > 150 && numbers > 200, "{pictures}, {numbers}");
}

/// Every number but 71 is printed for one sheet or another.
#[test]
fn every_number() {
    let examples = concat!(env!("CARGO_MANIFEST_DIR"), "/../../examples/numbers");
    let mut seen = 0;
    for entry in std::fs::read_dir(examples).unwrap() {
        let path = entry.unwrap().path();
        if path.extension().is_some_and(|end| end == "img") {
            let line = std::fs::read_to_string(path.with_extension("size")).unwrap();
            let number = path.file_stem().unwrap().to_str().unwrap();
            let text = compare(&sheet(&line, &std::fs::read(&path).unwrap()));
            assert!(text.starts_with(format!("error {number} at ").as_bytes()));
            seen += 1;
        }
    }
    assert_eq!(seen, 17);
}

#[test]
fn programs_at_every_limit() {
    for program in generator::limit::programs() {
        compare(&sheet("20 20\n", &program));
    }
}

/// The usual 8 MB of stack are enough for the deepest programs: 64 calls under way, each in 64 levels.
#[test]
fn the_deepest_programs_in_8_megabytes_of_stack() {
    let deepest = generator::limit::deepest(64);
    assert!(deepest.len() >= 70, "only {}", deepest.len());
    for (i, program) in deepest.iter().enumerate() {
        let input = sheet("20 20\n", program);
        let found = printed_with_stack("imgdraw", 8_192, &input);
        assert!(found == Some(print(&input)), "deepest {i}");
    }
    // The arrays alone have more than 2 MB, so the limit is one that binds.
    let input = sheet("20 20\n", b"def main(w,h){1;}");
    assert_eq!(printed_with_stack("imgdraw", 1_024, &input), None);
}

#[test]
fn first_lines() {
    let sides = [
        "",
        "0",
        "1",
        "20",
        "007",
        "999999999",
        "0000000001",
        "2147483646",
        "2147483647",
        "2147483648",
        "4294967297",
        "9999999999",
        "00000000001",
        "12345678901",
        "18446744073709551617",
        "-1",
        "+1",
        " 1",
        "1 ",
        "1\r",
        "1\0",
        "0x1",
        "1.5",
        "a",
    ];
    let program = b"def main(w,h){var a;a=drawLine(1,2,w,h);}";
    for width in sides {
        for height in sides {
            compare(&sheet(&format!("{width} {height}\n"), program));
        }
        for between in ["", "  ", "\t", ",", "\n", "\r", " \n"] {
            compare(&sheet(&format!("{width}{between}20\n"), program));
        }
        for behind in ["", " ", " \n", "\r\n", "\r", "\t\n", "\n\n", " 20\n"] {
            compare(&sheet(&format!("20 {width}{behind}"), program));
        }
    }
    assert_eq!(compare(&sheet("20 20\r\n", program)), ERROR_72);
    assert_eq!(compare(&sheet("20  20\n", program)), ERROR_72);
    assert_eq!(compare(&sheet("2147483648 20\n", program)), ERROR_72);
    assert_eq!(compare(&sheet("00000000020 20\n", program)), ERROR_72);
    assert_eq!(compare(&sheet("0 20\n", program)), ERROR_72);
    assert_eq!(compare(program), ERROR_72);
    assert!(compare(&sheet(LONG_LINE, program)).starts_with(b"<?xml"));
}

#[test]
fn cut_off_and_any_bytes() {
    let whole = sheet("20 20\n", b"def main(w,h){var a;a=drawBox(2,9,3,h-9);}\n");
    for length in 0..=whole.len() {
        compare(&whole[..length]);
    }
    for b in 0..=255 {
        for place in [0, 1, 2, 4, 5, 6, 20] {
            let mut other = whole.clone();
            other[place] = b;
            compare(&other);
        }
        compare(&[b]);
    }
    for seed in 0..100 {
        let mut random = Random::new(seed);
        let bytes: Vec<u8> = (0..seed * 7).map(|_| random.bits() as u8).collect();
        compare(&bytes);
        compare(&sheet("20 20\n", &bytes));
    }
}

/// A program of a given length that draws, and that still draws if it is cut at the end.
fn program_of(length: usize) -> Vec<u8> {
    let mut program = b"def main(w,h){var a;a=drawBox(2,9,3,h-9);}".to_vec();
    program.resize(length, b' ');
    program
}

/// Behind each line, the longest too, a program of 32,768 bytes is drawn and one of 32,769 is not, whatever its last byte is and whatever comes behind.
#[test]
fn long_programs() {
    for line in ["1 1\n", "20 20\n", "0000000001 0000000020\n", LONG_LINE] {
        for length in [32_767, 32_768] {
            assert!(compare(&sheet(line, &program_of(length))).starts_with(b"<?xml"));
        }
        for length in [
            32_769, 32_770, 32_786, 32_787, 32_788, 32_790, 32_791, 32_792, 40_000, 65_536, 100_000,
        ] {
            assert_eq!(compare(&sheet(line, &program_of(length))), ERROR_73);
        }
        for last in [b' ', b'!', b'}', b'\0', 0xff] {
            let mut program = program_of(32_769);
            program[32_768] = last;
            assert_eq!(compare(&sheet(line, &program)), ERROR_73);
            program.truncate(32_768);
            program[32_767] = last;
            compare(&sheet(line, &program));
        }
    }
    assert_eq!(LONG_LINE.len(), 22);
}

/// A program with a picture of a given length: three texts of 20,000 bytes and one that fills up.
fn picture_of(length: usize, line: &str) -> Vec<u8> {
    let of = |letters: usize| {
        let body = format!(
            "var t;var a;var b;var c;var d;t=\"{}\";a=drawText(1,2,t);b=drawText(3,4,t);c=drawText(5,6,t);d=drawText(7,8,\"{}\");",
            "x".repeat(20_000),
            "y".repeat(letters)
        );
        sheet(line, format!("def main(w,h){{{body}}}").as_bytes())
    };
    let shortest = print(&of(1)).len();
    of(1 + length - shortest)
}

/// The length that 80 names.
fn needed(input: &[u8]) -> Option<u64> {
    match answer(input) {
        Answer::Number { length_needed, .. } => length_needed,
        _ => None,
    }
}

#[test]
fn long_pictures() {
    for line in ["20 20\n", "1 9\n", "2147483647 2147483647\n"] {
        for length in [65_000, 65_534, 65_535, 65_536] {
            assert_eq!(compare(&picture_of(length, line)).len(), length);
        }
        for length in [65_537, 65_538, 66_000] {
            let input = picture_of(length, line);
            assert_eq!(needed(&input), Some(length as u64));
            assert_eq!(compare(&input), ERROR_80);
        }
    }
}

/// Pictures of drawings with negative sizes: others take them, and show what the drawing forwards shows.
#[test]
fn backwards() {
    let line = format!("{SIDE} {SIDE}\n");
    for seed in 0..100 {
        let drawing = Drawing::any(&mut Random::new(seed));
        let picture = compare(&sheet(&line, &drawing.program()));
        let forwards = compare(&sheet(&line, &drawing.forwards().program()));
        well_formed(&picture);
        let shown = dots(&picture, SIDE);
        assert!(
            shown == dots(&forwards, SIDE),
            "seed {seed}: not as forwards"
        );
        let polygons = dots(&drawing.polygons(), SIDE);
        assert!(shown == polygons, "seed {seed}: not as the polygons");
        let edges = at_the_edges(&mut Random::new(seed));
        let picture = compare(&sheet(&line, &edges));
        well_formed(&picture);
        dots(&picture, SIDE);
    }
}

#[test]
fn no_input() {
    assert_eq!(compare(b""), ERROR_72);
    assert_eq!(compare(b"20 20\n"), b"error 10 at 0\n");
}

/// All of a long input is taken, so that whoever writes it is not cut off.
#[test]
fn long_input() {
    for length in [1_000_000, 8 << 20] {
        assert_eq!(compare(&vec![b' '; length]), ERROR_72);
        assert_eq!(compare(&vec![b'1'; length]), ERROR_72);
        assert_eq!(compare(&vec![0; length]), ERROR_72);
        assert_eq!(compare(&sheet("20 20\n", &program_of(length))), ERROR_73);
        assert_eq!(compare(&sheet(LONG_LINE, &vec![0xff; length])), ERROR_73);
        assert_eq!(compare(&sheet("0 0\n", &program_of(length))), ERROR_72);
    }
}

/// An input that comes in pieces is the same input.
#[test]
fn pieces() {
    let small = sheet("20 20\n", &program_of(60));
    let large = sheet(LONG_LINE, &program_of(32_768));
    let too_large = sheet(LONG_LINE, &program_of(32_769));
    for (input, size) in [
        (&small, 1),
        (&large, 1_000),
        (&large, 4_097),
        (&too_large, 999),
        (&too_large, 32_790),
    ] {
        assert!(printed_piecewise("imgdraw", input.chunks(size)) == print(input));
    }
}
