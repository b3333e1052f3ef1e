//! Everything that document 01 lists as checked by hand.

mod common;

use common::{draw_body, draw_granted, drawn, integer, integer_after, main_of, short};
use reference::sheet::{self, GRANTS, OUT_LENGTH};
use reference::{check, draw, run_specified, Answer, Event, Grants, Operation, Taking};

const DAY: &str = "var a;var b;a=drawBox(2,9,3,h-9);b=drawText(2,h,\"day\");";

const DAY_PICTURE: &str = "<?xml version=\"1.0\"?>
<svg viewBox=\"0 0 20 20\" xmlns=\"http://www.w3.org/2000/svg\" version=\"1.1\">
<g stroke=\"black\" fill=\"black\">
<rect x=\"2\" y=\"9\" width=\"3\" height=\"11\"/>
<text x=\"2\" y=\"20\">day</text>
</g>
</svg>
";

fn all_refuse(program: &[u8], expected: &str) {
    assert_eq!(short(&check(program)), expected);
    for out_length in [0, OUT_LENGTH] {
        assert_eq!(short(&draw(program, 20, 20, GRANTS, out_length)), expected);
    }
}

#[test]
fn empty_program() {
    all_refuse(b"", "10@0 s0");
}

#[test]
fn empty_body() {
    all_refuse(b"def main(w,h){}", "10@14 s0");
}

#[test]
fn one_declaration() {
    assert_eq!(short(&draw_body("var a;")), "picture s1");
    assert_eq!(drawn("var a;"), "");
}

#[test]
fn one_declaration_without_steps() {
    assert_eq!(short(&draw_granted("var a;", Grants::LEAST)), "79@14 s0");
}

#[test]
fn declaring_a_parameter() {
    assert_eq!(short(&draw_body("var w;")), "60@14 s1");
}

#[test]
fn assigning_undeclared() {
    assert_eq!(short(&draw_body("a=1;")), "50@14 s2");
}

#[test]
fn division_rounds_toward_zero() {
    assert_eq!(integer("-7/2"), -3);
    assert_eq!(integer("-7%2"), -1);
}

#[test]
fn shifts() {
    assert_eq!(integer("-7>>1"), -4);
    assert_eq!(integer("7<<33"), 14);
}

#[test]
fn addition_wraps() {
    assert_eq!(integer("2147483647+1"), i32::MIN);
}

#[test]
fn centre_of_a_line() {
    let centre = integer_after("", "getShapeXCoordinate(drawLine(-3,0,0,0))");
    assert_eq!(centre, -1);
}

#[test]
fn centre_of_a_box_drawn_backwards() {
    assert_eq!(integer("getShapeXCoordinate(drawBox(1,1,-3,3))"), 0);
    assert_eq!(integer("getShapeYCoordinate(drawBox(1,1,-3,3))"), 2);
}

#[test]
fn day_takes_15_steps_and_4_shapes() {
    let specified = run_specified(Operation::Draw, &main_of(DAY), 20, 20, 100);
    let count = |kind| {
        let taken = |event: &&Event| matches!(event, Event::Taken(taking, _) if *taking == kind);
        specified.events.iter().filter(taken).count()
    };
    assert_eq!(count(Taking::Step), 15);
    assert_eq!(count(Taking::Shape), 4);
    // Main's call is the first taking. It is given back before the picture,
    // which is the last.
    let length = DAY_PICTURE.len() as u64;
    assert_eq!(specified.events.len(), 22);
    assert_eq!(specified.events[0], Event::Taken(Taking::Call, 0));
    assert_eq!(specified.events[20], Event::GaveBack);
    let picture = Event::Taken(Taking::Picture(length), 0);
    assert_eq!(specified.events[21], picture);
    let exact = Grants {
        steps: 15,
        shapes: 4,
        ..Grants::LEAST
    };
    assert_eq!(short(&draw_granted(DAY, exact)), "picture s15");
}

#[test]
fn day_with_14_steps() {
    let grants = Grants {
        steps: 14,
        ..GRANTS
    };
    assert_eq!(short(&draw_granted(DAY, grants)), "79@47 s14");
}

#[test]
fn day_with_3_shapes() {
    let grants = Grants {
        shapes: 3,
        ..GRANTS
    };
    assert_eq!(short(&draw_granted(DAY, grants)), "76@47 s15");
}

#[test]
fn day_picture_to_the_byte() {
    let input = [b"20 20\n".to_vec(), main_of(DAY)].concat();
    assert_eq!(
        String::from_utf8(sheet::print(&input)).unwrap(),
        DAY_PICTURE
    );
    assert_eq!(
        draw(&main_of(DAY), 20, 20, GRANTS, OUT_LENGTH),
        Answer::Picture {
            length: DAY_PICTURE.len() as u64,
            steps: 15,
            bytes: DAY_PICTURE.as_bytes().to_vec(),
        }
    );
}

#[test]
fn second_plus() {
    assert_eq!(short(&draw_body("1+2+3;")), "10@17 s0");
}

#[test]
fn longest_program() {
    let mut program = main_of("1;");
    program.resize(32_768, b' ');
    assert_eq!(short(&check(&program)), "well formed");
    assert_eq!(
        short(&draw(&program, 20, 20, GRANTS, OUT_LENGTH)),
        "picture s2"
    );
    program.push(b' ');
    all_refuse(&program, "73@0 s0");
}

#[test]
fn deepest_level() {
    let nested = |depth: usize| main_of(&format!("{}1{};", "(".repeat(depth), ")".repeat(depth)));
    assert_eq!(short(&check(&nested(64))), "well formed");
    assert_eq!(
        short(&draw(&nested(64), 20, 20, GRANTS, OUT_LENGTH)),
        "picture s2"
    );
    all_refuse(&nested(65), "75@78 s0");
}

#[test]
fn out_slice_one_byte_short() {
    let length = DAY_PICTURE.len() as u64;
    // An empty one tells the length as well.
    for out_length in [length - 1, 0] {
        assert_eq!(
            draw(&main_of(DAY), 20, 20, GRANTS, out_length),
            Answer::Number {
                number: 80,
                place: 0,
                steps: 15,
                length_needed: Some(length),
            }
        );
    }
    assert_eq!(
        short(&draw(&main_of(DAY), 20, 20, GRANTS, length)),
        "picture s15"
    );
}

// The traps that document 01 lists.

#[test]
fn a_table_shares_its_shape() {
    // A copy would need a third shape and outlive the destruction.
    let body = "var a;var t;a=drawLine(1,2,3,4);t=[0];t.1=a;destroyShape(a);t.1;";
    let grants = Grants {
        shapes: 2,
        ..GRANTS
    };
    assert_eq!(short(&draw_granted(body, grants)), "30@74 s22");
}

#[test]
fn errors_in_unreached_statements_are_not_found() {
    assert_eq!(short(&draw_body("if(false)a=1;")), "picture s2");
    assert_eq!(short(&draw_body("if(false)var w;")), "picture s2");
    assert_eq!(short(&draw_body("return 1;var w;a=1;")), "picture s2");
}

#[test]
fn a_run_that_stopped_early_gives_no_picture() {
    let body = "var a;a=drawLine(1,2,3,4);while(true)1;";
    assert_eq!(short(&draw_body(body)), "79@40 s1000000");
}
