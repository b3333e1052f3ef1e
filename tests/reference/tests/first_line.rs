//! The first line of the input of `imgdraw`.

use reference::sheet::{parts, print};

const PROGRAM: &str = "def main(w,h){1;}";

fn printed(first_line: &str) -> String {
    let input = format!("{first_line}{PROGRAM}");
    String::from_utf8(print(input.as_bytes())).unwrap()
}

fn picture(width: i32, height: i32) -> String {
    format!(
        "<?xml version=\"1.0\"?>\n<svg viewBox=\"0 0 {width} {height}\" \
         xmlns=\"http://www.w3.org/2000/svg\" version=\"1.1\">\n\
         <g stroke=\"black\" fill=\"black\">\n</g>\n</svg>\n"
    )
}

#[test]
fn right_forms() {
    for (line, width, height) in [
        ("20 20\n", 20, 20),
        ("1 1\n", 1, 1),
        ("2147483647 2147483647\n", i32::MAX, i32::MAX),
        ("007 0000000009\n", 7, 9),
        ("0000000001 1\n", 1, 1),
        ("1 0000000001\n", 1, 1),
        // The program may begin with white space, and be on the next lines.
        ("20 30\n\n \t", 20, 30),
    ] {
        assert_eq!(printed(line), picture(width, height), "{line:?}");
    }
}

#[test]
fn other_forms() {
    for line in [
        "",
        "\n",
        " \n",
        "20\n",
        "20 \n",
        " 20 20\n",
        "20 20 \n",
        "20  20\n",
        "20\t20\n",
        "20 20\t\n",
        "20 20\r\n",
        "20 20\r",
        "20 20",
        "20 20 20\n",
        "20,20\n",
        "20\n20\n",
        "+20 20\n",
        "-20 20\n",
        "20 -20\n",
        "20 2O\n",
        "20.0 20\n",
        "\u{feff}20 20\n",
        // Eleven digits, though the value is small.
        "00000000020 20\n",
        "20 00000000020\n",
        // Too large a value.
        "2147483648 20\n",
        "20 2147483648\n",
        "4294967297 20\n",
        "9999999999 9999999999\n",
        // Values that the operation refuses.
        "0 20\n",
        "20 0\n",
        "0000000000 20\n",
    ] {
        assert_eq!(printed(line), "error 72 at 0\n", "{line:?}");
    }
}

#[test]
fn without_a_program() {
    assert_eq!(print(b""), b"error 72 at 0\n");
    assert_eq!(print(b"20 20"), b"error 72 at 0\n");
    assert_eq!(print(b"20 20\n"), b"error 10 at 0\n");
    assert_eq!(parts(b"20 20\n"), Some((20, 20, &b""[..])));
}

#[test]
fn before_the_length() {
    let long = "!".repeat(40_000);
    assert_eq!(
        print(format!("20 20\n{long}").as_bytes()),
        b"error 73 at 0\n"
    );
    assert_eq!(
        print(format!("20 20\r\n{long}").as_bytes()),
        b"error 72 at 0\n"
    );
}

#[test]
fn grants() {
    let run = |body: &str| {
        let input = format!("20 20\ndef main(w,h){{{body}}}");
        String::from_utf8(print(input.as_bytes())).unwrap()
    };
    assert_eq!(run("while(true)1;"), "error 79 at 14\n");
    assert_eq!(run("while(true)drawLine(1,2,3,4);"), "error 76 at 25\n");
    assert_eq!(
        run("var i;i=0;w=[0];while(true){w.i=i;i=i+1;}"),
        "error 77 at 42\n"
    );
    assert_eq!(run("w=\"a\";while(true)w=w++w;"), "error 78 at 31\n");
    // Seven texts of 8,192 bytes fit the out slice, eight do not.
    let long = "var i;i=0;w=\"a\";while(i<13){w=w++w;i=i+1;}\
                var a;var b;var c;var d;var e;var f;var g;\
                a=drawText(0,0,w);b=a;c=a;d=a;e=a;f=a;g=a;";
    assert!(run(long).starts_with("<?xml"));
    let longer = format!("{long}h=a;");
    assert_eq!(run(&longer), "error 80 at 0\n");
}
