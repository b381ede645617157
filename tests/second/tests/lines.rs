//! The day program's lines: document 01's day, and which line is BAD.

use std::io::{self, Read, Write};

const DAY: &str = "\
C 1 7 23400000
S 2 1 2 115000
O 0 1000 2 115000
Q 0 2000 5 114900 115100
Q 0 3000 7 0 92000
Q 0 4000 5 0 115100
T 0 5000 92000
R 0 319000 2 95000
T 0 319500 120000
";

const PRINTED: &str = "\
0 1000 O 0 1 115000 92000 138000 0 0 0 0
0 2000 Q 0 1 115000 92000 138000 114900 1 115100 1
0 3000 Q 0 1 115000 92000 138000 114900 1 92000 3
0 4000 Q 0 2 115000 92000 138000 0 0 92000 3
0 5000 T 0 2 115000 92000 138000 0 0 92000 3
0 19000 x 0 3 115000 0 0 0 0 92000 1
0 31000 h 0 3 115000 0 0 0 0 92000 1
0 301000 v 0 3 115000 0 0 0 0 92000 1
0 305000 v 0 3 115000 0 0 0 0 92000 1
0 319000 R 0 1 95000 76000 114000 0 0 92000 1
0 319500 T 12 1 95000 76000 114000 0 0 92000 1
";

fn run(input: impl AsRef<[u8]>) -> String {
    let mut output = Vec::new();
    second::day::run(input.as_ref(), &mut output).unwrap();
    String::from_utf8(output).unwrap()
}

/// A day of one stock and one message, that message's line given.
fn with_message(line: &str) -> String {
    run(format!("C 1 1 23400000\nS 2 1 2 115000\n{line}\n"))
}

/// Gives one byte at a time.
struct Slow<'a>(&'a [u8]);

impl Read for Slow<'_> {
    fn read(&mut self, buffer: &mut [u8]) -> io::Result<usize> {
        let length = self.0.len().min(buffer.len()).min(1);
        let (now, later) = self.0.split_at(length);
        buffer[..length].copy_from_slice(now);
        self.0 = later;
        Ok(length)
    }
}

/// Gives the start of a day and then the same bytes for ever.
struct Endless<'a> {
    start: &'a [u8],
    again: &'a [u8],
    at: usize,
}

impl Read for Endless<'_> {
    fn read(&mut self, buffer: &mut [u8]) -> io::Result<usize> {
        for byte in buffer.iter_mut() {
            *byte = match self.start.get(self.at) {
                Some(&byte) => byte,
                None => self.again[(self.at - self.start.len()) % self.again.len()],
            };
            self.at += 1;
        }
        Ok(buffer.len())
    }
}

/// Takes some bytes and is then closed.
struct Closing(usize);

impl Write for Closing {
    fn write(&mut self, bytes: &[u8]) -> io::Result<usize> {
        if self.0 == 0 {
            return Err(io::ErrorKind::BrokenPipe.into());
        }
        let length = bytes.len().min(self.0);
        self.0 -= length;
        Ok(length)
    }

    fn flush(&mut self) -> io::Result<()> {
        Ok(())
    }
}

#[test]
fn the_day() {
    assert_eq!(run(DAY), PRINTED);
}

#[test]
fn the_day_a_byte_at_a_time() {
    let mut output = Vec::new();
    second::day::run(Slow(DAY.as_bytes()), &mut output).unwrap();
    assert_eq!(output, PRINTED.as_bytes());
}

#[test]
fn the_longest_line_a_byte_at_a_time() {
    let day = "C 1 1 23400000\nS 2 1 2 115000\n\
        Q 0000000000 0000000001 0000000015 0000000000 0000000009\n";
    let mut output = Vec::new();
    second::day::run(Slow(day.as_bytes()), &mut output).unwrap();
    assert_eq!(output, b"0 1 Q 0 0 0 0 0 0 0 9 1\n");
}

#[test]
fn input_behind_the_last_message_stays_unread() {
    assert_eq!(run(format!("{DAY}rubbish")), PRINTED);
    assert_eq!(run("C 1 0 23400000\nS 2 1 2 115000\nrubbish"), "");
    assert_eq!(run("C 1 0 23400000\nS 2 1 2 115000\n"), "");
}

#[test]
fn bad_contents() {
    for line in [
        "",
        "C",
        "C 1 7",
        "C 1 7 23400000 ",
        "C 1 7 23400000 1",
        "C 1 7 23400000\r",
        " C 1 7 23400000",
        "C  1 7 23400000",
        "C\t1 7 23400000",
        "c 1 7 23400000",
        "S 2 1 2 115000",
        "C 0 7 23400000",
        "C 9 7 23400000",
        "C 4294967296 7 23400000",
        "C 1 4294967296 23400000",
        "C 1 7 3599999",
        "C 1 7 23400001",
        "C 1 +7 23400000",
        "C 1 -7 23400000",
        "C 1 7.0 23400000",
        "C 1 00000000007 23400000",
    ] {
        assert_eq!(run(format!("{line}\nS 2 1 2 1\n")), "BAD 1\n", "{line:?}");
    }
    assert_eq!(run(""), "BAD 1\n");
    assert_eq!(run("C 1 7 23400000"), "BAD 1\n");
}

#[test]
fn bad_stocks() {
    for line in [
        "S 0 1 2 115000",
        "S 1 2 2 115000",
        "S 2 4 2 115000",
        "S 2 1 16 115000",
        "S 2 1 2 0",
        "S 2 1 2 1000000000",
        "S 2 1 2",
        "S 2 1 2 115000 0",
        "T 0 0 1",
    ] {
        let day = format!("C 2 0 23400000\nS 2 1 2 115000\n{line}\n");
        assert_eq!(run(day), "BAD 3\n", "{line:?}");
    }
    assert_eq!(run("C 2 0 23400000\nS 2 1 2 115000\n"), "BAD 3\n");
    assert_eq!(run("C 2 0 23400000\nS 2 1 2 115000\nS 1 1 2 5"), "BAD 3\n");
    assert_eq!(run("C 1 4294967295 3600000\nS 1 1 2 5\n"), "BAD 3\n");
}

#[test]
fn bad_messages() {
    for line in [
        "",
        "T 0 5",
        "T 0 5 5 5",
        "t 0 5 5",
        "A 0 5 5",
        "TT 0 5 5",
        "T 0 5 5 ",
        "T 0  5 5",
        "T  0 5 5",
        "T0 5 5",
        "T 0 5 ",
        "T 0 5 4294967296",
        "T 0 5 9999999999",
        "T 0 5 00000000005",
        "T 0 5 5\r",
        "T 0 5 5\0",
        "Q 0 5 5 5",
        "Q 0 5 5 5 5 5",
        "P 0 5",
        "P 0 5 5 5",
        "O 0 5 5",
        "R 0 5 5 5 5",
        "X 0 5 5",
        "C 1 7 23400000",
        "x 0 5 5 5",
        "Q 0000000000 0000000000 0000000000 0000000000 00000000000",
    ] {
        assert_eq!(with_message(line), "BAD 3\n", "{line:?}");
    }
    let late = DAY.replace("R 0 319000 2 95000", "R 0 319000 2 95000 ");
    let before: Vec<&str> = PRINTED.lines().take(5).collect();
    assert_eq!(run(late), format!("{}\nBAD 8\n", before.join("\n")));
}

#[test]
fn good_messages_that_are_refused() {
    let zeros = "0 0 0 0 0 0 0 0";
    assert_eq!(with_message("T 1 5 5"), format!("1 5 T 3 {zeros}\n"));
    assert_eq!(
        with_message("T 4294967295 4294967295 4294967295"),
        format!("4294967295 4294967295 T 3 {zeros}\n")
    );
    assert_eq!(
        with_message("Q 0000000000 0000000000 0000000000 0000000000 0000000000"),
        format!("0 0 Q 0 {zeros}\n")
    );
    assert_eq!(
        with_message("T 0 23700001 5"),
        format!("0 23700001 T 4 {zeros}\n")
    );
    assert_eq!(
        with_message("T 0 300000 0"),
        format!("0 300000 f 0 {zeros}\n0 300000 T 4 {zeros}\n")
    );
}

#[test]
fn a_last_line_without_its_feed_cannot_be_read() {
    let day = DAY.trim_end();
    let before: Vec<&str> = PRINTED.lines().take(10).collect();
    assert_eq!(run(day), format!("{}\nBAD 9\n", before.join("\n")));
}

#[test]
fn an_endless_line_is_bad() {
    let input = Endless {
        start: b"C 1 1 23400000\nS 2 1 2 115000\nT 0 5 ",
        again: b"0",
        at: 0,
    };
    let mut output = Vec::new();
    second::day::run(input, &mut output).unwrap();
    assert_eq!(output, b"BAD 3\n");
}

#[test]
fn an_endless_day_ends_when_the_output_is_closed() {
    let input = Endless {
        start: b"C 1 4294967295 23400000\nS 2 1 2 115000\n",
        again: b"T 0 5 5\n",
        at: 0,
    };
    assert!(second::day::run(input, Closing(1_000_000)).is_err());
}

#[test]
fn many_messages_across_blocks() {
    let mut day = String::from("C 1 50000 23400000\nS 2 1 2 115000\n");
    let mut expected = String::new();
    for time in 0..50_000 {
        day.push_str(&format!("Q 0 {time} {} 0 {time}\n", time % 16));
        let offer = time.max(15) - 15;
        let offer = if offer == 0 { 1.min(time) } else { offer };
        let flag = u32::from(offer != 0);
        expected.push_str(&format!("0 {time} Q 0 0 0 0 0 0 0 {offer} {flag}\n"));
    }
    assert_eq!(run(&day), expected);
}
