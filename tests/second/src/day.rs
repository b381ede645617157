//! The day program: contents first, then bodies, then the messages one after another.

use std::io::{self, Read, Write};

use crate::lines::{self, Contents, Input, Output};
use crate::messages::{tell, Message};
use crate::moments::settle;
use crate::stock::{setup, Stock};

/// Runs the day from input to output; the error is the output's.
pub fn run(input: impl Read, output: impl Write) -> io::Result<()> {
    let mut input = Input::new(input);
    let mut output = Output::new(output);
    if !serve(&mut input, &mut output)? {
        output.bad(input.number())?;
    }
    output.flush()
}

/// Serves the day; false when the line asked for last cannot be read or is missing.
fn serve(input: &mut Input<impl Read>, output: &mut Output<impl Write>) -> io::Result<bool> {
    let Some((mut book, messages)) = start(input) else {
        return Ok(false);
    };
    for _ in 0..messages {
        let Some(m) = input.next_line().and_then(lines::message) else {
            return Ok(false);
        };
        settle_and_tell(&mut book, &m, output)?;
    }
    Ok(true)
}

/// Reads the C line and the S lines and sets the book up.
fn start(input: &mut Input<impl Read>) -> Option<(Vec<Stock>, u32)> {
    let contents = input.next_line().and_then(lines::contents)?;
    let book = set_up(input, &contents)?;
    Some((book, contents.messages))
}

/// Reads the S lines that the C line announces and sets the book up.
pub(crate) fn set_up(input: &mut Input<impl Read>, contents: &Contents) -> Option<Vec<Stock>> {
    let mut setups = Vec::new();
    for _ in 0..contents.stocks {
        setups.push(input.next_line().and_then(lines::stock)?);
    }
    setup(&setups, contents.end).ok()
}

/// Settles the stock to the message's time, prints each moment, and tells the message.
pub(crate) fn settle_and_tell(
    book: &mut [Stock],
    m: &Message,
    output: &mut Output<impl Write>,
) -> io::Result<()> {
    loop {
        let notice = settle(book, m.stock, m.time);
        if notice.answer.number != 0 {
            break;
        }
        output.line(m.stock, notice.time, notice.mark, &notice.answer)?;
    }
    let answer = tell(book, m);
    output.line(m.stock, m.time, m.letter.byte(), &answer)
}
