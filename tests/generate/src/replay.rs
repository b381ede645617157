//! Plays a day that was written, step by step.

use std::io;

use second::lines::{self, Input};
use second::{settle, setup, tell, Message, Stock};

/// A moment, with its mark, or a message, with its letter; and its stock before and after it.
pub struct Step<'a> {
    pub mark: u8,
    pub before: &'a Stock,
    pub after: &'a Stock,
}

/// Plays a day up to its end or its first bad line, and shows each moment and each accepted message.
pub fn replay(input: impl io::Read, show: &mut impl FnMut(Step)) {
    // A bad line ends the day, and what came before it counts.
    let _ = replay_lines(&mut Input::new(input), show);
}

fn replay_lines(input: &mut Input<impl io::Read>, show: &mut impl FnMut(Step)) -> Option<()> {
    let contents = input.next_line().and_then(lines::contents)?;
    let mut setups = Vec::new();
    for _ in 0..contents.stocks {
        setups.push(input.next_line().and_then(lines::stock)?);
    }
    let mut book = setup(&setups, contents.end).ok()?;
    for _ in 0..contents.messages {
        let message = input.next_line().and_then(lines::message)?;
        if let Some(stock) = book.get_mut(message.stock as usize) {
            settle_and_tell(stock, &message, show);
        }
    }
    Some(())
}

fn settle_and_tell(stock: &mut Stock, m: &Message, show: &mut impl FnMut(Step)) {
    loop {
        let before = stock.clone();
        let notice = settle(std::slice::from_mut(stock), 0, m.time);
        if notice.answer.number != 0 {
            break;
        }
        show(Step {
            mark: notice.mark,
            before: &before,
            after: stock,
        });
    }
    let before = stock.clone();
    let alone = Message { stock: 0, ..*m };
    if tell(std::slice::from_mut(stock), &alone).number == 0 {
        show(Step {
            mark: m.letter.byte(),
            before: &before,
            after: stock,
        });
    }
}
