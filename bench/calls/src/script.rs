//! Plays calls while it records them, so that later calls can depend on the stock's state.

use calls::call::Call;
use second::{Message, Setup, Stock};

pub struct Script {
    pub book: Vec<Stock>,
    pub calls: Vec<Call>,
}

impl Script {
    /// A book just after setup. The setups must be in range.
    pub fn new(setups: &[Setup], end: u32) -> Script {
        Script {
            book: second::setup(setups, end).expect("the setups are in range"),
            calls: Vec::new(),
        }
    }

    pub fn tell(&mut self, m: Message) {
        second::tell(&mut self.book, &m);
        self.calls.push(Call::Tell(m));
    }

    pub fn settle(&mut self, stock: u32, time: u32) -> u32 {
        self.calls.push(Call::Settle { stock, time });
        second::settle(&mut self.book, stock, time).answer.number
    }

    /// Settles until nothing is due, then tells the message.
    pub fn settle_and_tell(&mut self, m: Message) {
        while self.settle(m.stock, m.time) == 0 {}
        self.tell(m);
    }

    pub fn read(&mut self, stock: u32) {
        self.calls.push(Call::Read { stock });
    }

    /// Takes the calls recorded so far out of the script.
    pub fn cut(&mut self) -> Vec<Call> {
        std::mem::take(&mut self.calls)
    }
}
