//! A message of the traffic.

use second::{Letter, Message};

/// A message with the index of its book, in 16 bytes, so that reading the traffic adds little to the measured time.
#[derive(Clone, Copy)]
pub struct Sent {
    pub book: u8,
    stock: u8,
    letter: Letter,
    participant: u8,
    time: u32,
    /// A quote's bid, or the price of any other message.
    price: u32,
    offer: u32,
}

const _: () = assert!(size_of::<Sent>() == 16);

impl Sent {
    pub fn new(book: u8, m: &Message) -> Sent {
        Sent {
            book,
            stock: m.stock as u8,
            letter: m.letter,
            participant: m.participant as u8,
            time: m.time,
            price: if m.letter == Letter::Q {
                m.bid
            } else {
                m.price
            },
            offer: m.offer,
        }
    }

    #[inline(always)]
    pub fn message(&self) -> Message {
        Message {
            letter: self.letter,
            stock: self.stock.into(),
            time: self.time,
            participant: self.participant.into(),
            price: self.price,
            bid: self.price,
            offer: self.offer,
        }
    }
}
