//! A day's text. Some lines have leading zeros. The day ends as announced, with extra bytes after the
//! last message, or with a bad line.

use second::{Letter, Message};

use crate::chance::Chance;
use crate::player::Player;
use crate::tape::line;

/// The day's text: one day in six has a bad last line, and one in six has bytes after the last message.
pub fn finish(player: &mut Player) -> Vec<u8> {
    for line in &mut player.tape.messages {
        if player.chance.one_in(30) {
            *line = with_zeros(&mut player.chance, line);
        }
    }
    let tape = &player.tape;
    match player.chance.below(6) {
        0 => {
            let more = player.chance.between(1, 3) as usize;
            tape.text(more, &bad_line(&mut player.chance))
        }
        1 => tape.text(0, b"T 0 0 1\nNothing after the last message is read."),
        _ => tape.text(0, b""),
    }
}

/// The same message with leading zeros in its numbers, up to ten digits.
fn with_zeros(chance: &mut Chance, line: &str) -> String {
    let mut fields = line.trim_end().split(' ');
    let letter = fields.next().unwrap_or_default().to_string();
    let padded = fields.map(|field| format!(" {field:0>0$}", chance.between(1, 10) as usize));
    letter + &padded.collect::<String>() + "\n"
}

/// A malformed line, an incomplete line, or nothing.
fn bad_line(chance: &mut Chance) -> Vec<u8> {
    let good = some_line(chance);
    let place = chance.below(good.len() as u32) as usize;
    let mut bad = good.clone();
    match chance.below(11) {
        0 => bad.clear(),
        1 => bad.truncate(place),
        2 => bad.insert(place, b' '),
        3 => bad[place] = chance.pick(b"\t\r\0+-.:/x\xff\n"),
        4 => bad[0] = chance.pick(b"tqoprxzwvCSABDEYZ \n0"),
        5 => bad.insert(0, chance.pick(b" \n0T")),
        6 => bad.splice(bad.len() - 1.., *b" 0\n").for_each(drop),
        7 => bad.truncate(bad.len() - 1),
        8 => bad.splice(1..1, *b" 12345678901").for_each(drop),
        9 => bad.splice(1..2, *b" 4294967296 ").for_each(drop),
        _ => bad.splice(bad.len() - 1.., *b"\r\n").for_each(drop),
    }
    bad
}

/// A good line of some letter.
fn some_line(chance: &mut Chance) -> Vec<u8> {
    let m = Message {
        letter: chance.pick(&Letter::ALL),
        stock: chance.below(8),
        time: chance.below(23_400_000),
        participant: chance.below(16),
        price: chance.below(1_000_000_000),
        bid: chance.below(1_000_000_000),
        offer: chance.below(1_000_000_000),
    };
    line(&m).into_bytes()
}
