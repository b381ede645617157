//! Generated days (tests/generate) as calls.

use calls::call::Call;
use second::lines::{self, Input};
use second::Setup;

use crate::script::Script;

pub struct Day {
    pub setups: Vec<Setup>,
    pub end: u32,
    pub calls: Vec<Call>,
}

/// The calls of this seed's day: each message after its settling, with a read of its stock after it.
pub fn day(seed: u64) -> Day {
    let text = generate::day(seed);
    let mut input = Input::new(&text[..]);
    let (setups, end, messages) = start(&mut input).expect("a day begins with its stocks");
    let mut script = Script::new(&setups, end);
    for _ in 0..messages {
        // A bad line ends the day.
        let Some(message) = input.next_line().and_then(lines::message) else {
            break;
        };
        script.settle_and_tell(message);
        script.read(message.stock);
    }
    Day {
        setups,
        end,
        calls: script.cut(),
    }
}

/// The setups, the session's end, and the announced number of messages.
fn start(input: &mut Input<&[u8]>) -> Option<(Vec<Setup>, u32, u32)> {
    let contents = input.next_line().and_then(lines::contents)?;
    let mut setups = Vec::new();
    for _ in 0..contents.stocks {
        setups.push(input.next_line().and_then(lines::stock)?);
    }
    Some((setups, contents.end, contents.messages))
}
