//! Compares the structs of `raw` with the library's. It plays a day that gives every field a known value, and then checks the memory that
//! the library wrote: each value is where `raw` has its field, and the library wrote nothing before or behind the arrays.

use std::mem::{align_of, size_of, size_of_val};
use std::ptr::addr_of;
use sumpheron::{raw, Number, PARTICIPANTS, PLACES};

// ---------------------------------------------------------------- what `raw` has

struct Field {
    name: String,
    offset: usize,
    size: usize,
}

macro_rules! fields {
    ($of:ident: $($first:ident $(.$more:ident)*),+) => {{
        let whole = raw::$of::default();
        vec![$(Field {
            name: concat!(stringify!($of), ".", stringify!($first) $(, ".", stringify!($more))*).to_owned(),
            offset: addr_of!(whole.$first$(.$more)*) as usize - addr_of!(whole) as usize,
            size: size_of_val(&whole.$first$(.$more)*),
        }),+]
    }};
}

/// The numbers of a field: one of 4 or 8 bytes, or those of an array.
fn numbers(field: Field) -> Vec<Field> {
    let number = |i| Field {
        name: format!("{}[{i}]", field.name),
        offset: field.offset + 4 * i,
        size: 4,
    };
    match field.size {
        4 | 8 => vec![field],
        size => (0..size / 4).map(number).collect(),
    }
}

fn record() -> Vec<Field> {
    let fields = fields!(Record:
        tier, leverage, primary, close, session_end, state, clock, f_to_come, limit_entry, pause_start,
        reference_sum, reference_count, reference_start, h_to_come, bids, offers, trades,
        totals.spent.waiting, totals.spent.trading, totals.spent.limit, totals.spent.paused,
        totals.spent.late_pause, totals.spent.closed,
        totals.limit_states, totals.pauses, totals.highest, totals.lowest);
    fields.into_iter().flat_map(numbers).collect()
}

fn answer() -> Vec<Field> {
    fields!(Answer: number, state, reference, lower, upper, bid, bid_flag, offer, offer_flag)
}

fn notice() -> Vec<Field> {
    fields!(Notice:
        answer.number, answer.state, answer.reference, answer.lower, answer.upper,
        answer.bid, answer.bid_flag, answer.offer, answer.offer_flag, mark, time)
}

fn upcoming() -> Vec<Field> {
    fields!(Upcoming: number, mark, time)
}

fn summary() -> Vec<Field> {
    fields!(Summary:
        number, totals.spent.waiting, totals.spent.trading, totals.spent.limit, totals.spent.paused,
        totals.spent.late_pause, totals.spent.closed,
        totals.limit_states, totals.pauses, totals.highest, totals.lowest)
}

const fn size_of_field<S, F>(_: fn(&S) -> &F) -> usize {
    size_of::<F>()
}

/// The sizes of a struct's fields add up to the size of the struct: it has no padding.
macro_rules! no_padding {
    ($of:ident: $($field:ident),+) => {
        const _: () = assert!(size_of::<raw::$of>() == 0 $(+ size_of_field(|whole: &raw::$of| &whole.$field))+);
    };
}

no_padding!(Record:
    tier, leverage, primary, close, session_end, state, clock, f_to_come, limit_entry, pause_start,
    reference_sum, reference_count, reference_start, h_to_come, bids, offers, trades, totals);
no_padding!(StateTimes: waiting, trading, limit, paused, late_pause, closed);
no_padding!(DayTotals: spent, limit_states, pauses, highest, lowest);
no_padding!(Answer: number, state, reference, lower, upper, bid, bid_flag, offer, offer_flag);
no_padding!(Notice: answer, mark, time);
no_padding!(Upcoming: number, mark, time);
no_padding!(Summary: number, totals);

/// The sizes and the alignments that docs/RECORD.md says.
const _: () = assert!(RECORD == 240 && align_of::<raw::Record>() == 8);
const _: () = assert!(size_of::<raw::Answer>() == 36 && align_of::<raw::Answer>() == 4);
const _: () = assert!(size_of::<raw::Notice>() == 44 && align_of::<raw::Notice>() == 4);
const _: () = assert!(size_of::<raw::Upcoming>() == 12 && align_of::<raw::Upcoming>() == 4);
const _: () = assert!(size_of::<raw::Summary>() == 44 && align_of::<raw::Summary>() == 4);

// ---------------------------------------------------------------- the values that the day must give

/// The trades of stock 1. The eighth moves the reference from 600,000,000 to the mean of all eight: their sum needs more than 32 bits,
/// and their count does not divide it.
const PRICES: [u32; 10] = [
    600_000_001,
    600_000_002,
    600_000_003,
    600_000_004,
    600_000_005,
    600_000_006,
    600_000_007,
    648_000_003,
    606_000_001,
    606_000_002,
];

/// The upper band of that mean, 606,000,003.875, which answers have rounded.
const UPPER: u32 = 969_600_000;

/// Stock 0 as it was set up.
fn set_up_record() -> Vec<u64> {
    let mut record = vec![1, 1, 6, 31_000, 3_700_000, 0, 0, 1];
    record.resize(NUMBERS, 0);
    record
}

/// Stock 1 after its opening.
fn opened_record() -> Vec<u64> {
    let mut record = vec![2, 3, 9, 115_000, 3_700_000, 1, 1_001, 1];
    record.extend([0, 0, 600_000_000, 1, 1_001, 1]);
    record.extend([0; 2 * PARTICIPANTS]);
    record.extend([1, 1_001]);
    record.resize(NUMBERS, 0);
    record
}

/// Stock 1 at the end.
fn last_record() -> Vec<u64> {
    let mut record = vec![2, 3, 9, 115_000, 3_700_000, 4, 3_150_003, 1];
    record.extend([3_090_002, 3_105_002, 4_848_000_031, 8, 3_050_008, 0]);
    record.extend(969_599_985..=969_600_016);
    record.push(PRICES.len() as u64);
    record.extend(&SUMMARY[1..]);
    record
}

/// The number 0, and the totals of stock 1 at the end: it waited to 1,001, traded to 2,002, was at a limit to 2,005, traded to 2,010, was
/// at a limit to 17,010, paused to 317,020, traded to 3,090,002, was at a limit to 3,105,002, and was then in a late pause to 3,150,003.
const SUMMARY: [u64; 11] = [
    0,
    1_001,
    2_773_988,
    30_003,
    300_010,
    45_001,
    0,
    3,
    2,
    648_000_003,
    600_000_001,
];

/// Reading in Trading, and a trade outside the bands in Limit.
const ANSWERS: [[u64; 9]; 2] = [
    [
        0,
        1,
        606_000_004,
        242_400_000,
        969_600_000,
        969_599_999,
        1,
        969_600_001,
        2,
    ],
    [
        12,
        2,
        606_000_004,
        242_400_000,
        969_600_000,
        969_600_000,
        3,
        969_600_001,
        2,
    ],
];

/// A settling with nothing due, and the pause.
const NOTICES: [[u64; 11]; 2] = [
    [
        14,
        1,
        606_000_004,
        242_400_000,
        969_600_000,
        969_599_999,
        1,
        969_600_001,
        2,
        0,
        0,
    ],
    [
        0,
        4,
        606_000_004,
        0,
        0,
        969_600_000,
        1,
        969_600_001,
        1,
        0x78,
        3_105_002,
    ],
];

/// The next moment in Trading: the first trade leaves.
const UPCOMING: [u64; 3] = [0, 0x76, 3_350_001];

/// Any call on a book that is not set up.
const RUBBISH: [u64; 11] = [1, 0, 0, 0, 0, 0, 0, 0, 0, 0, 0];

// ---------------------------------------------------------------- the memory that the library gets

/// With these guard lengths the records, and the other arrays, are at an address with no more alignment than they need.
const AHEAD: usize = 34;
const GUARD: usize = 33;
const PATTERN: u32 = 0xa5a5_a5a5;
const STOCKS: usize = 2;
const RECORD: usize = size_of::<raw::Record>();
/// The numbers of a record: three of them have 8 bytes, and all others 4.
const NUMBERS: usize = RECORD / 4 - 3;

/// An array of numbers at an address that 16 divides.
#[derive(Clone)]
#[repr(align(16))]
struct Aligned<const N: usize>([u32; N]);

/// The three arrays, with guards before and behind each.
#[derive(Clone)]
struct Memory {
    records: Box<Aligned<{ AHEAD + STOCKS * RECORD / 4 + AHEAD }>>,
    times: Box<Aligned<{ GUARD + STOCKS * PLACES + GUARD }>>,
    prices: Box<Aligned<{ GUARD + STOCKS * PLACES + GUARD }>>,
}

impl Memory {
    fn new() -> Memory {
        Memory {
            records: Box::new(Aligned([PATTERN; AHEAD + STOCKS * RECORD / 4 + AHEAD])),
            times: Box::new(Aligned([PATTERN; GUARD + STOCKS * PLACES + GUARD])),
            prices: Box::new(Aligned([PATTERN; GUARD + STOCKS * PLACES + GUARD])),
        }
    }

    /// Each array with its name and the length of its guards.
    fn arrays(&self) -> [(&'static str, usize, &[u32]); 3] {
        [
            ("records", AHEAD, &self.records.0),
            ("times", GUARD, &self.times.0),
            ("prices", GUARD, &self.prices.0),
        ]
    }
}

/// Where an answer is written.
type Room = [u32; 64];

/// Calls a function with the address for its answer, if one is given in brackets, the three arrays, and the other arguments.
macro_rules! lend {
    ($function:path, [$($room:ident)?], $memory:expr $(, $argument:expr)*) => {{
        let Memory { records, times, prices } = $memory;
        // SAFETY: each array lies aligned between its guards, in its own memory, which only this call borrows.
        unsafe {
            $function(
                $($room,)?
                records.0[AHEAD..].as_mut_ptr().cast(), STOCKS,
                times.0[GUARD..].as_mut_ptr(), STOCKS * PLACES,
                prices.0[GUARD..].as_mut_ptr(), STOCKS * PLACES
                $(, $argument)*
            )
        }
    }};
}

/// On x86-64 a struct of more than 16 bytes is returned through a hidden first argument, a pointer: these declarations name it.
#[cfg(target_arch = "x86_64")]
#[allow(clippy::too_many_arguments)]
mod written {
    use super::Room;

    extern "C" {
        pub fn sumpheron_read(
            room: *mut Room,
            book: *const u32,
            stocks: usize,
            times: *const u32,
            times_length: usize,
            prices: *const u32,
            prices_length: usize,
            stock: u32,
        );

        pub fn sumpheron_totals(
            room: *mut Room,
            book: *const u32,
            stocks: usize,
            times: *const u32,
            times_length: usize,
            prices: *const u32,
            prices_length: usize,
            stock: u32,
        );

        pub fn sumpheron_settle(
            room: *mut Room,
            book: *mut u32,
            stocks: usize,
            times: *mut u32,
            times_length: usize,
            prices: *mut u32,
            prices_length: usize,
            stock: u32,
            time: u32,
        );

        pub fn sumpheron_trade(
            room: *mut Room,
            book: *mut u32,
            stocks: usize,
            times: *mut u32,
            times_length: usize,
            prices: *mut u32,
            prices_length: usize,
            stock: u32,
            time: u32,
            price: u32,
        );
    }
}

/// Makes a call whose answer goes into the room.
#[cfg(target_arch = "x86_64")]
macro_rules! answer_into {
    ($function:ident, $room:ident, $memory:expr $(, $argument:expr)*) => {
        lend!(written::$function, [$room], $memory $(, $argument)*)
    };
}
#[cfg(not(target_arch = "x86_64"))]
macro_rules! answer_into {
    ($function:ident, $room:ident, $memory:expr $(, $argument:expr)*) => {{
        let answer = lend!(raw::$function, [], $memory $(, $argument)*);
        // SAFETY: the room has the alignment of an answer, and is larger than any answer.
        unsafe { std::ptr::write(std::ptr::addr_of_mut!(*$room).cast(), answer) }
    }};
}

// ---------------------------------------------------------------- checks

/// A number of 4 or 8 bytes, all of which count.
fn number(bytes: &[u8], size: usize) -> u64 {
    match size {
        8 => u64::from_ne_bytes(bytes[..8].try_into().unwrap()),
        _ => u32::from_ne_bytes(bytes[..4].try_into().unwrap()).into(),
    }
}

fn bytes_of(words: &[u32]) -> Vec<u8> {
    words.iter().flat_map(|word| word.to_ne_bytes()).collect()
}

/// Checks that each field has its value in a struct that the library wrote.
fn check_fields(fields: &[Field], values: &[u64], written: &[u8]) -> Vec<String> {
    let mut faults = Vec::new();
    for (field, &value) in fields.iter().zip(values) {
        let Field { name, offset, size } = field;
        if number(&written[*offset..], *size) != value {
            let has = |at: &usize| number(&written[*at..], *size) == value;
            let starts = (0..=written.len() - size).step_by(4);
            let places: Vec<usize> = starts.filter(has).collect();
            faults.push(format!(
                "{name} is at byte {offset} of raw, and the library has {value} in {size} bytes at {places:?}"
            ));
        }
    }
    faults
}

fn size_in_all(fields: &[Field]) -> usize {
    fields.iter().map(|field| field.size).sum()
}

/// Checks that the fields have 4 or 8 bytes and cover every byte of the struct, and that any two fields differ in some row of values.
fn check_table(fields: &[Field], rows: &[&[u64]], size: usize) {
    assert!(fields.iter().all(|field| matches!(field.size, 4 | 8)));
    assert_eq!(
        size_in_all(fields),
        size,
        "bytes of the fields from {} on",
        fields[0].name
    );
    for (i, field) in fields.iter().enumerate() {
        for (j, other) in fields[..i].iter().enumerate() {
            let apart = rows.iter().any(|row| row[i] != row[j]);
            assert!(apart, "nothing tells {} from {}", field.name, other.name);
        }
    }
}

/// Makes the call twice, with the room filled differently: a byte that keeps its filling both times was not written.
fn check_call(
    memory: &mut Memory,
    fields: &[Field],
    values: &[u64],
    call: fn(&mut Memory, &mut Room),
) {
    let (before, size) = (memory.clone(), size_in_all(fields));
    let mut end = 0;
    for fill in [0xa5, 0x5a] {
        let mut room = [u32::from_ne_bytes([fill; 4]); 64];
        *memory = before.clone();
        call(memory, &mut room);
        let bytes: Vec<u8> = room.iter().flat_map(|word| word.to_ne_bytes()).collect();
        let faults = check_fields(fields, values, &bytes[..size]);
        assert!(faults.is_empty(), "{faults:#?}");
        end = end.max(
            bytes
                .iter()
                .rposition(|&byte| byte != fill)
                .map_or(0, |last| last + 1),
        );
    }
    assert_eq!(
        end, size,
        "bytes that are written, and bytes of the struct of {}",
        fields[0].name
    );
}

/// Checks that the guards are unchanged and that everything between them was written.
fn check_guards(memory: &Memory) {
    for (name, guard, array) in memory.arrays() {
        for (i, &word) in array.iter().enumerate() {
            let inside = (guard..array.len() - guard).contains(&i);
            assert_eq!(
                inside,
                word != PATTERN,
                "{name}: number {i}, {guard} of guard counted"
            );
        }
    }
}

// ---------------------------------------------------------------- the day

fn expect_done(answer: raw::Answer) {
    assert_eq!(Number::from(answer.number), Number::Done);
}

fn read(memory: &mut Memory, room: &mut Room) {
    answer_into!(sumpheron_read, room, memory, 1)
}

fn trade_outside(memory: &mut Memory, room: &mut Room) {
    answer_into!(sumpheron_trade, room, memory, 1, 3_090_003, UPPER + 1)
}

fn settle_nothing(memory: &mut Memory, room: &mut Room) {
    answer_into!(sumpheron_settle, room, memory, 1, 3_080_200)
}

fn totals(memory: &mut Memory, room: &mut Room) {
    answer_into!(sumpheron_totals, room, memory, 1)
}

/// The answer is returned in registers, and copied into the room here.
fn next(memory: &mut Memory, room: &mut Room) {
    let answer = lend!(raw::sumpheron_next, [], memory, 1);
    // SAFETY: the room has the alignment of an answer, and is larger than any answer.
    unsafe { std::ptr::write(std::ptr::addr_of_mut!(*room).cast(), answer) }
}

fn settle_pause(memory: &mut Memory, room: &mut Room) {
    answer_into!(sumpheron_settle, room, memory, 1, 3_110_000)
}

fn set_up(memory: &mut Memory) {
    let setups = [1, 1, 6, 31_000, 2, 3, 9, 115_000];
    expect_done(lend!(
        raw::sumpheron_setup,
        [],
        memory,
        3_700_000,
        setups.as_ptr(),
        setups.len()
    ));
    check_guards(memory);
}

/// Does the moments of stock 1 that are due by a time: those with these marks, in this order.
fn settle(memory: &mut Memory, time: u32, marks: &str) {
    for mark in marks.chars() {
        let notice = lend!(raw::sumpheron_settle, [], memory, 1, time);
        expect_done(notice.answer);
        assert_eq!(char::from_u32(notice.mark), Some(mark));
    }
    let last = lend!(raw::sumpheron_settle, [], memory, 1, time);
    assert_eq!(Number::from(last.answer.number), Number::NothingDue);
}

fn bid_and_offer(memory: &mut Memory, time: u32, who: u32, bid: u32, offer: u32) {
    expect_done(lend!(
        raw::sumpheron_quote,
        [],
        memory,
        1,
        time,
        who,
        bid,
        offer
    ));
}

fn quote(memory: &mut Memory, time: u32, who: u32) {
    bid_and_offer(memory, time, who, UPPER - 15 + who, UPPER + 1 + who);
}

fn open(memory: &mut Memory) {
    let (time, price) = (1_001, 600_000_000);
    expect_done(lend!(raw::sumpheron_opening, [], memory, 1, time, 9, price));
}

/// Stock 1 enters a limit state, leaves it, enters another, pauses, and is reopened.
fn play_pause(memory: &mut Memory) {
    for (time, bid) in [(2_002, 960_000_000), (2_005, 0), (2_010, 960_000_000)] {
        bid_and_offer(memory, time, 0, bid, 0);
    }
    settle(memory, 17_010, "x");
    bid_and_offer(memory, 17_011, 0, 0, 0);
    settle(memory, 317_020, "hv");
    let (time, price) = (317_020, 600_000_000);
    expect_done(lend!(
        raw::sumpheron_reopening,
        [],
        memory,
        1,
        time,
        9,
        price
    ));
}

/// Stock 1 trades, and all participants but the last quote it.
fn play_trading(memory: &mut Memory) {
    settle(memory, 3_050_000, "hvww");
    for (time, price) in (3_050_001..).zip(PRICES) {
        expect_done(lend!(raw::sumpheron_trade, [], memory, 1, time, price));
    }
    // The hold of the new reference ends.
    settle(memory, 3_080_099, "h");
    for i in 0..PARTICIPANTS as u32 - 1 {
        quote(memory, 3_080_100 + i, i);
    }
}

fn check_record(memory: &Memory, stock: usize, values: &[u64]) {
    let bytes = bytes_of(&memory.records.0[AHEAD..]);
    let faults = check_fields(&record(), values, &bytes[stock * RECORD..][..RECORD]);
    assert!(faults.is_empty(), "stock {stock}: {faults:#?}");
}

/// Checks that stock 1 has its trades at the front of its places, and that all other places are 0.
fn check_places(memory: &Memory) {
    let times: [u32; PRICES.len()] = std::array::from_fn(|i| 3_050_001 + i as u32);
    for (array, held) in [(&memory.times, times), (&memory.prices, PRICES)] {
        let mut wanted = vec![0; STOCKS * PLACES];
        wanted[PLACES..][..held.len()].copy_from_slice(&held);
        assert_eq!(array.0[GUARD..GUARD + STOCKS * PLACES], wanted);
    }
}

/// Checks the tables of fields and of values.
fn check_tables() {
    let records = [set_up_record(), opened_record(), last_record()];
    check_table(
        &record(),
        &records.iter().map(Vec::as_slice).collect::<Vec<_>>(),
        RECORD,
    );
    check_table(
        &answer(),
        &[&ANSWERS[0], &ANSWERS[1]],
        size_of::<raw::Answer>(),
    );
    check_table(
        &notice(),
        &[&NOTICES[0], &NOTICES[1]],
        size_of::<raw::Notice>(),
    );
    check_table(&upcoming(), &[&UPCOMING], size_of::<raw::Upcoming>());
    check_table(&summary(), &[&SUMMARY, &RUBBISH], size_of::<raw::Summary>());
}

/// Checks the size of what each kind of call writes, on a book that is not set up.
fn check_sizes(memory: &mut Memory) {
    check_call(memory, &answer(), &RUBBISH, read);
    check_call(memory, &notice(), &RUBBISH, settle_nothing);
    check_call(memory, &upcoming(), &RUBBISH, next);
    check_call(memory, &summary(), &RUBBISH, totals);
}

#[test]
fn fields_are_where_the_library_writes_them() {
    check_tables();
    let memory = &mut Memory::new();
    // The sizes are compared first: a call that writes a larger struct than `raw` declares would overrun the stack.
    check_sizes(memory);

    set_up(memory);
    open(memory);
    check_record(memory, 1, &opened_record());
    play_pause(memory);
    play_trading(memory);
    check_call(memory, &answer(), &ANSWERS[0], read);
    check_call(memory, &upcoming(), &UPCOMING, next);
    check_call(memory, &notice(), &NOTICES[0], settle_nothing);
    quote(memory, 3_090_002, PARTICIPANTS as u32 - 1);
    check_call(memory, &answer(), &ANSWERS[1], trade_outside);
    check_call(memory, &notice(), &NOTICES[1], settle_pause);
    quote(memory, 3_150_003, 3);
    check_call(memory, &summary(), &SUMMARY, totals);

    check_record(memory, 0, &set_up_record());
    check_record(memory, 1, &last_record());
    check_guards(memory);
    check_places(memory);
}
