//! Prices to test with: at the bands and next to them, at the edge of the one percent test, and such that a band is next to half a cent.

use second::{read, Answer, Mean, Stock, TRADING};

use crate::chance::Chance;
use crate::edges::{window, Band};

pub const HIGHEST: u32 = 999_999_999;
/// So many prices are tried to bring a band near half a cent.
const TRIES: u32 = 200;

/// References of every size. Many are whole cents, so that one percent of them is a whole number.
pub fn first_reference(chance: &mut Chance, close: u32) -> u32 {
    let price = any_size(chance, close);
    whole_cents(chance, price)
}

/// This price, half of the time rounded down to a whole cent.
pub fn whole_cents(chance: &mut Chance, price: u32) -> u32 {
    if price >= 100 && chance.one_in(2) {
        price / 100 * 100
    } else {
        price
    }
}

/// A reference: tiny, near a limit of the closes, ordinary, or the highest.
fn any_size(chance: &mut Chance, close: u32) -> u32 {
    match chance.below(8) {
        0 => chance.between(1, 200),
        1 => chance.between(900, 2_200),
        2 => chance.pick(&[7_499, 7_500, 30_000, 30_001]),
        3 => chance.pick(&[HIGHEST, HIGHEST - 1, 500_000_000]),
        4 => chance.between(10_000, 2_000_000),
        _ => close,
    }
}

/// A close, often at or next to a limit between two percents.
pub fn close(chance: &mut Chance) -> u32 {
    match chance.below(10) {
        0 => chance.between(1, 200),
        1 => chance.between(201, 7_498),
        2 => chance.pick(&[7_499, 7_500]),
        3 => chance.between(7_501, 29_999),
        4 => chance.pick(&[30_000, 30_001]),
        5 => chance.pick(&[HIGHEST, HIGHEST - 1]),
        6 => chance.between(1_000_000, 50_000_000),
        _ => chance.between(30_002, 500_000),
    }
}

/// What the stock looks like now.
pub fn view(stock: &Stock) -> Answer {
    read(std::slice::from_ref(stock), 0)
}

fn has_bands(now: &Answer) -> bool {
    now.upper != 0
}

/// A price for a trade at this time: near the bands, at the edge of the Test, or anywhere within the bands.
pub fn trade(chance: &mut Chance, stock: &Stock, time: u32) -> u32 {
    let now = view(stock);
    if !has_bands(&now) {
        return waiting_trade(chance, stock, time);
    }
    match chance.below(6) {
        0 => about(chance, now.lower),
        1 => about(chance, now.upper),
        2 | 3 => edge_of_test(chance, stock),
        4 => now.reference,
        _ => {
            let price = within(chance, &now);
            or_half_cent(chance, stock, time, price)
        }
    }
}

/// A price for a trade before the first reference: close to the others, so that their mean is near.
fn waiting_trade(chance: &mut Chance, stock: &Stock, time: u32) -> u32 {
    match stock.trades.last() {
        Some(last) if !chance.one_in(4) => {
            let price = about(chance, last.price);
            or_half_cent(chance, stock, time, price)
        }
        _ => first_reference(chance, stock.setup.close),
    }
}

/// This price or, half of the time, one after which the stock would get bands next to half a cent.
fn or_half_cent(chance: &Chance, stock: &Stock, time: u32, price: u32) -> u32 {
    let mut aside = chance.aside();
    match stock.state {
        _ if aside.one_in(2) => price,
        TRADING => far_at_half_cent(&mut aside, stock, time).unwrap_or(price),
        _ => about_at_half_cent(&mut aside, stock, time, price),
    }
}

/// A price near this one, and within the bands in force, after which the window's mean has a band next to half a cent.
pub fn about_at_half_cent(chance: &mut Chance, stock: &Stock, time: u32, price: u32) -> u32 {
    let now = view(stock);
    let (low, high) = (price.saturating_sub(share(price)), price + share(price));
    let range = if has_bands(&now) {
        (low.max(now.lower), high.min(now.upper))
    } else {
        (low, high)
    };
    at_half_cent(chance, stock, time, range).unwrap_or(price)
}

/// Such a price by which the Test also changes the reference.
fn far_at_half_cent(chance: &mut Chance, stock: &Stock, time: u32) -> Option<u32> {
    let now = view(stock);
    let (above, below) = (clamp(test_above(stock)), clamp(test_below(stock)));
    let share = share(now.reference);
    let range = if chance.one_in(2) {
        (above, now.upper.min(above + share))
    } else {
        (now.lower.max(below.saturating_sub(share)), below)
    };
    at_half_cent(chance, stock, time, range)
}

/// Of the prices tried between these two, the one after which the window's mean has a band nearest to half a cent: at it or past it, or
/// before it. None if there is no such price.
fn at_half_cent(
    chance: &mut Chance,
    stock: &Stock,
    time: u32,
    (low, high): (u32, u32),
) -> Option<u32> {
    let (low, high) = (low.max(1), high.min(HIGHEST));
    if low > high {
        return None;
    }
    let held = window(stock);
    let under = u64::from(chance.one_in(2));
    let mut nearest = (u64::MAX, None);
    for _ in 0..TRIES {
        let tried = Mean {
            sum: held.sum + u64::from(chance.between(low, high)),
            count: held.count + 1,
        };
        let band = chance.pick(&Band::both(stock, time, tried));
        if !band.is_positive(tried) {
            continue;
        }
        let sum = band.sum_at_half_cent(tried) - under;
        let price = sum.saturating_sub(held.sum);
        if (u64::from(low)..=u64::from(high)).contains(&price) {
            let off = band.past_half_cent(Mean { sum, ..tried }).unsigned_abs();
            nearest = nearest.min((off, Some(price as u32)));
        }
    }
    nearest.1
}

/// Two percent of a price, and at least 2.
fn share(price: u32) -> u32 {
    2 + price / 50
}

/// This price, or one tick above or below it, in range.
fn about(chance: &mut Chance, price: u32) -> u32 {
    clamp(i64::from(price) + i64::from(chance.below(3)) - 1)
}

/// A price within the bands.
pub fn within(chance: &mut Chance, now: &Answer) -> u32 {
    let low = now.lower.clamp(1, HIGHEST);
    let high = now.upper.clamp(low, HIGHEST);
    chance.between(low, high)
}

fn clamp(price: i64) -> u32 {
    price.clamp(1, i64::from(HIGHEST)) as u32
}

/// The price of a trade after which the mean is just, or just not, one percent away; half of the time another that brings the mean
/// within half a ten-thousandth of that.
fn edge_of_test(chance: &mut Chance, stock: &Stock) -> u32 {
    let enough = chance.one_in(2);
    let above = chance.one_in(2);
    let mut aside = chance.aside();
    let less = match aside.below(2) {
        0 => i64::from(!enough),
        _ => {
            let half = stock.trades.len() as u32 / 2;
            i64::from(aside.below(2 * half + 1)) - i64::from(half)
        }
    };
    clamp(if above {
        test_above(stock) - less
    } else {
        test_below(stock) + less
    })
}

/// The price of a trade by which the Test changes the reference, if it is within the bands.
pub fn far(chance: &mut Chance, stock: &Stock, time: u32) -> u32 {
    let now = view(stock);
    let more = i64::from(chance.below(share(now.reference)));
    let (lower, upper) = (i64::from(now.lower), i64::from(now.upper));
    let (above, below) = (test_above(stock) + more, test_below(stock) - more);
    let up = if chance.one_in(2) {
        above <= upper
    } else {
        below < lower.max(1)
    };
    let price = clamp(if up {
        above.min(upper)
    } else {
        below.max(lower)
    });
    or_half_cent(chance, stock, time, price)
}

/// The lowest price that makes the mean one percent higher than the reference.
fn test_above(stock: &Stock) -> i64 {
    let (held, reference) = (window(stock), stock.reference);
    let sum = (101 * reference.sum * (held.count + 1)).div_ceil(100 * reference.count);
    sum as i64 - held.sum as i64
}

/// The highest price that makes the mean one percent lower than the reference.
fn test_below(stock: &Stock) -> i64 {
    let (held, reference) = (window(stock), stock.reference);
    let sum = 99 * reference.sum * (held.count + 1) / (100 * reference.count);
    sum as i64 - held.sum as i64
}

/// A bid and an offer: absent, near a band, near each other, or anywhere.
pub fn quote(chance: &mut Chance, stock: &Stock) -> (u32, u32) {
    let now = view(stock);
    let bid = side(chance, &now, now.offer);
    let offer = side(chance, &now, now.bid);
    match chance.below(6) {
        0 => (bid, 0),
        1 => (0, offer),
        2 if bid > offer && offer > 0 => (offer, bid),
        _ => (bid, offer),
    }
}

/// One side of a quote; `other` is the best price of the other side.
fn side(chance: &mut Chance, now: &Answer, other: u32) -> u32 {
    match chance.below(9) {
        0 => 0,
        1 | 2 if has_bands(now) => about(chance, now.lower),
        3 | 4 if has_bands(now) => about(chance, now.upper),
        5 if other > 0 => about(chance, other),
        6 if now.reference > 0 => about(chance, now.reference),
        7 => chance.pick(&[1, HIGHEST, 100]),
        _ if has_bands(now) => within(chance, now),
        _ => first_reference(chance, 100_000),
    }
}
