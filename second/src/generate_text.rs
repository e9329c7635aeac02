//! The generator of request texts: generated calls written out, long ones of
//! all sizes up to the limit, and texts that are harmed.

use crate::call::{Buddy, Call};
use crate::damage::break_one;
use crate::damage_buddies::{self, break_in_text, BY_PLACE, BY_VALUE};
use crate::damage_rules::break_line;
use crate::damage_text::break_text;
use crate::generate::{
    big_call, boundary_call, flavour, push_station, small_call, untuned_call, Flavour, TURNS,
};
use crate::harm::harm;
use crate::rng::Rng;
use crate::sorts::Sort;
use crate::units::{MOST_TEXT, NO_END};
use crate::write::{request_text, Style};

/// Every so many indices a text stands at the length limit or one past it.
const LIMIT_EVERY: u64 = 97;
/// Every so many indices a text is a long one of any size.
const LONG_EVERY: u64 = 23;
/// The refusals that the damaged turns aim at. In the first of them texts are
/// harmed in turn, whatever else the index would ask for, and in the last the line of
/// the rule; in the last but one mostly the line of the check by its value, and every so
/// often texts are harmed at random; in a third of the two before that it is the line of
/// the check by its place.
const DAMAGES: [u32; 11] = [9, 9, 9, 9, 9, 6, 7, 8, 10, 9, 9];
const HARMS: u64 = 5;
const PLACE_HARMS: [u64; 2] = [7, 8];
const VALUE_HARMS: u64 = 9;
const RULE_HARMS: u64 = 10;
const PLACES_EVERY: u64 = 3;
const RANDOM_EVERY: u64 = 4;

/// A request text, and the harm that was done to it in turn.
pub fn text(seed: u64, index: u64) -> (Vec<u8>, Option<Sort>) {
    let mut rng = Rng::for_case(seed, 5, index);
    let rng = &mut rng;
    let turn = index % TURNS;
    match flavour(index, &DAMAGES) {
        _ if turn < HARMS => {
            let mut text = harmless(rng);
            let sort = harm(rng, &mut text, index / TURNS * HARMS + turn);
            (text, Some(sort))
        }
        _ if turn == RULE_HARMS => {
            let mut text = written(rng, small_call);
            break_line(rng, &mut text, index / TURNS);
            (text, None)
        }
        _ if check_harm(turn, index / TURNS).is_some() => {
            let mut text = written(rng, small_call);
            let way = check_harm(turn, index / TURNS).unwrap_or(0);
            damage_buddies::break_line(rng, &mut text, way);
            (text, None)
        }
        _ if index % LIMIT_EVERY == 5 => {
            let past = index / LIMIT_EVERY % 2;
            (text_of_length(rng, MOST_TEXT + past as usize), None)
        }
        _ if index % LONG_EVERY == 7 => (long_text(rng, index / LONG_EVERY), None),
        other => (unharmed(rng, other, index / TURNS), None),
    }
}

/// The way to harm the line of the check, where it is its turn in a round of turns.
fn check_harm(turn: u64, round: u64) -> Option<u64> {
    let [one, another] = PLACE_HARMS;
    let place = |at: u64| Some(BY_VALUE + (2 * (round / PLACES_EVERY) + at) % BY_PLACE);
    match round % PLACES_EVERY {
        1 if turn == one => place(0),
        2 if turn == another => place(1),
        _ if turn == VALUE_HARMS && !round.is_multiple_of(RANDOM_EVERY) => {
            // The rounds before it that were not random.
            Some((round - round / RANDOM_EVERY - 1) % BY_VALUE)
        }
        _ => None,
    }
}

fn unharmed(rng: &mut Rng, flavour: Flavour, turn: u64) -> Vec<u8> {
    match flavour {
        Flavour::Big => written(rng, big_call),
        Flavour::Valid => written(rng, small_call),
        Flavour::Boundary => written(rng, boundary_call),
        Flavour::Damaged(9) => {
            let mut text = written(rng, small_call);
            for _ in 0..rng.pick(&[1, 1, 1, 2]) {
                break_text(rng, &mut text);
            }
            text
        }
        Flavour::Damaged(10) => {
            let mut text = written(rng, small_call);
            let filler = rng.pick(&[b'\n', b'0', b'x', 0xFF]);
            let surplus = rng.pick(&[0, 1, 2, 900]);
            text.resize(MOST_TEXT + surplus, filler);
            text
        }
        Flavour::Damaged(number) => {
            let mut call = small_call(rng);
            if !break_in_text(rng, &mut call, number, turn) {
                break_one(rng, &mut call, number);
            }
            text_form(rng, &call).unwrap_or_default()
        }
    }
}

/// The text of a made call. Where bounds made it unsayable, another is made.
fn written(rng: &mut Rng, make: fn(&mut Rng) -> Call) -> Vec<u8> {
    loop {
        let call = make(rng);
        if let Some(text) = text_form(rng, &call) {
            return text;
        }
    }
}

fn text_form(rng: &mut Rng, call: &Call) -> Option<Vec<u8>> {
    let style = Style { marks_as_digits: rng.one_in(3), age_left_out: rng.one_in(2) };
    request_text(call, style)
}

/// A proper request in which every kind of line stands, to be harmed.
fn harmless(rng: &mut Rng) -> Vec<u8> {
    let mut call = small_call(rng);
    let guess = call.first_guess[0];
    push_station(&mut call, 0, 0, guess);
    call.rule = Some(call.rule());
    call.buddy = call.check().or(Some(Buddy::on(100, 300)));
    call.fit_results();
    let style = Style { marks_as_digits: rng.one_in(3), age_left_out: false };
    request_text(&call, style).unwrap_or_default()
}

/// A proper request with long numbers, of any size up to about the limit; the
/// sizes come in turn, each far from the one before.
fn long_text(rng: &mut Rng, turn: u64) -> Vec<u8> {
    let ny = 2 + (turn * 5 % 63) as u32;
    let stations = (8 * ny as usize).saturating_sub(rng.below(60));
    let mut call = untuned_call(rng, 64, ny, stations);
    lengthen(rng, &mut call);
    call.first_guess.iter_mut().for_each(|value| *value = rng.between(-1_000_000, -999_000));
    text_form(rng, &call).unwrap_or_default()
}

/// A proper request of an exact length near the limit: the longest numbers
/// that all rows may have, then one byte less in as many points as needed.
fn text_of_length(rng: &mut Rng, length: usize) -> Vec<u8> {
    let mut call = untuned_call(rng, 64, 64, 512);
    lengthen(rng, &mut call);
    call.first_guess.fill(-1_000_000);
    call.until.fill(NO_END);
    let style = Style { marks_as_digits: true, age_left_out: false };
    let whole = request_text(&call, style).map_or(0, |text| text.len());
    let surplus = whole.saturating_sub(length).min(call.first_guess.len());
    call.first_guess[..surplus].fill(-999_999);
    request_text(&call, style).unwrap_or_default()
}

/// Long numbers in every row, and short radii, since such a call is slow.
fn lengthen(rng: &mut Rng, call: &mut Call) {
    call.time = 4_294_967_000;
    call.radius.iter_mut().for_each(|radius| *radius = 1 + *radius / 8);
    for row in 0..call.x.len() {
        if row % 8 < 6 {
            (call.x[row], call.y[row]) = (-1_000_000, -1_000_000);
        }
        call.value[row] = rng.between(-1_000_000, -999_000);
        call.observed[row] = call.time - rng.up_to(200);
        call.from[row] = 1_000_000_000;
        call.until[row] = NO_END - rng.up_to(1);
    }
}
