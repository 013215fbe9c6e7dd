//! Damage: to bytes, to tokens, and files of any bytes at all.

use super::draws::Draws;
use super::words::{any_token, laid_out, Layout, Words};

/// Deletes, inserts, swaps, replaces or doubles one token, or ends the file there.
pub fn damage_tokens(draws: &mut Draws, tokens: &mut Words) {
    if tokens.is_empty() {
        return;
    }
    let place = draws.below(tokens.len());
    match draws.below(7) {
        0 => drop(tokens.remove(place)),
        1 => tokens.insert(place, any_token(draws)),
        2 => tokens.push(any_token(draws)),
        3 => {
            let other =
                if draws.chance(70) { place.saturating_sub(1) } else { draws.below(tokens.len()) };
            tokens.swap(place, other);
        }
        4 => tokens.insert(place, tokens[place].clone()),
        5 => tokens.truncate(place),
        _ => tokens[place] = any_token(draws),
    }
}

/// Deletes, inserts, swaps or replaces one byte, or ends the file there.
pub fn damage_bytes(draws: &mut Draws, bytes: &mut Vec<u8>) {
    if bytes.is_empty() {
        return;
    }
    let place = draws.below(bytes.len());
    match draws.below(6) {
        0 => drop(bytes.remove(place)),
        1 => bytes.insert(place, any_byte(draws)),
        2 => bytes.swap(place, place.saturating_sub(1)),
        3 => bytes[place] ^= 1 << draws.below(8),
        4 => bytes.truncate(place),
        _ => bytes[place] = any_byte(draws),
    }
}

fn any_byte(draws: &mut Draws) -> u8 {
    if draws.chance(70) {
        draws.pick(b"{}();=.:!<>+-&|_019aZx \t\n\r,@")
    } else {
        draws.byte()
    }
}

/// Any bytes, or bytes that may make tokens, or any tokens.
pub fn any_bytes(draws: &mut Draws, most: usize) -> Vec<u8> {
    let count = draws.count(0, most);
    match draws.below(3) {
        0 => (0..count).map(|_| draws.byte()).collect(),
        1 => (0..count).map(|_| draws.pick(b"{}();=:!<>+-&|_019aZx \n")).collect(),
        _ => {
            let tokens: Words = (0..count / 4).map(|_| any_token(draws)).collect();
            laid_out(draws, &tokens, Layout::Loose)
        }
    }
}
