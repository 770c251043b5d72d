//! Rankings, harmonic comparison, ranking conditions, and the smallest ranking that fits, by trying all.

use crate::{Profile, Refusal};
use std::cmp::Ordering;

pub fn is_ranking(count: usize, ranking: &[u8]) -> bool {
    ranking.len() == count && (0..count as u8).all(|m| ranking.iter().filter(|&&r| r == m).count() == 1)
}

/// How the first profile stands to the second: `Less` is better.
pub fn harmony(ranking: &[u8], first: &Profile, second: &Profile) -> Ordering {
    for &machine in ranking {
        let order = first[machine as usize].cmp(&second[machine as usize]);
        if order != Ordering::Equal {
            return order;
        }
    }
    Ordering::Equal
}

/// How the first profile stands to the second, and the machine that decided: the highest ranked one where they differ.
pub fn compare(
    count: u8,
    ranking: &[u8],
    first: &Profile,
    second: &Profile,
) -> Result<(Ordering, Option<u8>), Refusal> {
    if !(1..=6).contains(&count) {
        return Err(1);
    }
    if !is_ranking(count as usize, ranking) {
        return Err(7);
    }
    let decided = ranking.iter().copied().find(|&machine| first[machine as usize] != second[machine as usize]);
    Ok((harmony(ranking, first, second), decided))
}

/// The condition that the first profile beats the second: W, the machines where it has fewer, and L, where it has more.
pub fn condition(count: u8, first: &Profile, second: &Profile) -> Result<(u8, u8), Refusal> {
    if !(1..=6).contains(&count) {
        return Err(1);
    }
    let (mut fewer, mut more) = (0, 0);
    for i in 0..count as usize {
        fewer |= ((first[i] < second[i]) as u8) << i;
        more |= ((first[i] > second[i]) as u8) << i;
    }
    Ok((fewer, more))
}

pub fn fits(ranking: &[u8], fewer: u8, more: u8) -> bool {
    let highest = ranking.iter().find(|&&m| (fewer | more) >> m & 1 == 1);
    more == 0 || highest.map_or(false, |&m| fewer >> m & 1 == 1)
}

/// The smallest ranking, as a byte string, that fits all: every string of `count` bytes below `count` in order.
pub fn find_ranking(count: u8, list: &[u8]) -> Result<[u8; 6], Refusal> {
    if !(1..=6).contains(&count) {
        return Err(1);
    }
    if list.len() % 2 == 1 || list.len() / 2 > 64 {
        return Err(15);
    }
    let conditions: Vec<(u8, u8)> = list.chunks(2).map(|pair| (pair[0], pair[1])).collect();
    if conditions.iter().any(|&(fewer, more)| fewer & more != 0 || (fewer | more) >> count != 0) {
        return Err(15);
    }
    let k = count as u32;
    for number in 0..k.pow(k) {
        let ranking: Vec<u8> = (0..k).map(|place| (number / k.pow(k - 1 - place) % k) as u8).collect();
        if is_ranking(count as usize, &ranking) && conditions.iter().all(|&(w, l)| fits(&ranking, w, l)) {
            let mut answer = [0; 6];
            answer[..ranking.len()].copy_from_slice(&ranking);
            return Ok(answer);
        }
    }
    Err(16)
}
