//! Shorter orders on the same file, looked for by chance.

use crate::call::Call;
use crate::orders::Order;
use crate::pair::Pair;
use crate::random::Random;

/// An example of one file and calls of an order, with fewer of them than this one, if some tries find one.
pub fn shorter(calls: &[Call], thorough: bool) -> Option<Vec<Call>> {
    let (load, steps) = calls.split_first()?;
    if !matches!(load, Call::Load(_) | Call::Read(_)) || !steps.iter().all(in_orders) {
        return None;
    }
    let mut random = Random::new(calls.len() as u64);
    (0..3_000).find_map(|_| one_try(&mut random, load, steps.len() - 1, thorough))
}

/// Whether orders are made of such calls.
fn in_orders(call: &Call) -> bool {
    let steps = matches!(call, Call::Step { .. } | Call::Ask { .. } | Call::Commit { .. } | Call::Touch { .. });
    steps || matches!(call, Call::Nearest { .. } | Call::Common { .. } | Call::Everywhere | Call::Upheld)
}

/// A random order of so many calls at most, if library and model differ in it.
fn one_try(random: &mut Random, load: &Call, most: usize, thorough: bool) -> Option<Vec<Call>> {
    let mut pair = Pair::new(thorough).ok()?;
    let mut order = Order::new(random);
    let mut calls = vec![load.clone()];
    pair.call(load).ok()?;
    for _ in 0..most {
        let cell = pair.cell.as_ref()?;
        if cell.idle() {
            return None;
        }
        calls.push(order.next(random, cell));
        if pair.call(&calls[calls.len() - 1]).is_err() {
            return Some(calls);
        }
    }
    None
}
