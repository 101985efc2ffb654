//! Rounds of runs, made-up states and broken lists, each from a seed of its own.

use harness::calls::Calls;
use harness::draw::events::{self, Manner};
use harness::draw::{search_cost, states, tables};
use harness::image::{decode, encode, Image};
use harness::rng::Rng;
use harness::tally::ComparisonTally;
use reference::State;

use crate::compare::{Comparison, Difference};

const MANNER: Manner = Manner { eager: 7, pace: 3 };

/// One round. The same seed gives the same round.
pub fn round<C: Calls>(to: &mut Comparison<C>, seed: u64) -> Result<(), Difference> {
    let mut rng = Rng::new(seed);
    let rng = &mut rng;
    let mut seen = run(to, rng, seed)?;
    for k in 0..60 {
        let (what, mut image, most) = match k % 10 {
            0..=1 => ("made up", encode(&states::whole(rng).0), 4),
            2..=5 => ("spoiled", encode(&spoiled(rng)), 2),
            6..=7 => ("bent", encode(&bent(rng, &seen)), 3),
            8 => ("wild", encode(&states::wild(rng)), 2),
            _ if rng.chance(1, 4) => ("noise", states::noise(rng), 2),
            _ => ("too large", too_large(rng, &seen), 2),
        };
        to.origin = format!("seed {seed} {what}");
        play(to, rng, &mut image, most)?;
        if k % 10 == 0 {
            seen.push(decode(&image));
        }
    }
    to.origin = format!("seed {seed} words");
    for _ in 0..10 {
        let words = tables::any(rng);
        let mut image = states::noise(rng);
        to.words(&words, &mut image)?;
        if verdict_is_wanted(rng, &words) {
            to.verdict(&words)?;
        }
        let words = tables::timed(rng);
        if verdict_is_wanted(rng, &words) {
            to.verdict(&words)?;
        }
    }
    Ok(())
}

/// A run from a fresh start; states that it came through.
fn run<C: Calls>(
    to: &mut Comparison<C>,
    rng: &mut Rng,
    seed: u64,
) -> Result<Vec<State>, Difference> {
    to.origin = format!("seed {seed} run");
    let words = tables::sound(rng);
    let mut image = Image::all(u64::MAX);
    to.words(&words, &mut image)?;
    if verdict_is_wanted(rng, &words) {
        to.verdict(&words)?;
    }
    let mut seen = vec![decode(&image)];
    for _ in 0..8 {
        play(to, rng, &mut image, 15)?;
        seen.push(decode(&image));
    }
    Ok(seen)
}

/// Up to `most` events in a row on an image.
fn play<C: Calls>(
    to: &mut Comparison<C>,
    rng: &mut Rng,
    image: &mut Image,
    most: u64,
) -> Result<(), Difference> {
    let mut state = decode(image);
    let table = state.table();
    for _ in 0..rng.between(1, most) {
        let event = events::event(rng, MANNER, &state, table.as_ref());
        state = to.event(image, event)?;
    }
    Ok(())
}

fn spoiled(rng: &mut Rng) -> State {
    let (mut state, table) = states::whole(rng);
    states::spoil(rng, &mut state, &table);
    state
}

fn bent(rng: &mut Rng, seen: &[State]) -> State {
    let mut state = seen[rng.index(seen.len())].clone();
    states::bend(rng, &mut state);
    state
}

fn too_large(rng: &mut Rng, seen: &[State]) -> Image {
    let state = match rng.between(0, 3) {
        0 => seen[rng.index(seen.len())].clone(),
        1 => spoiled(rng),
        _ => states::whole(rng).0,
    };
    let mut image = encode(&state);
    states::widen(rng, &mut image);
    image
}

/// The second program tries every t, so a long search is asked for rarely.
fn verdict_is_wanted(rng: &mut Rng, words: &[u32]) -> bool {
    match search_cost(words) {
        0..=1_000 => true,
        1_001..=20_000 => rng.chance(1, 4),
        20_001..=200_000 => rng.chance(1, 40),
        _ => rng.chance(1, 400),
    }
}

/// Rounds from a first seed on, until there were this many events.
pub fn events<C: Calls>(calls: &C, first: u64, count: u64) -> Result<ComparisonTally, Difference> {
    let mut to = Comparison::new(calls);
    let mut seed = first;
    while to.tally.events < count {
        round(&mut to, seed)?;
        seed += 1;
    }
    Ok(to.tally)
}
