// Facts about the comparison: a wrong answer is seen, chunks differ, only chosen kinds are called.
// It runs no program, and says nothing about what the answers are.

use crate::compare::{check_answer, Plan};
use crate::facts::Facts;
use crate::kinds::{self, chosen, Kind};
use crate::random::Random;
use crate::wire::{put_answer, Call, ANSWER_HEADER};

pub fn state_all(facts: &mut Facts) {
    for kind in kinds::all() {
        wrong_answers(facts, kind);
    }
    seeds_of_chunks(facts);
    chunks(facts);
    lists_of_kinds(facts);
    restricted(facts);
}

/// A right answer with one byte of its front changed is a wrong one.
fn wrong_answers(facts: &mut Facts, kind: &Kind) {
    for call in (kind.stored)() {
        let mut bytes = Vec::new();
        put_answer(&(kind.answer)(&call), &kind.shape, &mut bytes);
        let seen = |bytes: &[u8]| check_answer(0, kind, &call, bytes).is_some();
        let name = format!("{} {:X?}", kind.name, call.header());
        facts.state(&format!("{name}: the right answer agrees"), !seen(&bytes));
        // Of a large buffer a part does: one comparison serves all its elements.
        let front = bytes.len().min(ANSWER_HEADER + 64);
        let all_seen = (0..front).all(|place| {
            bytes[place] ^= 1;
            let changed = seen(&bytes);
            bytes[place] ^= 1;
            changed
        });
        facts.state(&format!("{name}: wrong ones do not"), all_seen);
    }
}

/// The first and the third output of splitmix64 for seed 0, as published with the generator.
fn seeds_of_chunks(facts: &mut Facts) {
    let seeds = [0, 2].map(|chunk| Random::seed_of_chunk(0, chunk));
    let published = [0xE220_A839_7B1D_CDAF, 0x06C4_5D18_8009_454F];
    facts.state("chunks' seeds are the generator's", seeds == published);
}

fn calls_of(kinds: &[&'static Kind], chunk: Option<u64>) -> Vec<Call> {
    let plan = Plan {
        kinds: kinds.to_vec(),
        seed: 2026,
        calls: 20 * kinds.len(),
        chunk,
    };
    plan.calls().collect()
}

/// A chunk is the same each time it is made; another chunk has other calls; the plain run begins
/// with edges, of which a chunk has none.
fn chunks(facts: &mut Facts) {
    for kind in kinds::all() {
        let made = |chunk| calls_of(&[kind], chunk);
        let (first, again, second) = (made(Some(0)), made(Some(0)), made(Some(1)));
        let name = kind.name;
        facts.state(&format!("{name}: a chunk is repeated"), first == again);
        let fresh = |call: &&Call| !first.contains(call);
        let differing = second.iter().filter(fresh).count();
        facts.state(&format!("{name}: chunks differ"), differing > 0);
        let edge = (kind.edges)().swap_remove(0);
        facts.state(
            &format!("{name}: the plain run begins with an edge"),
            made(None).first() == Some(&edge),
        );
        let mut random = Random::for_kind(Random::seed_of_chunk(2026, 0), kind.number);
        let seeded = first.iter().all(|call| *call == (kind.random)(&mut random));
        facts.state(&format!("{name}: a chunk has no edges"), seeded);
    }
}

fn lists_of_kinds(facts: &mut Facts) {
    let numbers = |list| {
        let kinds = chosen(list).ok()?;
        Some(kinds.iter().map(|kind| kind.number).collect::<Vec<u32>>())
    };
    let read = numbers("8,9,12,14");
    facts.state("a list of kinds is read", read == Some(vec![8, 9, 12, 14]));
    for list in ["", "0", "23", "8,", "8,8", "8 9", "8,x", "-8"] {
        let refused = numbers(list).is_none();
        facts.state(&format!("the list of kinds \"{list}\" is refused"), refused);
    }
}

/// Chosen kinds have an even share of the calls, and the others none.
fn restricted(facts: &mut Facts) {
    for list in ["9", "8,9,12,14", "14,2", "20,21,22"] {
        let kinds = chosen(list).expect("these are kinds");
        let calls = calls_of(&kinds, None);
        let share = |kind: &Kind| calls.iter().filter(|call| call.kind == kind.number).count();
        let even = kinds::all().all(|kind| {
            let is_chosen = kinds.iter().any(|chosen| chosen.number == kind.number);
            share(kind) == if is_chosen { 20 } else { 0 }
        });
        facts.state(&format!("only the kinds {list} are called"), even);
    }
}
