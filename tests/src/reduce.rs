//! Cuts a failing call or script down while it still fails.

use reference::structure;
use reference::tree::{Action, Block, Declared};

use crate::call::Call;
use crate::encode::encode;
use crate::lists;

type Candidates<'a, T> = Box<dyn Iterator<Item = T> + 'a>;

/// The last of ever smaller calls for which `fails` holds.
pub fn reduce(call: &Call, fails: &dyn Fn(&Call) -> bool) -> Call {
    cut(call.clone(), smaller, fails)
}

/// The last of ever shorter scripts for which `fails` holds.
pub fn reduce_script(script: &[u8], fails: &dyn Fn(&[u8]) -> bool) -> Vec<u8> {
    cut(script.to_vec(), |script| shorter(script), &|script| fails(script))
}

fn cut<T>(
    mut failing: T,
    candidates: impl Fn(&T) -> Candidates<T>,
    fails: &dyn Fn(&T) -> bool,
) -> T {
    loop {
        let found = candidates(&failing).find(|candidate| fails(candidate));
        match found {
            Some(smaller) => failing = smaller,
            None => return failing,
        }
    }
}

/// Each candidate has a shorter script, a shorter table, a shorter list, a list put right or a lower number.
fn smaller(call: &Call) -> Candidates<'_, Call> {
    let with = |script| Call { script, ..call.clone() };
    let candidates = without_parts(&call.script)
        .chain(without_words(&call.script))
        .map(with)
        .chain(without_pairs(call))
        .chain(simpler_lists(call))
        .chain(lower_numbers(call))
        .chain(without_two_parts(&call.script).map(with));
    Box::new(candidates)
}

fn shorter(script: &[u8]) -> Candidates<'_, Vec<u8>> {
    let one = without_parts(script).chain(without_words(script));
    Box::new(one.chain(without_two_parts(script)))
}

/// Where the script has a tree: without one declaration or statement.
fn without_parts(script: &[u8]) -> impl Iterator<Item = Vec<u8>> + '_ {
    let program = structure::program(script).ok().into_iter();
    program
        .flat_map(|program| (0..count_parts(&program)).map(move |part| without(&program, &[part])))
}

/// A declaration can often go only together with its use.
fn without_two_parts(script: &[u8]) -> impl Iterator<Item = Vec<u8>> + '_ {
    let program = structure::program(script).ok().into_iter();
    program.flat_map(|program| {
        let parts = count_parts(&program);
        let two = (0..parts).flat_map(move |later| (0..later).map(move |part| [later, part]));
        two.map(move |two| without(&program, &two))
    })
}

/// The parts are given in falling order, so that the numbers of those left stay.
fn without(program: &Block, parts: &[usize]) -> Vec<u8> {
    let mut program = program.clone();
    for &part in parts {
        remove_part(&mut program, &mut part.clone());
    }
    encode(&program).bytes
}

fn count_parts(block: &Block) -> usize {
    let bodies = block.declarations.iter().map(|it| match &it.declared {
        Declared::Procedure(procedure) => 1 + count_parts(&procedure.body),
        _ => 1,
    });
    let statements = block.statements.iter().map(|it| match &it.action {
        Action::Block(block) => 1 + count_parts(block),
        _ => 1,
    });
    bodies.chain(statements).sum()
}

/// Counts `left` down over the parts in file order and takes out the one where it is 0.
fn remove_part(block: &mut Block, left: &mut usize) -> bool {
    for index in 0..block.declarations.len() {
        if *left == 0 {
            block.declarations.remove(index);
            return true;
        }
        *left -= 1;
        if let Declared::Procedure(procedure) = &mut block.declarations[index].declared {
            if remove_part(&mut procedure.body, left) {
                return true;
            }
        }
    }
    for index in 0..block.statements.len() {
        if *left == 0 {
            remove_statement(block, index);
            return true;
        }
        *left -= 1;
        if let Action::Block(inner) = &mut block.statements[index].action {
            if remove_part(inner, left) {
                return true;
            }
        }
    }
    false
}

/// Labels keep their statement, or take the one before if theirs is gone.
fn remove_statement(block: &mut Block, index: usize) {
    block.statements.remove(index);
    let statements = block.statements.len();
    for declaration in &mut block.declarations {
        if let Declared::Label(target) = &mut declaration.declared {
            if *target > index + 1 || *target > statements {
                *target -= 1;
            }
        }
    }
}

/// For scripts without a tree: without a run of words, long runs first.
fn without_words(script: &[u8]) -> impl Iterator<Item = Vec<u8>> + '_ {
    let has_tree = structure::program(script).is_ok();
    let sizes = [256, 64, 16, 8, 6, 4, 2, 1].into_iter().filter(move |_| !has_tree);
    sizes.flat_map(move |size| {
        let starts = 0..(script.len() + 1).saturating_sub(size);
        starts.step_by(if size == 1 { 1 } else { 2 }).map(move |start| {
            let mut script = script.to_vec();
            script.drain(start..start + size);
            script
        })
    })
}

/// The list becomes the right one, or stays wrong as it is but for the pair that is gone.
fn without_pairs(call: &Call) -> impl Iterator<Item = Call> + '_ {
    let places = call.table.len() / 2;
    let needed = (2 * places).min(call.groups.len());
    let (listed, past) = call.groups.split_at(needed);
    (0..places).rev().flat_map(move |place| {
        let mut table = call.table.clone();
        let pair: Vec<i32> = table.drain(2 * place..2 * place + 2).collect();
        let used = place < call.count;
        let count = call.count - usize::from(used);
        let mut lists = vec![lists::right(&table, count)];
        if used {
            lists.push(counted_down(listed, pair[0]));
        } else if place + 1 == places {
            lists.extend((0..needed / 2).map(|at| without_place(listed, at)));
        }
        lists.into_iter().map(move |list| {
            let groups = [&list[..], past].concat();
            Call { table: table.clone(), groups, count, ..call.clone() }
        })
    })
}

fn without_place(listed: &[i32], at: usize) -> Vec<i32> {
    let mut listed = listed.to_vec();
    listed.drain((2 * at).min(listed.len())..(2 * at + 2).min(listed.len()));
    listed
}

/// A place shorter: the group's own where it had one member, else the last.
fn counted_down(listed: &[i32], group: i32) -> Vec<i32> {
    let mut counted = listed.to_vec();
    match listed.chunks_exact(2).position(|place| place[0] == group) {
        Some(at) if listed[2 * at + 1] != 1 => {
            counted[2 * at + 1] = listed[2 * at + 1].wrapping_sub(1)
        }
        Some(at) => return without_place(listed, at),
        None => {}
    }
    without_place(&counted, (listed.len() / 2).saturating_sub(1))
}

/// The right list, or a word fewer past the part needed.
fn simpler_lists(call: &Call) -> impl Iterator<Item = Call> + '_ {
    let right = lists::right(&call.table, call.count);
    let shorter = (call.groups.len() > right.len()).then(|| {
        let groups = call.groups[..call.groups.len() - 1].to_vec();
        Call { groups, ..call.clone() }
    });
    let wrong = call.groups.get(..right.len()) != Some(&right[..]);
    let righted = wrong.then(|| Call { groups: right, ..call.clone() });
    shorter.into_iter().chain(righted)
}

fn lower_numbers(call: &Call) -> impl Iterator<Item = Call> + '_ {
    let lower = |now: u32| [now / 2, now.saturating_sub(1)].into_iter().filter(move |it| *it < now);
    let allowances = lower(call.n).map(move |n| Call { n, ..call.clone() });
    let activations = lower(call.d).map(move |d| Call { d, ..call.clone() });
    let limits = lower(call.g).map(move |g| Call { g, ..call.clone() });
    let names = (call.name > 0).then(|| Call { name: 0, ..call.clone() });
    let tallies = (call.tally > 0).then(|| Call { tally: 0, ..call.clone() });
    allowances.chain(activations).chain(limits).chain(names).chain(tallies)
}
