//! Slices of every length around each limit, alone and beside another fault.

use crate::context::{Context, Outcome};
use crate::draw;
use crate::input::{Input, Kind};
use crate::paper::{self, BUDGET_LIMIT, HEAD_SIZE, IMAGE_SIZE, INPUT_SIZE, MEMORY_SIZE};
use second::{Mode, State};

/// Every limit with its neighbours, and nothing at all.
fn sizes() -> Vec<usize> {
    let limits = [HEAD_SIZE, MEMORY_SIZE, IMAGE_SIZE, INPUT_SIZE];
    let around = limits
        .into_iter()
        .flat_map(|limit| [limit - 1, limit, limit + 1]);
    [0, 1, 14].into_iter().chain(around).collect()
}

pub fn lengths(context: &mut Context) -> Outcome {
    let clean = draw::state(&mut context.rng);
    let dirty = State { f: 0x0F, ..clean };
    let stopped = State {
        mode: Mode::Stopped,
        ..clean
    };
    for size in sizes() {
        bytes_alone(context, size)?;
        for state in [clean, dirty, stopped] {
            memories(context, state, size)?;
            rooms(context, state, size)?;
        }
    }
    Ok(())
}

/// Heads, images and inputs: a right beginning, cut or drawn out to the size.
fn bytes_alone(context: &mut Context, size: usize) -> Outcome {
    let state = draw::state(&mut context.rng);
    for version in [1, 2] {
        let mut head = paper::head(&state).to_vec();
        head[0] = version;
        let input = [&[0, 0, 0, 9], &head[..]].concat();
        for (kind, bytes) in [
            (Kind::Load, &head),
            (Kind::Open, &head),
            (Kind::Program, &input),
        ] {
            let mut bytes = bytes.clone();
            bytes.resize(size, 0);
            context.check(Input::bytes(kind, bytes))?;
        }
        head.resize(size, 0);
        for budget in [1, BUDGET_LIMIT + 1] {
            context.check(Input::run_image(head.clone(), budget))?;
        }
    }
    Ok(())
}

/// Steps and runs on a memory of this size.
fn memories(context: &mut Context, state: State, size: usize) -> Outcome {
    let memory = context.rng.bytes(size);
    context.check(Input::step(state, memory.clone()))?;
    for budget in [0, 1, BUDGET_LIMIT, BUDGET_LIMIT + 1] {
        context.check(Input::run(state, memory.clone(), budget))?;
    }
    Ok(())
}

/// Saving to a slice of this size, from a memory of each size near the right one.
fn rooms(context: &mut Context, state: State, size: usize) -> Outcome {
    let room = size as u32;
    context.check(Input::new(Kind::SaveHead, state, room, Vec::new()))?;
    for memory_size in [0, MEMORY_SIZE - 1, MEMORY_SIZE, MEMORY_SIZE + 1] {
        let memory = context.rng.bytes(memory_size);
        context.check(Input::new(Kind::SaveImage, state, room, memory))?;
    }
    Ok(())
}
