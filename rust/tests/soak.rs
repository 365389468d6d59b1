//! A game that moves a hundred thousand times from unit to unit, in the middle of random runs, ends
//! as one that never moved. The moved one is run where it lies in its image, the other as a state
//! and a memory.

use random::Random;
use trnadulek::{open, run, run_image, save_image, Cpu, Ended, Ran, Refusal};
use trnadulek::{IMAGE_SIZE, MEMORY_SIZE};

const MOVES: u32 = 100_000;
const MOVES_OF_A_GAME: u32 = 400;
const SEED: u64 = 1;

/// STOP, HALT and the undefined bytes: without them most runs are long.
const ENDS: [u8; 13] = [
    0x10, 0x76, 0xD3, 0xDB, 0xDD, 0xE3, 0xE4, 0xEB, 0xEC, 0xED, 0xF4, 0xFC, 0xFD,
];

fn lasting_byte(random: &mut Random) -> u8 {
    loop {
        let byte = random.byte();
        if !ENDS.contains(&byte) {
            return byte;
        }
    }
}

fn random_cpu(random: &mut Random) -> Cpu {
    Cpu {
        a: random.byte(),
        f: random.byte() & 0xF0,
        b: random.byte(),
        c: random.byte(),
        d: random.byte(),
        e: random.byte(),
        h: random.byte(),
        l: random.byte(),
        sp: random.word(),
        pc: random.word(),
        ..Cpu::default()
    }
}

/// What a run leaves, and why it ended where a step was refused.
type Left = (Option<Refusal>, Ran);

fn left_by(ran: Result<Ran, Ended>) -> Left {
    match ran {
        Ok(ran) => (None, ran),
        Err(ended) => (Some(ended.refusal), ended.ran),
    }
}

/// Runs the image in slices of a game, carried to another unit after each. Answers what all of them
/// came to, and the moves.
fn play(random: &mut Random, start: Cpu, image: &mut Vec<u8>, other: &mut Vec<u8>) -> (Left, u32) {
    let mut whole = Ran {
        cpu: start,
        spent: 0,
        steps: 0,
    };
    for moves in 1..=MOVES_OF_A_GAME {
        let (ended, slice) = left_by(run_image(image, 1 + random.below(200)));
        whole = Ran {
            cpu: slice.cpu,
            spent: whole.spent + slice.spent,
            steps: whole.steps + slice.steps,
        };
        other.copy_from_slice(image);
        image.fill(0xEE);
        std::mem::swap(image, other);
        if ended.is_some() {
            return ((ended, whole), moves);
        }
    }
    ((None, whole), MOVES_OF_A_GAME)
}

/// Plays one game and holds it against the game that never moved. Answers the moves.
fn game(random: &mut Random, image: &mut Vec<u8>, other: &mut Vec<u8>) -> u32 {
    let start = random_cpu(random);
    let mut stayed: Vec<u8> = (0..MEMORY_SIZE).map(|_| lasting_byte(random)).collect();
    save_image(start, &stayed, image).expect("a valid state is saved");
    let (moved, moves) = play(random, start, image, other);
    let budget = moved.1.spent + u32::from(moved.0.is_some());
    assert_eq!(left_by(run(start, &mut stayed, budget)), moved);
    let (cpu, memory) = open(image).expect("an image stays one");
    assert_eq!(cpu, moved.1.cpu);
    assert!(stayed == memory, "the memories differ");
    moves
}

#[test]
fn a_game_that_moves_ends_as_one_that_stays() {
    let mut random = Random::new(SEED, "soak");
    let mut image = vec![0; IMAGE_SIZE];
    let mut other = vec![0; IMAGE_SIZE];
    let (mut moves, mut games) = (0, 0);
    while moves < MOVES {
        moves += game(&mut random, &mut image, &mut other);
        games += 1;
    }
    println!("seed {SEED}: {moves} moves in {games} games");
    assert!(games > 100);
}
