//! Heads and images: their bytes, there and back, and what is refused.

mod common;

use common::{sample, sample_image, sample_memory, SAMPLE_HEAD};
use trnadulek::{load, open, open_mut, run_image, save, save_image, Cpu, Ime, Mode, Refusal};
use trnadulek::{HEAD_SIZE, IMAGE_SIZE, MEMORY_SIZE};

#[test]
fn a_head_there_and_back() {
    let mut head = [0xEE; HEAD_SIZE];
    assert_eq!(save(sample(), &mut head), Ok(()));
    assert_eq!(head, SAMPLE_HEAD);
    assert_eq!(load(&head), Ok(sample()));
}

#[test]
fn every_switch_and_mode_there_and_back() {
    for ime in Ime::ALL {
        for mode in Mode::ALL {
            let cpu = Cpu {
                ime,
                mode,
                ..sample()
            };
            let mut head = [0; HEAD_SIZE];
            save(cpu, &mut head).unwrap();
            assert_eq!(load(&head), Ok(cpu));
        }
    }
}

#[test]
fn an_image_there_and_back() {
    let mut image = vec![0xEE; IMAGE_SIZE];
    assert_eq!(save_image(sample(), &sample_memory(), &mut image), Ok(()));
    assert_eq!(image, sample_image());
    let (cpu, memory) = open(&image).unwrap();
    assert_eq!((cpu, memory), (sample(), sample_memory().as_slice()));
}

#[test]
fn the_memory_of_an_opened_image_is_a_part_of_it() {
    let image = sample_image();
    let part = image[HEAD_SIZE..].as_ptr();
    let memory = open(&image).unwrap().1;
    assert_eq!((memory.as_ptr(), memory.len()), (part, MEMORY_SIZE));
}

/// Everything in a head is wrong at first, and is put right in the order of the refusals.
fn loads_are_refused_in_order(bytes: &mut [u8], load: impl Fn(&[u8]) -> Result<Cpu, Refusal>) {
    let right = bytes.len() - 1;
    bytes.fill(0xFF);
    for length in [0, right - 1, right + 1] {
        assert_eq!(load(&bytes[..length]), Err(Refusal::Length));
    }
    let bytes = &mut bytes[..right];
    for version in [0, 2, 255] {
        bytes[0] = version;
        assert_eq!(load(bytes), Err(Refusal::Version));
    }
    bytes[0] = 1;
    assert_eq!(load(bytes), Err(Refusal::BlockLength));
    bytes[1..5].copy_from_slice(&[0, 0, 0, 14]);
    assert_eq!(load(bytes), Err(Refusal::BlockLength));
    bytes[1..5].copy_from_slice(&[0, 0, 0, 15]);
    bytes[19..23].copy_from_slice(&[0, 1, 0, 0]);
    assert_eq!(load(bytes), Err(Refusal::BlockLength));
    bytes[1..5].copy_from_slice(&[0, 0, 0, 14]);
    for (ime, mode) in [(3, 4), (3, 3), (2, 4)] {
        bytes[17..19].copy_from_slice(&[ime, mode]);
        assert_eq!(load(bytes), Err(Refusal::StateCode));
    }
    bytes[17..19].copy_from_slice(&[2, 3]);
    for bit in [0x01, 0x02, 0x04, 0x08] {
        bytes[6] = 0xF0 | bit;
        assert_eq!(load(bytes), Err(Refusal::FlagBits));
    }
    bytes[6] = 0xF0;
    assert_eq!(
        load(bytes).map(|cpu| (cpu.ime, cpu.mode)),
        Ok((Ime::On, Mode::Stopped))
    );
}

#[test]
fn heads_are_refused_in_order() {
    loads_are_refused_in_order(&mut [0; HEAD_SIZE + 1], load);
}

#[test]
fn images_are_refused_in_order() {
    loads_are_refused_in_order(&mut [0; IMAGE_SIZE + 1], |image| Ok(open(image)?.0));
    loads_are_refused_in_order(&mut [0; IMAGE_SIZE + 1], |image| {
        Ok(open_mut(&mut image.to_vec())?.cpu())
    });
    loads_are_refused_in_order(&mut [0; IMAGE_SIZE + 1], |image| {
        let ran = run_image(&mut image.to_vec(), 0);
        ran.map(|ran| ran.cpu).map_err(|ended| ended.refusal)
    });
}

#[test]
fn saving_a_head_is_refused_for_length_then_flags() {
    let bad_flags = Cpu {
        f: 0xF8,
        ..sample()
    };
    let mut lent = [0xEE; HEAD_SIZE + 1];
    for length in [0, HEAD_SIZE - 1, HEAD_SIZE + 1] {
        assert_eq!(save(bad_flags, &mut lent[..length]), Err(Refusal::Length));
    }
    assert_eq!(
        save(bad_flags, &mut lent[..HEAD_SIZE]),
        Err(Refusal::FlagBits)
    );
    assert_eq!(lent, [0xEE; HEAD_SIZE + 1]);
}

#[test]
fn saving_an_image_is_refused_for_length_then_memory_then_flags() {
    let bad_flags = Cpu {
        f: 0x01,
        ..sample()
    };
    let memory = vec![0x11; MEMORY_SIZE + 1];
    let mut lent = vec![0xEE; IMAGE_SIZE + 1];
    for length in [0, IMAGE_SIZE - 1, IMAGE_SIZE + 1] {
        let saved = save_image(bad_flags, &memory, &mut lent[..length]);
        assert_eq!(saved, Err(Refusal::Length));
    }
    let image = &mut lent[..IMAGE_SIZE];
    for length in [0, MEMORY_SIZE - 1, MEMORY_SIZE + 1] {
        let saved = save_image(bad_flags, &memory[..length], image);
        assert_eq!(saved, Err(Refusal::MemoryLength));
    }
    let saved = save_image(bad_flags, &memory[..MEMORY_SIZE], image);
    assert_eq!(saved, Err(Refusal::FlagBits));
    assert!(lent.iter().all(|byte| *byte == 0xEE));
}
