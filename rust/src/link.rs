//! The library's functions, each behind a safe one of the same name with slices for pointers. This
//! is the only module with unsafe code, and the only place where a Rust package declares the C
//! interface: the comparisons of the repository call it too. It is no part of what this crate
//! promises to a host.

/// The state block: the 14 bytes of a head that are the state itself.
pub type Block = [u8; 14];

mod extern_c {
    extern "C" {
        pub fn trnadulek_step(
            state: *mut u8,
            memory: *mut u8,
            memory_len: usize,
            cycles: *mut u8,
        ) -> u8;
        pub fn trnadulek_run(
            state: *mut u8,
            memory: *mut u8,
            memory_len: usize,
            budget: u32,
            spent: *mut u32,
            steps: *mut u32,
        ) -> u8;
        pub fn trnadulek_run_image(
            image: *mut u8,
            image_len: usize,
            budget: u32,
            spent: *mut u32,
            steps: *mut u32,
        ) -> u8;
        pub fn trnadulek_load_head(head: *const u8, head_len: usize, state: *mut u8) -> u8;
        pub fn trnadulek_save_head(state: *const u8, head: *mut u8, head_len: usize) -> u8;
        pub fn trnadulek_open_image(image: *const u8, image_len: usize, state: *mut u8) -> u8;
        pub fn trnadulek_save_image(
            state: *const u8,
            memory: *const u8,
            memory_len: usize,
            image: *mut u8,
            image_len: usize,
        ) -> u8;
        pub fn trnadulek_length(row: u32) -> u8;
        pub fn trnadulek_untaken_cycles(row: u32) -> u8;
        pub fn trnadulek_list(
            part: *const u8,
            part_len: usize,
            first: u16,
            edition: u32,
            out: *mut u8,
            out_len: usize,
            length: *mut usize,
        ) -> u8;
        pub fn trnadulek_assemble(
            text: *const u8,
            text_len: usize,
            first: u16,
            out: *mut u8,
            out_len: usize,
            line: *mut usize,
            length: *mut usize,
        ) -> u8;
        pub fn trnadulek_size(which: u32) -> u32;
        pub fn trnadulek_version() -> u32;
        pub fn trnadulek_words(code: u8, out: *mut u8, out_len: usize) -> usize;
    }
}

// SAFETY of every call below: a pointer comes with the length of the slice that it is taken from,
// or leads to a block or a number of its own; slices that are lent to be written overlap nothing,
// as references never do; and the library keeps no pointer, writes nowhere else and has no state,
// so that calls in several threads do not meet.

pub fn step(state: &mut Block, memory: &mut [u8], cycles: &mut u8) -> u8 {
    let (bytes, length) = (memory.as_mut_ptr(), memory.len());
    unsafe { extern_c::trnadulek_step(state.as_mut_ptr(), bytes, length, cycles) }
}

pub fn run(
    state: &mut Block,
    memory: &mut [u8],
    budget: u32,
    spent: &mut u32,
    steps: &mut u32,
) -> u8 {
    let (bytes, length) = (memory.as_mut_ptr(), memory.len());
    unsafe { extern_c::trnadulek_run(state.as_mut_ptr(), bytes, length, budget, spent, steps) }
}

pub fn run_image(image: &mut [u8], budget: u32, spent: &mut u32, steps: &mut u32) -> u8 {
    let (bytes, length) = (image.as_mut_ptr(), image.len());
    unsafe { extern_c::trnadulek_run_image(bytes, length, budget, spent, steps) }
}

pub fn load_head(head: &[u8], state: &mut Block) -> u8 {
    unsafe { extern_c::trnadulek_load_head(head.as_ptr(), head.len(), state.as_mut_ptr()) }
}

pub fn save_head(state: &Block, head: &mut [u8]) -> u8 {
    unsafe { extern_c::trnadulek_save_head(state.as_ptr(), head.as_mut_ptr(), head.len()) }
}

pub fn open_image(image: &[u8], state: &mut Block) -> u8 {
    unsafe { extern_c::trnadulek_open_image(image.as_ptr(), image.len(), state.as_mut_ptr()) }
}

pub fn save_image(state: &Block, memory: &[u8], image: &mut [u8]) -> u8 {
    unsafe {
        extern_c::trnadulek_save_image(
            state.as_ptr(),
            memory.as_ptr(),
            memory.len(),
            image.as_mut_ptr(),
            image.len(),
        )
    }
}

pub fn length(row: u32) -> u8 {
    unsafe { extern_c::trnadulek_length(row) }
}

pub fn untaken_cycles(row: u32) -> u8 {
    unsafe { extern_c::trnadulek_untaken_cycles(row) }
}

pub fn list(part: &[u8], first: u16, edition: u32, out: &mut [u8], length: &mut usize) -> u8 {
    unsafe {
        extern_c::trnadulek_list(
            part.as_ptr(),
            part.len(),
            first,
            edition,
            out.as_mut_ptr(),
            out.len(),
            length,
        )
    }
}

pub fn assemble(
    text: &[u8],
    first: u16,
    out: &mut [u8],
    line: &mut usize,
    length: &mut usize,
) -> u8 {
    unsafe {
        extern_c::trnadulek_assemble(
            text.as_ptr(),
            text.len(),
            first,
            out.as_mut_ptr(),
            out.len(),
            line,
            length,
        )
    }
}

pub fn size(which: u32) -> u32 {
    unsafe { extern_c::trnadulek_size(which) }
}

pub fn version() -> u32 {
    unsafe { extern_c::trnadulek_version() }
}

pub fn words(code: u8, out: &mut [u8]) -> usize {
    unsafe { extern_c::trnadulek_words(code, out.as_mut_ptr(), out.len()) }
}
