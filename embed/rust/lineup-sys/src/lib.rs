//! The functions of lineup.h.
#![no_std]

unsafe extern "C" {
    pub fn lineup_answer(
        words: *const u8, words_length: usize,
        bundle: *const u8, bundle_length: usize, stack: usize,
        text: *mut u8, room: usize, length: *mut usize,
    ) -> u8;

    pub fn lineup_state(
        component: *const u8, component_length: usize,
        matrix: *const u8, matrix_length: usize,
        schedule: *const u8, schedule_length: usize,
        moves: usize, numbers: *mut u32, room: usize, count: *mut usize,
    ) -> u8;
}

pub const MOST_NUMBERS: usize = 6 + 8 * 12 + 16 * 64 + 8 + 32 * 4;

/// How many bytes of stack a command takes at most by its bounds.
pub const fn stack(bound: usize, serial: usize) -> usize {
    let (searched, alone) = (2_048 * bound, 8_192 * (serial + 1));
    131_072 + if searched > alone { searched } else { alone }
}

/// What suffices for every command.
pub const MOST_STACK: usize = stack(256, 256);
