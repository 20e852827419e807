//! The C functions as they are, the same list as in `drevaloci.h`. What a caller owes stands there.

#![allow(clippy::too_many_arguments)]

extern "C" {
    pub fn drevaloci_run(
        dossier: *const u8,
        dossier_len: usize,
        nodes: *mut u32,
        nodes_len: usize,
        hashes: *mut u8,
        hashes_len: usize,
        cells: *mut u8,
        cells_len: usize,
        frames: *mut u32,
        frames_len: usize,
        answer: *mut u8,
        answer_len: usize,
        place: *mut u32,
    ) -> u32;

    pub fn drevaloci_decode(
        program: *const u8,
        program_len: usize,
        nodes: *mut u32,
        nodes_len: usize,
        hashes: *mut u8,
        hashes_len: usize,
        place: *mut u32,
        hash_bytes: *mut u32,
    ) -> u32;

    pub fn drevaloci_walk(
        program: *const u8,
        program_len: usize,
        hashes: *const u8,
        hashes_len: usize,
        nodes: *const u32,
        nodes_len: usize,
        place: *mut u32,
    ) -> u32;

    pub fn drevaloci_arrows(
        types: *const u8,
        types_len: usize,
        nodes: *const u32,
        nodes_len: usize,
        arrows: *const u8,
        arrows_len: usize,
        program: *const u8,
        program_len: usize,
        hashes: *const u8,
        hashes_len: usize,
        place: *mut u32,
    ) -> u32;

    pub fn drevaloci_hashes(
        types: *const u8,
        types_len: usize,
        nodes: *const u32,
        nodes_len: usize,
        arrows: *const u8,
        arrows_len: usize,
        program: *const u8,
        program_len: usize,
        hashes: *const u8,
        hashes_len: usize,
        given: *const u8,
        given_len: usize,
        place: *mut u32,
    ) -> u32;

    pub fn drevaloci_bounds(
        types: *const u8,
        types_len: usize,
        nodes: *const u32,
        nodes_len: usize,
        arrows: *const u8,
        arrows_len: usize,
        program: *const u8,
        program_len: usize,
        hashes: *const u8,
        hashes_len: usize,
        cells: *mut u32,
        frames: *mut u32,
        cost: *mut u32,
    ) -> u32;

    pub fn drevaloci_run_tables(
        types: *const u8,
        types_len: usize,
        nodes: *const u32,
        nodes_len: usize,
        arrows: *const u8,
        arrows_len: usize,
        program: *const u8,
        program_len: usize,
        hashes: *const u8,
        hashes_len: usize,
        given: *const u8,
        given_len: usize,
        witness: *const u8,
        witness_len: usize,
        witness_bits: u32,
        input: *const u8,
        input_len: usize,
        input_bits: u32,
        cells: *mut u8,
        cells_len: usize,
        frames: *mut u32,
        frames_len: usize,
        answer: *mut u8,
        answer_len: usize,
        place: *mut u32,
    ) -> u32;

    pub fn drevaloci_natural(
        bytes: *const u8,
        bytes_len: usize,
        at: usize,
        bound: u32,
        value: *mut u32,
        next: *mut usize,
    ) -> u32;
}
