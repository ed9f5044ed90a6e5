//! The only unsafe code: a Rust slice is handed over as its pointer and its length, which is all that the calls ask for.
use crate::State;

mod library {
    extern "C" {
        pub fn pg_decode(word: u64, fields: *mut u32, fields_len: usize) -> u32;
        pub fn pg_encode(opcode: u8, a: u8, b: u8, c: u8, w: u32) -> u64;
        pub fn pg_step(
            technique: u8,
            state: *mut u64,
            state_len: usize,
            memory: *mut u64,
            memory_len: usize,
            n: usize,
        ) -> u32;
        pub fn pg_run(
            technique: u8,
            state: *mut u64,
            state_len: usize,
            memory: *mut u64,
            memory_len: usize,
            n: usize,
            limit: u16,
            count: *mut u64,
            count_len: usize,
        ) -> u32;
        pub fn pg_write_data(memory: *mut u64, memory_len: usize, n: usize, address: u64, word: u64) -> u32;
        pub fn pg_write_register(state: *mut u64, state_len: usize, register: u64, word: u64) -> u32;
        pub fn pg_check(
            technique: u8,
            memory: *const u64,
            memory_len: usize,
            n: usize,
            edges: *const u16,
            edges_len: usize,
            place: *mut u64,
            place_len: usize,
        ) -> u32;
        pub fn pg_read_parcel(
            parcel: *const u8,
            parcel_len: usize,
            memory: *mut u64,
            memory_len: usize,
            edges: *mut u16,
            edges_len: usize,
            counts: *mut u64,
            counts_len: usize,
        ) -> u32;
        pub fn pg_write_parcel(
            memory: *const u64,
            memory_len: usize,
            n: usize,
            edges: *const u16,
            edges_len: usize,
            parcel: *mut u8,
            parcel_len: usize,
            count: *mut u64,
            count_len: usize,
        ) -> u32;
        pub fn pg_write_parcel_placed(
            memory: *const u64,
            memory_len: usize,
            n: usize,
            edges: *const u16,
            edges_len: usize,
            parcel: *mut u8,
            parcel_len: usize,
            count: *mut u64,
            count_len: usize,
            place: *mut u64,
            place_len: usize,
        ) -> u32;
        pub fn pg_check_wide(
            technique: u8,
            memory: *const u64,
            memory_len: usize,
            n: usize,
            edges: *const u32,
            edges_len: usize,
            place: *mut u64,
            place_len: usize,
        ) -> u32;
        pub fn pg_read_wide_parcel(
            parcel: *const u8,
            parcel_len: usize,
            memory: *mut u64,
            memory_len: usize,
            edges: *mut u32,
            edges_len: usize,
            counts: *mut u64,
            counts_len: usize,
        ) -> u32;
        pub fn pg_write_wide_parcel(
            memory: *const u64,
            memory_len: usize,
            n: usize,
            edges: *const u32,
            edges_len: usize,
            parcel: *mut u8,
            parcel_len: usize,
            count: *mut u64,
            count_len: usize,
            place: *mut u64,
            place_len: usize,
        ) -> u32;
        pub fn pg_widen(
            parcel: *const u8,
            parcel_len: usize,
            wide: *mut u8,
            wide_len: usize,
            count: *mut u64,
            count_len: usize,
            place: *mut u64,
            place_len: usize,
        ) -> u32;
        pub fn pg_narrow(
            wide: *const u8,
            wide_len: usize,
            parcel: *mut u8,
            parcel_len: usize,
            count: *mut u64,
            count_len: usize,
            place: *mut u64,
            place_len: usize,
        ) -> u32;
        pub fn pg_rewrite(
            memory: *const u64,
            memory_len: usize,
            n: usize,
            edges: *const u16,
            edges_len: usize,
            code: *mut u64,
            code_len: usize,
            new_edges: *mut u16,
            new_edges_len: usize,
            map: *mut u16,
            map_len: usize,
            counts: *mut u64,
            counts_len: usize,
            place: *mut u64,
            place_len: usize,
        ) -> u32;
        pub fn pg_report(
            technique: u8,
            memory: *const u64,
            memory_len: usize,
            n: usize,
            edges: *const u16,
            edges_len: usize,
            figures: *mut u64,
            figures_len: usize,
            place: *mut u64,
            place_len: usize,
        ) -> u32;
        pub fn pg_report_parcel(
            technique: u8,
            parcel: *const u8,
            parcel_len: usize,
            figures: *mut u64,
            figures_len: usize,
            place: *mut u64,
            place_len: usize,
        ) -> u32;
        pub fn pg_add_report(
            technique: u8,
            memory: *const u64,
            memory_len: usize,
            n: usize,
            edges: *const u16,
            edges_len: usize,
            totals: *mut u64,
            totals_len: usize,
            place: *mut u64,
            place_len: usize,
        ) -> u32;
        pub fn pg_add_parcel(
            technique: u8,
            parcel: *const u8,
            parcel_len: usize,
            totals: *mut u64,
            totals_len: usize,
            place: *mut u64,
            place_len: usize,
        ) -> u32;
        pub fn pg_shortest_path(
            technique: u8,
            memory: *const u64,
            memory_len: usize,
            n: usize,
            edges: *const u16,
            edges_len: usize,
            address: u64,
            path: *mut u16,
            path_len: usize,
            count: *mut u64,
            count_len: usize,
            place: *mut u64,
            place_len: usize,
        ) -> u32;
    }
}

/// Each call on slices of any length. Safe for every input: the library's functions have no precondition, and the borrow
/// checker sees to it that the slices do not overlap.
pub mod slices {
    use super::library;

    #[inline]
    pub fn decode(word: u64, fields: &mut [u32]) -> u32 {
        unsafe { library::pg_decode(word, fields.as_mut_ptr(), fields.len()) }
    }

    #[inline]
    pub fn encode(opcode: u8, a: u8, b: u8, c: u8, w: u32) -> u64 {
        unsafe { library::pg_encode(opcode, a, b, c, w) }
    }

    #[inline]
    pub fn step(technique: u8, state: &mut [u64], memory: &mut [u64], n: usize) -> u32 {
        unsafe { library::pg_step(technique, state.as_mut_ptr(), state.len(), memory.as_mut_ptr(), memory.len(), n) }
    }

    #[inline]
    pub fn run(
        technique: u8,
        state: &mut [u64],
        memory: &mut [u64],
        n: usize,
        limit: u16,
        count: &mut [u64],
    ) -> u32 {
        unsafe {
            library::pg_run(
                technique,
                state.as_mut_ptr(),
                state.len(),
                memory.as_mut_ptr(),
                memory.len(),
                n,
                limit,
                count.as_mut_ptr(),
                count.len(),
            )
        }
    }

    #[inline]
    pub fn write_data(memory: &mut [u64], n: usize, address: u64, word: u64) -> u32 {
        unsafe { library::pg_write_data(memory.as_mut_ptr(), memory.len(), n, address, word) }
    }

    #[inline]
    pub fn write_register(state: &mut [u64], register: u64, word: u64) -> u32 {
        unsafe { library::pg_write_register(state.as_mut_ptr(), state.len(), register, word) }
    }

    #[inline]
    pub fn check(technique: u8, memory: &[u64], n: usize, edges: &[u16], place: &mut [u64]) -> u32 {
        unsafe {
            library::pg_check(
                technique,
                memory.as_ptr(),
                memory.len(),
                n,
                edges.as_ptr(),
                edges.len(),
                place.as_mut_ptr(),
                place.len(),
            )
        }
    }

    #[inline]
    pub fn read_parcel(parcel: &[u8], memory: &mut [u64], edges: &mut [u16], counts: &mut [u64]) -> u32 {
        unsafe {
            library::pg_read_parcel(
                parcel.as_ptr(),
                parcel.len(),
                memory.as_mut_ptr(),
                memory.len(),
                edges.as_mut_ptr(),
                edges.len(),
                counts.as_mut_ptr(),
                counts.len(),
            )
        }
    }

    #[inline]
    pub fn write_parcel(memory: &[u64], n: usize, edges: &[u16], parcel: &mut [u8], count: &mut [u64]) -> u32 {
        unsafe {
            library::pg_write_parcel(
                memory.as_ptr(),
                memory.len(),
                n,
                edges.as_ptr(),
                edges.len(),
                parcel.as_mut_ptr(),
                parcel.len(),
                count.as_mut_ptr(),
                count.len(),
            )
        }
    }

    #[inline]
    pub fn write_parcel_placed(
        memory: &[u64],
        n: usize,
        edges: &[u16],
        parcel: &mut [u8],
        count: &mut [u64],
        place: &mut [u64],
    ) -> u32 {
        unsafe {
            library::pg_write_parcel_placed(
                memory.as_ptr(),
                memory.len(),
                n,
                edges.as_ptr(),
                edges.len(),
                parcel.as_mut_ptr(),
                parcel.len(),
                count.as_mut_ptr(),
                count.len(),
                place.as_mut_ptr(),
                place.len(),
            )
        }
    }

    #[inline]
    pub fn check_wide(technique: u8, memory: &[u64], n: usize, edges: &[u32], place: &mut [u64]) -> u32 {
        unsafe {
            library::pg_check_wide(
                technique,
                memory.as_ptr(),
                memory.len(),
                n,
                edges.as_ptr(),
                edges.len(),
                place.as_mut_ptr(),
                place.len(),
            )
        }
    }

    #[inline]
    pub fn read_wide_parcel(parcel: &[u8], memory: &mut [u64], edges: &mut [u32], counts: &mut [u64]) -> u32 {
        unsafe {
            library::pg_read_wide_parcel(
                parcel.as_ptr(),
                parcel.len(),
                memory.as_mut_ptr(),
                memory.len(),
                edges.as_mut_ptr(),
                edges.len(),
                counts.as_mut_ptr(),
                counts.len(),
            )
        }
    }

    #[inline]
    pub fn write_wide_parcel(
        memory: &[u64],
        n: usize,
        edges: &[u32],
        parcel: &mut [u8],
        count: &mut [u64],
        place: &mut [u64],
    ) -> u32 {
        unsafe {
            library::pg_write_wide_parcel(
                memory.as_ptr(),
                memory.len(),
                n,
                edges.as_ptr(),
                edges.len(),
                parcel.as_mut_ptr(),
                parcel.len(),
                count.as_mut_ptr(),
                count.len(),
                place.as_mut_ptr(),
                place.len(),
            )
        }
    }

    #[inline]
    pub fn widen(parcel: &[u8], wide: &mut [u8], count: &mut [u64], place: &mut [u64]) -> u32 {
        unsafe {
            library::pg_widen(
                parcel.as_ptr(),
                parcel.len(),
                wide.as_mut_ptr(),
                wide.len(),
                count.as_mut_ptr(),
                count.len(),
                place.as_mut_ptr(),
                place.len(),
            )
        }
    }

    #[inline]
    pub fn narrow(wide: &[u8], parcel: &mut [u8], count: &mut [u64], place: &mut [u64]) -> u32 {
        unsafe {
            library::pg_narrow(
                wide.as_ptr(),
                wide.len(),
                parcel.as_mut_ptr(),
                parcel.len(),
                count.as_mut_ptr(),
                count.len(),
                place.as_mut_ptr(),
                place.len(),
            )
        }
    }

    #[inline]
    pub fn rewrite(
        memory: &[u64],
        n: usize,
        edges: &[u16],
        code: &mut [u64],
        new_edges: &mut [u16],
        map: &mut [u16],
        counts: &mut [u64],
        place: &mut [u64],
    ) -> u32 {
        unsafe {
            library::pg_rewrite(
                memory.as_ptr(),
                memory.len(),
                n,
                edges.as_ptr(),
                edges.len(),
                code.as_mut_ptr(),
                code.len(),
                new_edges.as_mut_ptr(),
                new_edges.len(),
                map.as_mut_ptr(),
                map.len(),
                counts.as_mut_ptr(),
                counts.len(),
                place.as_mut_ptr(),
                place.len(),
            )
        }
    }

    #[inline]
    pub fn report(
        technique: u8,
        memory: &[u64],
        n: usize,
        edges: &[u16],
        figures: &mut [u64],
        place: &mut [u64],
    ) -> u32 {
        unsafe {
            library::pg_report(
                technique,
                memory.as_ptr(),
                memory.len(),
                n,
                edges.as_ptr(),
                edges.len(),
                figures.as_mut_ptr(),
                figures.len(),
                place.as_mut_ptr(),
                place.len(),
            )
        }
    }

    #[inline]
    pub fn report_parcel(technique: u8, parcel: &[u8], figures: &mut [u64], place: &mut [u64]) -> u32 {
        unsafe {
            library::pg_report_parcel(
                technique,
                parcel.as_ptr(),
                parcel.len(),
                figures.as_mut_ptr(),
                figures.len(),
                place.as_mut_ptr(),
                place.len(),
            )
        }
    }

    #[inline]
    pub fn add_report(
        technique: u8,
        memory: &[u64],
        n: usize,
        edges: &[u16],
        totals: &mut [u64],
        place: &mut [u64],
    ) -> u32 {
        unsafe {
            library::pg_add_report(
                technique,
                memory.as_ptr(),
                memory.len(),
                n,
                edges.as_ptr(),
                edges.len(),
                totals.as_mut_ptr(),
                totals.len(),
                place.as_mut_ptr(),
                place.len(),
            )
        }
    }

    #[inline]
    pub fn add_parcel(technique: u8, parcel: &[u8], totals: &mut [u64], place: &mut [u64]) -> u32 {
        unsafe {
            library::pg_add_parcel(
                technique,
                parcel.as_ptr(),
                parcel.len(),
                totals.as_mut_ptr(),
                totals.len(),
                place.as_mut_ptr(),
                place.len(),
            )
        }
    }

    #[inline]
    pub fn shortest_path(
        technique: u8,
        memory: &[u64],
        n: usize,
        edges: &[u16],
        address: u64,
        path: &mut [u16],
        count: &mut [u64],
        place: &mut [u64],
    ) -> u32 {
        unsafe {
            library::pg_shortest_path(
                technique,
                memory.as_ptr(),
                memory.len(),
                n,
                edges.as_ptr(),
                edges.len(),
                address,
                path.as_mut_ptr(),
                path.len(),
                count.as_mut_ptr(),
                count.len(),
                place.as_mut_ptr(),
                place.len(),
            )
        }
    }
}

pub use slices::{
    add_parcel, add_report, check, check_wide, decode, encode, narrow, read_parcel, read_wide_parcel, report, report_parcel, rewrite,
    shortest_path, widen, write_data, write_parcel, write_parcel_placed, write_wide_parcel,
};

/// 32 registers, the pc, the depth, and 128 places of the stack.
const STATE_WORDS: usize = 32 + 1 + 1 + 128;

const _: () = assert!(std::mem::size_of::<State>() == STATE_WORDS * 8);

/// A state as its words. `State` is `repr(C)`: they stand in this sequence, with nothing between.
#[inline]
fn words(state: &mut State) -> &mut [u64] {
    unsafe { std::slice::from_raw_parts_mut(state as *mut State as *mut u64, STATE_WORDS) }
}

#[inline]
pub fn step(technique: u8, state: &mut State, memory: &mut [u64], n: usize) -> u32 {
    slices::step(technique, words(state), memory, n)
}

#[inline]
pub fn run(technique: u8, state: &mut State, memory: &mut [u64], n: usize, limit: u16, count: &mut [u64]) -> u32 {
    slices::run(technique, words(state), memory, n, limit, count)
}

#[inline]
pub fn write_register(state: &mut State, register: u64, word: u64) -> u32 {
    slices::write_register(words(state), register, word)
}
