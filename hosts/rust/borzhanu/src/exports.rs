//! The archive's functions, as include/borzhanu.h declares them. A slice is a pointer and a length.

use crate::{Size, WalkerRecord};

macro_rules! queries {
    ($($name:ident($($argument:ident: $kind:ty),*);)*) => {
        extern "C" {
            $(
                pub fn $name(
                    n: u32,
                    columns: u32,
                    elements: *const u32,
                    elements_len: usize,
                    v2e: *const u32,
                    v2e_len: usize,
                    e2e: *const u32,
                    e2e_len: usize,
                    b2e: *const u32,
                    b2e_len: usize,
                    $($argument: $kind),*
                ) -> u64;
            )*
        }
    };
}

queries! {
    borzhanu_opposite(code: u32);
    borzhanu_next(code: u32);
    borzhanu_previous(code: u32);
    borzhanu_element(code: u32);
    borzhanu_origin(code: u32);
    borzhanu_destination(code: u32);
    borzhanu_across(code: u32);
    borzhanu_halfedge_is_border(code: u32);
    borzhanu_vertex_is_border(v: u32);
    borzhanu_ring(v: u32, out: *mut u32, out_len: usize);
    borzhanu_neighbours(v: u32, out: *mut u32, out_len: usize);
    borzhanu_border_loop(b: u32, out: *mut u32, out_len: usize);
    borzhanu_holes(
        hole: *mut u32,
        hole_len: usize,
        lengths: *mut u32,
        lengths_len: usize,
        work: *mut u32,
        work_len: usize
    );
    borzhanu_walker_start(v: u32, walker: *mut WalkerRecord);
    borzhanu_walker_step(walker: *mut WalkerRecord);
}

extern "C" {
    pub fn borzhanu_build(
        n: u32,
        elements: *const u32,
        elements_len: usize,
        v2e: *mut u32,
        v2e_len: usize,
        e2e: *mut u32,
        e2e_len: usize,
        b2e: *mut u32,
        b2e_len: usize,
        work: *mut u32,
        work_len: usize,
    ) -> u64;

    pub fn borzhanu_columns(n: u32, elements: *const u32, elements_len: usize) -> u64;

    pub fn borzhanu_recover(
        n: u32,
        m: u32,
        v2e: *const u32,
        v2e_len: usize,
        e2e: *const u32,
        e2e_len: usize,
        elements: *mut u32,
        elements_len: usize,
        work: *mut u32,
        work_len: usize,
    ) -> u64;

    pub fn borzhanu_siblings(
        n: u32,
        elements: *const u32,
        elements_len: usize,
        v2e: *mut u32,
        v2e_len: usize,
        siblings: *mut u32,
        siblings_len: usize,
        work: *mut u32,
        work_len: usize,
    ) -> u64;

    pub fn borzhanu_shape(n: u32, elements: *const u32, elements_len: usize, work: *mut u32, work_len: usize) -> u64;

    pub fn borzhanu_read_off(text: *const u8, text_len: usize, elements: *mut u32, elements_len: usize) -> u64;

    pub fn borzhanu_swap(
        size: *mut Size,
        elements: *mut u32,
        elements_len: usize,
        v2e: *mut u32,
        v2e_len: usize,
        e2e: *mut u32,
        e2e_len: usize,
        b2e: *mut u32,
        b2e_len: usize,
        work: *mut u32,
        work_len: usize,
        code: u32,
    ) -> u64;

    pub fn borzhanu_split(
        size: *mut Size,
        elements: *mut u32,
        elements_len: usize,
        v2e: *mut u32,
        v2e_len: usize,
        e2e: *mut u32,
        e2e_len: usize,
        b2e: *mut u32,
        b2e_len: usize,
        points: *mut f64,
        points_len: usize,
        work: *mut u32,
        work_len: usize,
        code: u32,
    ) -> u64;

    pub fn borzhanu_contract(
        size: *mut Size,
        elements: *mut u32,
        elements_len: usize,
        v2e: *mut u32,
        v2e_len: usize,
        e2e: *mut u32,
        e2e_len: usize,
        b2e: *mut u32,
        b2e_len: usize,
        points: *mut f64,
        points_len: usize,
        work: *mut u32,
        work_len: usize,
        code: u32,
    ) -> u64;
}
