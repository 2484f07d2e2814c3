//! The archive's queries as include/borzhanu.h declares them, to be told any columns on buffers of any length. The
//! wrapper's meshes have fit lengths and tell their own columns. And siblings, whose two numbers the wrapper drops, shape,
//! where it makes one number of the two, and the reading of texts and edits, where it drops the places of refusals that have
//! none.

use crate::reference::Refused;

macro_rules! queries {
    ($($name:ident($($argument:ident: $kind:ty),*);)*) => {
        extern "C" {
            $(
                pub fn $name(
                    n: u32,
                    columns: u32,
                    elements: *const u32,
                    elements_len: usize,
                    v2e: *const u32,
                    v2e_len: usize,
                    e2e: *const u32,
                    e2e_len: usize,
                    b2e: *const u32,
                    b2e_len: usize,
                    $($argument: $kind),*
                ) -> u64;
            )*
        }
    };
}

queries! {
    borzhanu_opposite(code: u32);
    borzhanu_next(code: u32);
    borzhanu_previous(code: u32);
    borzhanu_element(code: u32);
    borzhanu_origin(code: u32);
    borzhanu_destination(code: u32);
    borzhanu_across(code: u32);
    borzhanu_halfedge_is_border(code: u32);
    borzhanu_vertex_is_border(v: u32);
    borzhanu_ring(v: u32, out: *mut u32, out_len: usize);
    borzhanu_neighbours(v: u32, out: *mut u32, out_len: usize);
    borzhanu_border_loop(b: u32, out: *mut u32, out_len: usize);
    borzhanu_holes(
        hole: *mut u32,
        hole_len: usize,
        lengths: *mut u32,
        lengths_len: usize,
        work: *mut u32,
        work_len: usize
    );
    borzhanu_walker_start(v: u32, walker: *mut u32);
    borzhanu_walker_step(walker: *mut u32);
}

extern "C" {
    pub fn borzhanu_siblings(
        n: u32,
        elements: *const u32,
        elements_len: usize,
        v2e: *mut u32,
        v2e_len: usize,
        siblings: *mut u32,
        siblings_len: usize,
        work: *mut u32,
        work_len: usize,
    ) -> u64;

    pub fn borzhanu_shape(n: u32, elements: *const u32, elements_len: usize, work: *mut u32, work_len: usize) -> u64;

    pub fn borzhanu_read_off(text: *const u8, text_len: usize, elements: *mut u32, elements_len: usize) -> u64;

    pub fn borzhanu_swap(
        size: *mut u32,
        elements: *mut u32,
        elements_len: usize,
        v2e: *mut u32,
        v2e_len: usize,
        e2e: *mut u32,
        e2e_len: usize,
        b2e: *mut u32,
        b2e_len: usize,
        work: *mut u32,
        work_len: usize,
        code: u32,
    ) -> u64;
}

/// An edit that is lent the points too.
pub type WithPoints = unsafe extern "C" fn(
    size: *mut u32,
    elements: *mut u32,
    elements_len: usize,
    v2e: *mut u32,
    v2e_len: usize,
    e2e: *mut u32,
    e2e_len: usize,
    b2e: *mut u32,
    b2e_len: usize,
    points: *mut f64,
    points_len: usize,
    work: *mut u32,
    work_len: usize,
    code: u32,
) -> u64;

macro_rules! with_points {
    ($($name:ident),*) => {
        extern "C" {
            $(
                pub fn $name(
                    size: *mut u32,
                    elements: *mut u32,
                    elements_len: usize,
                    v2e: *mut u32,
                    v2e_len: usize,
                    e2e: *mut u32,
                    e2e_len: usize,
                    b2e: *mut u32,
                    b2e_len: usize,
                    points: *mut f64,
                    points_len: usize,
                    work: *mut u32,
                    work_len: usize,
                    code: u32,
                ) -> u64;
            )*
        }
    };
}

with_points!(borzhanu_split, borzhanu_contract);

/// Calls a query on a [`View`](crate::reference::View) and further arguments.
#[macro_export]
macro_rules! told {
    ($name:ident, $view:expr $(, $argument:expr)*) => {
        // SAFETY: each pointer has its slice's own length, and the kernel stays within these.
        unsafe {
            $crate::raw::$name(
                $view.n,
                $view.told,
                $view.elements.as_ptr(),
                $view.elements.len(),
                $view.v2e.as_ptr(),
                $view.v2e.len(),
                $view.e2e.as_ptr(),
                $view.e2e.len(),
                $view.b2e.as_ptr(),
                $view.b2e.len()
                $(, $argument)*
            )
        }
    };
}

/// The two numbers of an answer, or a refusal and its place, out of what a call returned.
pub fn taken_apart(returned: u64) -> Result<(u32, u32), Refused> {
    let first = (returned >> 28) as u32 & 0xFFF_FFFF;
    let second = returned as u32 & 0xFFF_FFFF;
    match (returned >> 56) as u32 {
        0 => Ok((first, second)),
        number => Err((number, first, second)),
    }
}
