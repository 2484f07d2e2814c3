//! What the two programs share: the kernel's rules once more, lists and texts to try them on, memory between pages that
//! fault when touched, and the archive's calls without the wrapper.

pub mod guarded;
pub mod meshes;
pub mod raw;
pub mod reference;
pub mod texts;
