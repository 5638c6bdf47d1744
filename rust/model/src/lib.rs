//! An independent model of document 01, for comparing with the proved register.
//! In order of modules: `living`, a register that began fresh, as nodes with vectors of dated links; `content`, one call
//! on any content of tables, counters and records; `listing`; `random`, numbers from a seed.
//! Written from document 01 and docs/DECISIONS.md alone, in another style than the register: structs, enums, vectors,
//! maps and early returns, no tables of words but where they are compared.

pub mod content;
pub mod listing;
pub mod living;
pub mod random;
