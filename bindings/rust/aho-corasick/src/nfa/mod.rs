//! The NFAs, which are smaller than a DFA, are built sooner and search more slowly.

pub mod contiguous;
pub mod noncontiguous;
