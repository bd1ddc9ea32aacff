//! Stands in for `ir::semilinear`: the fields that `simplify_structure` names. No request calls it.
use crate::core::expr::Expr;
use std::sync::Arc;

pub type AtomId = u32;
pub type GlobalVarIdx = u32;

#[derive(Clone, Copy)]
pub struct WeightedAtom {
    pub coeff: u64,
    pub atom_id: AtomId,
}

pub struct AtomKey {
    pub support: Vec<GlobalVarIdx>,
    pub truth_table: Vec<u64>,
}

pub struct AtomInfo {
    pub key: AtomKey,
    pub original_subtree: Arc<Expr>,
}

pub struct SemilinearIR {
    pub bitwidth: u32,
    pub constant: u64,
    pub terms: Vec<WeightedAtom>,
    pub atom_table: Vec<AtomInfo>,
}
