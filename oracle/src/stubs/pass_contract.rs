//! Stands in for `core::pass_contract`, which only `run_atom_identity_rewrite` names. No request calls it.
#[derive(Default)]
pub struct ReasonDetail;
