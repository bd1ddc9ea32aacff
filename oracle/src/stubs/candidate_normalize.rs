//! Stands in for `passes::candidate_normalize`, which only `simplify_atom_certified` and `rewrite_at_site` name. No request calls them.
use crate::orchestrator::LeanCertificate;

pub fn merge_certificate(
    _: Option<LeanCertificate>,
    _: LeanCertificate,
) -> Option<LeanCertificate> {
    unreachable!("not part of the harness")
}
