// Added by the harness: everything above is the Rust's file. Its private functions, for the requests.
pub mod access {
    use super::{Arc, Expr};

    pub fn candidates(node: &Expr, width: u32) -> Vec<Arc<Expr>> {
        super::try_match_all(node, width)
    }

    /// The single matchers in the order of `try_match_all`, each candidate with its tag.
    pub fn tagged(node: &Expr, width: u32) -> Vec<(u64, Arc<Expr>)> {
        let mut out = Vec::new();
        out.extend(super::match_xor_and_absorb(node).map(|c| (1, c)));
        out.extend(super::match_xor_via_or_minus_and(node).map(|c| (2, c)));
        out.extend(super::match_and_via_not_or_minus_not(node).map(|c| (3, c)));
        let addends = super::flatten_addends(node);
        out.extend(super::match_and_via_not_or_plus_a_plus_one(&addends, width).map(|c| (4, c)));
        out.extend(super::match_xor_via_ornot_flat(&addends, width).map(|c| (5, c)));
        let mut lax = Vec::new();
        super::match_and_via_ornot_lax(node, &addends, &mut lax);
        out.extend(lax.drain(..).map(|c| (6, c)));
        super::match_xor_via_ornot_lax(node, &addends, &mut lax);
        out.extend(lax.drain(..).map(|c| (7, c)));
        out
    }
}
