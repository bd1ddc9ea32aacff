// Added by the harness: everything above is the Rust's file. Its private functions, for the requests.
pub mod access {
    use super::{Arc, Expr};

    pub fn local(node: &Expr, width: u32) -> Option<Arc<Expr>> {
        super::local_certifiable_atom_rewrite(node, width)
    }

    pub fn first_site(root: &Expr, width: u32) -> Option<(Vec<u8>, Arc<Expr>)> {
        let (path, after) = super::find_first_certifiable_atom_rewrite(root, width)?;
        Some((path.0, after))
    }
}
