//! Stands in for `core::evaluator`, which only the functions that try candidates on samples name. No request calls them.
use crate::core::expr::Expr;

pub struct Evaluator;

impl Evaluator {
    pub fn from_expr(_: &Expr, _: u32) -> Self {
        unreachable!("not part of the harness")
    }

    pub fn input_arity(&self) -> u32 {
        unreachable!("not part of the harness")
    }
}
