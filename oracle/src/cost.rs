//! The cost calls, answered by the Rust's expr_cost.rs.
use crate::core::expr_cost::{self, ExprCost};
use crate::fields::{hex, narrow};
use crate::{refusal, words};

/// Weight, nonlinear products, depth, and 1 where the tree has a variable.
pub fn compute_cost(words: &[u64]) -> String {
    match words::read(words) {
        Ok(tree) => {
            let info = expr_cost::compute_cost(&tree);
            let ExprCost {
                weighted_size,
                nonlinear_mul_count,
                max_depth,
            } = info.cost;
            format!(
                "{weighted_size:x} {nonlinear_mul_count:x} {max_depth:x} {:x}",
                u32::from(info.has_var_dep)
            )
        }
        Err(r) => refusal::text(r),
    }
}

pub fn is_better(candidate: &[u64], baseline: &[u64]) -> Result<String, String> {
    Ok(hex(expr_cost::is_better(
        &cost(candidate)?,
        &cost(baseline)?,
    )
    .into()))
}

fn cost(numbers: &[u64]) -> Result<ExprCost, String> {
    let &[weight, nonlinear, depth] = numbers else {
        return Err(format!("a cost of {} numbers", numbers.len()));
    };
    Ok(ExprCost {
        weighted_size: narrow(weight)?,
        nonlinear_mul_count: narrow(nonlinear)?,
        max_depth: narrow(depth)?,
    })
}
