//! Stands in for `orchestrator`. The harness reads the path of a site. `match_and_via_ornot_lax` puts hashes into a set that nothing reads, so
//! each is 0. All else is named by functions that no request calls: certificates, and the pass around the matchers.
use crate::core::expr::Expr;
use crate::core::pass_contract::ReasonDetail;
use std::sync::Arc;

#[derive(Clone)]
pub struct ExprPath(pub Vec<u8>);

pub const fn expr_identity_hash(_: &Expr) -> u64 {
    0
}

pub fn replace_by_hash(_: Arc<Expr>, _: u64, _: &mut Option<Arc<Expr>>) -> (Arc<Expr>, bool) {
    unreachable!("not part of the harness")
}

#[derive(Clone)]
pub struct LeanCertificate {
    pub simplified: Arc<Expr>,
}

impl LeanCertificate {
    pub fn new(_: u32, _: Arc<Expr>, _: Arc<Expr>) -> Self {
        unreachable!("not part of the harness")
    }

    pub fn try_single_rewrite_64(_: u32, _: Arc<Expr>, _: ExprPath, _: Arc<Expr>) -> Option<Self> {
        unreachable!("not part of the harness")
    }
}

#[derive(Clone, Copy)]
pub struct Classification;

#[derive(Clone, Copy)]
pub enum Provenance {
    Rewritten,
}

#[derive(Clone, Copy)]
pub enum PassId {
    AtomIdentityRewrite,
}

pub struct AstPayload {
    pub expr: Arc<Expr>,
    pub classification: Option<Classification>,
    pub provenance: Provenance,
    pub solve_ctx: Option<()>,
}

pub enum StateData {
    FoldedAst(Box<AstPayload>),
    Other,
}

#[derive(Clone)]
pub struct Features {
    pub classification: Option<Classification>,
    pub provenance: Provenance,
}

#[derive(Clone)]
pub struct Metadata {
    pub lean_certificate: Option<LeanCertificate>,
    pub lean_signature_certificate: Option<()>,
}

pub struct WorkItem {
    pub payload: StateData,
    pub features: Features,
    pub metadata: Metadata,
    pub depth: u32,
    pub rewrite_gen: u32,
    pub attempted_mask: u64,
    pub group_id: Option<u32>,
    pub history: Vec<PassId>,
}

impl WorkItem {
    pub fn new(_: StateData) -> Self {
        unreachable!("not part of the harness")
    }
}

pub struct OrchestratorContext {
    pub bitwidth: u32,
}

pub enum PassDecision {
    NotApplicable,
    NoProgress,
    Advance,
}

pub enum ItemDisposition {
    RetainCurrent,
    ConsumeCurrent,
}

pub struct PassResult {
    pub decision: PassDecision,
    pub disposition: ItemDisposition,
    pub next: Vec<WorkItem>,
    pub reason: ReasonDetail,
}
