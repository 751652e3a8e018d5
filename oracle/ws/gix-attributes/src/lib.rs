//! Stand-in: only a type named by lib.rs.
pub mod search {
    #[derive(Clone, Default)]
    pub struct Outcome;
}
