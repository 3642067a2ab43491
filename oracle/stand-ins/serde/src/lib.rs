//! Stand-in for the crate `serde`: the two derives, which derive nothing.
pub use serde_derive::{Deserialize, Serialize};
