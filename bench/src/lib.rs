//! What every contender shares: the workload with its model, and the measuring.
pub mod measure;
pub mod workload;
