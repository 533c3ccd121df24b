//! The second implementation's reader, runtime and C functions, compiled a second time with coverage. The rest of it, which
//! makes cases, is not measured.

#[path = "../../second/src/coordinator.rs"]
pub mod coordinator;
#[path = "../../second/src/list.rs"]
pub mod list;
#[path = "../../second/src/run.rs"]
pub mod run;
