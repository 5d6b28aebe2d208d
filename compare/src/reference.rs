//! The operations of document 01, and of what has landed of document 02, in
//! ordinary Rust.
//!
//! Each function refuses what the paper refuses, in the paper's order, and
//! changes nothing that was lent to it when it refuses.

mod arc;
mod closures;
mod convert;
mod host;
mod labels;
pub mod limits;
mod load;
mod network;
mod passes;
mod programs;
mod refusal;
mod route;
mod sheet;
mod tables_check;
mod week;

pub use arc::{Arrival, arc_arrival};
pub use closures::Closure;
pub use convert::{to_new, to_old};
pub use host::host_question;
pub use labels::labels;
pub use load::{Counts, Form, load, name};
pub use network::{Network, network_check};
pub use passes::passes;
pub use programs::{arrivals_text, sheet_text, to_new_text, to_old_text};
pub use refusal::{LoadRefusal, Refusal};
pub use route::route;
pub use sheet::sheet;
pub use tables_check::{certificate_check, tables_check};
pub use week::{Lists, Versions, week_change, week_new, week_plan};
