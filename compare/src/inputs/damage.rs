//! Damage that makes a network, a list of closures, an asker, a town file, a week list or a
//! store of them most likely refused.

mod closures;
mod networks;
mod texts;
mod weeks;

pub use closures::{damage_closures, unknown_asker};
pub use networks::{damage_fences, damage_holds, damage_network, replace_one};
pub use texts::damage_text;
pub use weeks::{damage_store, damage_week_list};
