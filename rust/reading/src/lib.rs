//! An independent reading of the paper "The onboard command path, rule by rule"
//! (01-scope.md), and of the packet builder of the paper "Further changes requested
//! by customers" (02-change-requests.md, wish 2). Each rule is quoted above the code
//! that reads it; where a paper is silent or double, POINTS.md says what was chosen.
#![forbid(unsafe_code)]

mod build;
mod judge;
mod load;
mod session;
mod state;
mod step;

pub use build::{build, fields, in_form, Fields};
pub use judge::{arguments, judge, Judged};
pub use load::{load, Loaded};
pub use session::session;
pub use state::{keeps_rules, Config, Run};
pub use state::{A, D, F, I, P, R, U};
pub use state::{MAX_ARGUMENTS, MAX_PROTECTED, MAX_ROUTES, MAX_ROWS};
pub use step::{step_fault, step_packet, step_tick, Answer};
