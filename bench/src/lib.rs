//! What the timing is made of besides the two desks: loads, what calls leave of them, and figures. It links no archive of the timing's own,
//! so that its tests can be run wherever the desk's archive is.
pub mod figures;
pub mod kept;
pub mod load;
pub mod requests;
pub mod runs;
pub mod side;
mod standing;
pub mod tables;
pub mod texts;
