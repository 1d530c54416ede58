//! The check of whole tables: rungs 2 and 3.

pub mod secure;
mod well_formed;

use crate::refusal::Refusal;
use crate::words::Tables;
use crate::Rules;

/// Whether tables are well-formed, secure or not.
pub fn is_well_formed(tables: &Tables) -> bool {
    well_formed::holds(tables)
}

/// Passes well-formed and secure tables. Security is judged only where the tables are well-formed.
pub fn judge<R: Rules>(tables: &Tables) -> Result<(), Refusal> {
    Refusal::NotWellFormed.unless(well_formed::holds(tables))?;
    Refusal::NotSecure.unless(secure::holds::<R>(tables))
}
