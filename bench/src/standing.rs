//! What can still be asked of tables, so that a long run does not run dry: rights are revoked or go with what is deleted, and numbers fill up.
use generate::layout::{entity, kind, op, parts_of, types, user, ENTITIES, FIRST_ROLE, OPERATION_MOST, PLACES, USERS};
use generate::view::{entity_record, triples, user_record};

/// By operation, how many entities somebody may ask for it on as a first operand. Free numbers count for a deletion too, which frees one.
pub struct Standing([u32; OPERATION_MOST as usize + 1]);

impl Standing {
    /// Looks at every triple of every entity.
    pub fn of(tables: &[u32]) -> Standing {
        let everybody = everybody(tables);
        let mut standing = Standing([0; OPERATION_MOST as usize + 1]);
        for record in (1..=ENTITIES).map(|number| entity_record(tables, number)) {
            let may = rights(record).filter(|&(who, _)| everybody >> who & 1 != 0);
            let operations = may.fold(0u32, |operations, (_, operation)| operations | 1 << operation);
            for operation in (1..=OPERATION_MOST).filter(|operation| operations >> operation & 1 != 0) {
                standing.0[operation as usize] += u32::from(suits(record, operation));
            }
            standing.0[op::DELETE as usize] += u32::from(record[entity::KIND] == kind::ABSENT);
        }
        standing
    }

    /// Is there enough left afterwards, or no less than now?
    pub fn lasts(&self, after: &Standing) -> bool {
        (1..=OPERATION_MOST).all(|operation| {
            let [now, then] = [self.0[operation as usize], after.0[operation as usize]];
            then >= now.min(enough(operation))
        })
    }
}

/// How many entities are enough for an operation. What may be deleted and what may be created come from each other, so there it takes more; and
/// a release leaves one draft fewer by its nature.
fn enough(operation: u32) -> u32 {
    match operation {
        op::DELETE => 10,
        op::RELEASE => 0,
        _ => 3,
    }
}

/// One bit for each "who" of triples that some user is.
fn everybody(tables: &[u32]) -> u32 {
    let records = (1..=USERS).map(|number| (number, user_record(tables, number)));
    let present = records.filter(|(_, record)| record[user::PRESENT] != 0);
    present.fold(0, |whos, (number, record)| whos | 1 << number | record[user::CURRENT] << FIRST_ROLE)
}

/// For whom an entity has triples of a first operand, and for which operations.
fn rights(record: &[u32]) -> impl Iterator<Item = (u32, u32)> + '_ {
    triples(record)
        .iter()
        .map(|&triple| parts_of(triple))
        .filter(|parts| parts[2] == 1)
        .map(|parts| (parts[0], parts[1]))
}

/// Is an entity of the sort that an operation takes first, and does its own record let it be done?
fn suits(record: &[u32], operation: u32) -> bool {
    use op::*;
    let is_container = record[entity::KIND] == kind::CONTAINER;
    let is_device = record[entity::KIND] == kind::DEVICE;
    match operation {
        CREATE => is_container && record[entity::USED] < PLACES,
        DELETE => !is_device && record[entity::USED] == 0 && record[entity::TYPE] != types::RELEASED,
        SET_MARK => is_container,
        GRANT | REVOKE => true,
        LOGIN | MAXIMUM | DEVICE_LEVEL => is_device,
        RELEASE => record[entity::TYPE] == types::DRAFT,
        _ => !is_device,
    }
}
