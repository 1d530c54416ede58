//! A request for each operation, from typed arguments. What an operation has no use for is 0 [rule 5.4].
//!
//! A reference of no names can be given, and is refused with 5. Refusals 4 to 10 are the same for all operations.
use super::Request;
use crate::layout::{request, ENTRY_WORDS, REQUEST_WORDS};
use crate::{Level, Operation, Reference, Refusal, Roles, Shown, Sort, Triple, User};

/// The arguments of an operation that has none, and the operand of one that has none.
const NOTHING: [u32; 3] = [0; 3];
const NONE: &Reference = &Reference::NONE;

/// The requests of the twenty operations, each with the refusals that only it has. This is how they are used:
///
/// ```
/// use mms::{Entity, Kind, Level, Operation, Position, Refusal, Request, Roles, Sort, Tables, Triple, Type, User, Who};
///
/// fn main() -> Result<(), Box<dyn std::error::Error>> {
///     let (user, device) = (User::try_from(1)?, Entity::try_from(1)?);
///     let (folder, outbox) = (Entity::try_from(2)?, Entity::try_from(3)?);
///     let officers = Who::with_role(Roles::OFFICER).ok_or("not one role")?;
///     let mut tables = Tables::empty();
///     tables.put_device(device, Level::HIGHEST, Level::HIGHEST);
///     tables.put_user(user, Level::HIGHEST, Roles::RELEASER | Roles::OFFICER);
///     tables.put_on(user, device, Roles::OFFICER);
///     tables.put_container(folder, Level::HIGHEST);
///     tables.put_triple(folder, Triple::new(user, Operation::Create, Position::First))?;
///     tables.put_triple(folder, Triple::new(officers, Operation::Grant, Position::First))?;
///     tables.put_container(outbox, Level::LOWEST);
///     tables.put_triple(outbox, Triple::new(user, Operation::Move, Position::Second))?;
///
///     // what is created has the lowest number that was absent, and the triples of its container
///     tables.step(&Request::create(user, &folder.into(), Sort::Draft, Level::LOWEST))?;
///     let draft = tables.contents_of(folder)[0];
///     assert_eq!((draft.number(), tables.kind_of(draft)), (4, Some(Kind::Container)));
///     assert_eq!(tables.triples_of(draft), tables.triples_of(folder));
///
///     let leave = |operation| Triple::new(user, operation, Position::First);
///     tables.step(&Request::grant(user, &draft.into(), leave(Operation::Move)))?;
///     tables.step(&Request::grant(user, &draft.into(), leave(Operation::Release)))?;
///     assert_eq!(tables.triples_of(draft)[2..], [leave(Operation::Move), leave(Operation::Release)]);
///
///     tables.step(&Request::move_into(user, &"2.1".parse()?, &outbox.into()))?;
///     assert_eq!((tables.contents_of(folder), tables.contents_of(outbox)), (vec![], vec![draft]));
///
///     // a role must be current; to be authorised is not enough
///     let release = Request::release(user, &draft.into());
///     assert_eq!(tables.step(&release), Err(Refusal::RoleMissing));
///     tables.step(&Request::set_current_roles(user, user, Roles::RELEASER))?;
///     tables.step(&release)?;
///     assert_eq!((tables.type_of(draft), tables.releaser_of(draft)), (Some(Type::Released), Some(user)));
///
///     // and one cannot take on a role that one is not authorised for
///     let downgrade = Request::set_current_roles(user, user, Roles::DOWNGRADER);
///     assert_eq!(tables.step(&downgrade), Err(Refusal::LevelOrRoles));
///     Ok(())
/// }
/// ```
impl Request {
    /// 1: a new entity of this sort and level, last in the container [rule 6.1]. Its own refusals: 13 where the level
    /// is not at most the container's, 14 where there is no number or no place left.
    pub fn create(user: User, container: &Reference, sort: Sort, level: Level) -> Request {
        Request::made(user, Operation::Create, [container, NONE], [sort.number(), level.number(), 0])
    }

    /// 2: the entity is deleted [rule 6.2]. Its own refusal: 15 where it holds something, a device shows it, or it is
    /// released.
    pub fn delete(user: User, entity: &Reference) -> Request {
        Request::made(user, Operation::Delete, [entity, NONE], NOTHING)
    }

    /// 3: the entity leaves its container, and is the last in this one [rule 6.3]. Its own refusals: 13 where its level
    /// is not at most the container's, 14 where there is no place, 15 where the container is the entity or lies inside
    /// it.
    pub fn move_into(user: User, entity: &Reference, container: &Reference) -> Request {
        Request::made(user, Operation::Move, [entity, container], NOTHING)
    }

    /// 4: the entity has this value [rule 6.4].
    pub fn edit(user: User, entity: &Reference, value: u32) -> Request {
        Request::made(user, Operation::Edit, [entity, NONE], [value, 0, 0])
    }

    /// 5: the second entity has the first one's value [rule 6.5]. Its own refusal: 13 where the first one's level is
    /// not at most the second's.
    pub fn copy(user: User, from: &Reference, to: &Reference) -> Request {
        Request::made(user, Operation::Copy, [from, to], NOTHING)
    }

    /// 6: the entity has this level [rule 6.6]. Its own refusals: 12 where that is a drop and the requester is no
    /// downgrader, 13 where the tables would not be secure.
    ///
    /// A level drops where the new one is not at least the old one: it is strictly lower, or goes sideways, so that
    /// neither is at most the other. Then a rank or a compartment is lost. To set the level that it has is no drop.
    ///
    /// ```
    /// use mms::{Entity, Level, Operation, Position, Refusal, Request, Roles, Tables, Triple, User};
    ///
    /// fn main() -> Result<(), Box<dyn std::error::Error>> {
    ///     let (user, device, finding) = (User::try_from(1)?, Entity::try_from(1)?, Entity::try_from(2)?);
    ///     let mut tables = Tables::empty();
    ///     tables.put_device(device, Level::HIGHEST, Level::HIGHEST);
    ///     tables.put_user(user, Level::HIGHEST, Roles::DOWNGRADER);
    ///     tables.put_on(user, device, Roles::NONE);
    ///     tables.put_object(finding, Level::try_from(256)?);
    ///     tables.put_triple(finding, Triple::new(user, Operation::Level, Position::First))?;
    ///
    ///     // from rank 1 to rank 0 with a compartment: sideways
    ///     let sideways = Request::set_level(user, &finding.into(), Level::try_from(1)?);
    ///     assert_eq!(tables.step(&sideways), Err(Refusal::RoleMissing));
    ///     tables.step(&Request::set_current_roles(user, user, Roles::DOWNGRADER))?;
    ///     tables.step(&sideways)?;
    ///     assert_eq!(tables.level_of(finding), Level::from_number(1));
    ///     Ok(())
    /// }
    /// ```
    pub fn set_level(user: User, entity: &Reference, level: Level) -> Request {
        Request::made(user, Operation::Level, [entity, NONE], [level.number(), 0, 0])
    }

    /// 7: the container is marked, or is not [rule 6.7].
    pub fn set_mark(user: User, container: &Reference, marked: bool) -> Request {
        Request::made(user, Operation::Mark, [container, NONE], [u32::from(marked), 0, 0])
    }

    /// 8: the entity or device has this triple [rule 6.8]. Its own refusal: 14 where it has eight others.
    pub fn grant(user: User, any: &Reference, triple: Triple) -> Request {
        Request::made(user, Operation::Grant, [any, NONE], parts(triple))
    }

    /// 9: the entity or device does not have this triple [rule 6.9].
    pub fn revoke(user: User, any: &Reference, triple: Triple) -> Request {
        Request::made(user, Operation::Revoke, [any, NONE], parts(triple))
    }

    /// 10: the requester's device shows this much of the entity [rule 6.10]. Its own refusals: 13 where the entity's
    /// level is not at most the requester's clearance and the device's level, 14 where the device shows eight others,
    /// 15 for a value without its label.
    pub fn show(user: User, entity: &Reference, shown: Shown) -> Request {
        Request::made(user, Operation::Show, [entity, NONE], [shown.number(), 0, 0])
    }

    /// 11: the requester's device shows nothing [rule 6.11].
    pub fn clear(user: User) -> Request {
        Request::made(user, Operation::Clear, [NONE, NONE], NOTHING)
    }

    /// 12: the requester is on the device [rule 6.12]. Its own refusal: 15 where the requester is on a device already,
    /// or somebody is on this one.
    pub fn login(user: User, device: &Reference) -> Request {
        Request::made(user, Operation::Login, [device, NONE], NOTHING)
    }

    /// 13: the requester is on no device, and has no current roles [rule 6.13].
    pub fn logout(user: User) -> Request {
        Request::made(user, Operation::Logout, [NONE, NONE], NOTHING)
    }

    /// 14: the user `of` has these current roles [rule 6.14]. Its own refusals: 11 where that user is absent, or is
    /// logged off and would have a role, 12 where it is another and the requester is no officer, 13 where it is not
    /// authorised for them.
    pub fn set_current_roles(user: User, of: User, roles: Roles) -> Request {
        Request::made(user, Operation::CurrentRoles, [NONE, NONE], [of.number(), roles.number(), 0])
    }

    /// 15: the user `of` has this clearance [rule 6.15]. Its own refusals: 11 where that user is absent, 12 where the
    /// requester is no officer, 13 where the tables would not be secure.
    pub fn set_clearance(user: User, of: User, clearance: Level) -> Request {
        Request::made(user, Operation::Clearance, [NONE, NONE], [of.number(), clearance.number(), 0])
    }

    /// 16: the user `of` has these authorised roles [rule 6.16]. Its own refusals: 11 where that user is absent, 12
    /// where the requester is no officer, 13 where the current roles are not within them.
    pub fn set_authorised_roles(user: User, of: User, roles: Roles) -> Request {
        Request::made(user, Operation::AuthorisedRoles, [NONE, NONE], [of.number(), roles.number(), 0])
    }

    /// 17: the device has this maximum [rule 6.17]. Its own refusals: 12 where the requester is no officer, 13 where
    /// the device's level is not at most the maximum.
    pub fn set_maximum(user: User, device: &Reference, maximum: Level) -> Request {
        Request::made(user, Operation::Maximum, [device, NONE], [maximum.number(), 0, 0])
    }

    /// 18: the device has this level [rule 6.18]. Its own refusals: 12 where that is a drop, as in
    /// [`set_level`](Request::set_level), the device is not the requester's and the requester is no downgrader, 13
    /// where the tables would not be secure.
    pub fn set_device_level(user: User, device: &Reference, level: Level) -> Request {
        Request::made(user, Operation::DeviceLevel, [device, NONE], [level.number(), 0, 0])
    }

    /// 19: the draft is released, by the requester [rule 6.19]. Its own refusal: 12 where the requester is no releaser.
    pub fn release(user: User, draft: &Reference) -> Request {
        Request::made(user, Operation::Release, [draft, NONE], NOTHING)
    }

    /// 20: the requester has seen that this refusal is held, and that so many were missed; nothing is held any more
    /// [rule 6.20]. Its own refusal: 16 where nothing is held, or another refusal, or another number was missed.
    /// [`Tables::notice`] says what is held, and has an example.
    ///
    /// [`Tables::notice`]: crate::Tables::notice
    pub fn acknowledge(user: User, held: Refusal, missed: u32) -> Request {
        Request::made(user, Operation::Acknowledge, [NONE, NONE], [held.number(), missed, 0])
    }

    /// The request of these; each reference stands with its length in front, as in a list.
    fn made(user: User, operation: Operation, references: [&Reference; 2], arguments: [u32; 3]) -> Request {
        let mut words = [0; REQUEST_WORDS];
        words[request::USER] = user.number();
        words[request::OPERATION] = operation.number();
        words[request::FIRST..][..ENTRY_WORDS].copy_from_slice(references[0].as_words());
        words[request::SECOND..][..ENTRY_WORDS].copy_from_slice(references[1].as_words());
        words[request::ARGUMENTS..request::SPARE].copy_from_slice(&arguments);
        Request { words }
    }
}

/// The three arguments that name a triple.
fn parts(triple: Triple) -> [u32; 3] {
    [triple.who.number(), triple.operation.number(), triple.position.number()]
}
