//! The twenty operations, and the few named things that requests and records speak of.
use crate::numbered::named;

named! {
    /// What a request asks for. Rule 6.*n* is operation *n*.
    ///
    /// ```
    /// use mms::Operation;
    ///
    /// fn main() {
    ///     assert_eq!(Operation::Show.number(), 10);
    ///     assert_eq!(Operation::from_number(20), Some(Operation::Acknowledge));
    ///     assert_eq!(Operation::from_number(21), None);
    ///     assert_eq!(Operation::DeviceLevel.to_string(), "device level");
    /// }
    /// ```
    Operation, "an operation, 1 to 20" {
        /// An entity comes to be, last in a container.
        Create = 1 "create",
        /// An entity ceases to be.
        Delete = 2 "delete",
        /// An entity leaves the container that it is in, if any, and is the last in a container, which may be the same.
        Move = 3 "move",
        /// An entity's value is set.
        Edit = 4 "edit",
        /// An entity's value becomes another's too.
        Copy = 5 "copy",
        /// An entity's level is set.
        Level = 6 "level",
        /// A container's mark is set or taken away.
        Mark = 7 "mark",
        /// An entity gains a triple.
        Grant = 8 "grant",
        /// An entity loses a triple.
        Revoke = 9 "revoke",
        /// An entity is shown on the requester's device.
        Show = 10 "show",
        /// The requester's device shows nothing more.
        Clear = 11 "clear",
        /// The requester is on a device.
        Login = 12 "login",
        /// The requester leaves the device.
        Logout = 13 "logout",
        /// A user's current roles are set.
        CurrentRoles = 14 "current roles",
        /// A user's clearance is set.
        Clearance = 15 "clearance",
        /// A user's authorised roles are set.
        AuthorisedRoles = 16 "authorised roles",
        /// A device's maximum is set.
        Maximum = 17 "maximum",
        /// A device's level is set.
        DeviceLevel = 18 "device level",
        /// A draft is released by the requester.
        Release = 19 "release",
        /// The requester's notice is cleared.
        Acknowledge = 20 "acknowledge",
    }
}

named! {
    /// What an entity is [rule 2.3]. A record of kind 0 is absent, and has no `Kind`.
    ///
    /// ```
    /// use mms::Kind;
    ///
    /// fn main() {
    ///     assert_eq!(Kind::from_number(3), Some(Kind::Device));
    ///     assert_eq!(Kind::from_number(0), None);
    /// }
    /// ```
    Kind, "a kind, 1 to 3" {
        /// It has a value and holds nothing.
        Object = 1 "object",
        /// It has a value and holds entities.
        Container = 2 "container",
        /// It shows entities to the user who is on it.
        Device = 3 "device",
    }
}

named! {
    /// Whether an entity is a message, and how far that is on its way out [rule 2.3]. Only a container can be one.
    Type, "a type, 0 to 2" {
        /// No message: an object, a device, or a container that only holds things.
        Plain = 0 "plain",
        /// A message that has not been released.
        Draft = 1 "draft",
        /// A message that was released, and stays so.
        Released = 2 "released",
    }
}

named! {
    /// What a create makes [rule 6.1].
    Sort, "a sort, 1 to 3" {
        /// An object.
        Object = 1 "object",
        /// A plain container.
        Container = 2 "container",
        /// A container that is a draft.
        Draft = 3 "draft",
    }
}

named! {
    /// Which operand of a request an entity stands as [rule 2.5].
    Position, "a position, 1 or 2" {
        /// The first, or the only one.
        First = 1 "first",
        /// The second.
        Second = 2 "second",
    }
}
