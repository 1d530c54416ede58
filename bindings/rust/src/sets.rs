//! Sets of bits: roles, and what a device shows of an entity.
use crate::numbered::numbered;
use std::ops::BitOr;

numbered! {
    /// A set of roles, eight bits [rule 1.3]. `|` joins two sets.
    ///
    /// ```
    /// use mms::Roles;
    ///
    /// fn main() {
    ///     let both = Roles::OFFICER | Roles::RELEASER;
    ///     assert_eq!(both.number(), 5);
    ///     assert!(Roles::OFFICER.is_within(both));
    ///     assert!(!Roles::DOWNGRADER.is_within(both));
    ///     assert_eq!(Roles::from_number(256), None);
    /// }
    /// ```
    #[derive(Clone, Copy, Debug, Default, PartialEq, Eq, Hash, PartialOrd, Ord)]
    Roles, 0 to 255, "a set of roles, 0 to 255"
}

impl Roles {
    /// No role.
    pub const NONE: Roles = Roles(0);
    /// The security officer.
    pub const OFFICER: Roles = Roles(1);
    /// The downgrader.
    pub const DOWNGRADER: Roles = Roles(2);
    /// The releaser. The five roles behind it, 8 to 128, are house roles, which matter in triples only.
    pub const RELEASER: Roles = Roles(4);

    /// Whether the other set has all these roles.
    pub const fn is_within(self, other: Roles) -> bool {
        self.0 & !other.0 == 0
    }
}

impl BitOr for Roles {
    type Output = Roles;

    fn bitor(self, other: Roles) -> Roles {
        Roles(self.0 | other.0)
    }
}

numbered! {
    /// What a device shows of an entity: value, label and ID, in a sum of 1 to 7 [rule 2.4]. `|` joins two.
    ///
    /// ```
    /// use mms::Shown;
    ///
    /// fn main() {
    ///     assert_eq!(Shown::VALUE | Shown::LABEL, Shown::VALUE_AND_LABEL);
    ///     assert!(Shown::LABEL.is_within(Shown::ALL));
    ///     assert_eq!(Shown::from_number(0), None);
    /// }
    /// ```
    #[derive(Clone, Copy, Debug, PartialEq, Eq, Hash, PartialOrd, Ord)]
    Shown, 1 to 7, "a shown sum, 1 to 7"
}

impl Shown {
    /// The value alone. Secure tables have no such sum: a value is shown with its label [rule 4.3].
    pub const VALUE: Shown = Shown(1);
    /// The label, which is the entity's level.
    pub const LABEL: Shown = Shown(2);
    /// The value and the label, as the disclosure list asks.
    pub const VALUE_AND_LABEL: Shown = Shown(3);
    /// The ID.
    pub const ID: Shown = Shown(4);
    /// Value, label and ID.
    pub const ALL: Shown = Shown(7);

    /// Whether the other shows all that this one does.
    pub const fn is_within(self, other: Shown) -> bool {
        self.0 & !other.0 == 0
    }
}

impl BitOr for Shown {
    type Output = Shown;

    fn bitor(self, other: Shown) -> Shown {
        Shown(self.0 | other.0)
    }
}
