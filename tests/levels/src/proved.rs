//! The proved comparisons. No crate of the desk exports them; `tests/levels/build` makes an archive of them for this test alone.

#[link(name = "comparisons", kind = "static")]
extern "C" {
    fn test_at_most(a: u32, b: u32) -> u8;
    fn test_roles_within(a: u32, b: u32) -> u8;
}

/// Which of them.
#[derive(Clone, Copy)]
pub enum Call {
    AtMost,
    RolesWithin,
}

impl Call {
    /// What it is called in a report.
    pub fn name(self) -> &'static str {
        match self {
            Call::AtMost => "at most",
            Call::RolesWithin => "roles within",
        }
    }

    /// What it answers: 1 where the comparison holds, and 0 where it does not. It is a `bool` there, and a byte here, since a byte that is
    /// neither could not be looked at as a `bool`.
    pub fn answer(self, a: u32, b: u32) -> u8 {
        // SAFETY: either takes any two numbers, and is lent nothing.
        unsafe {
            match self {
                Call::AtMost => test_at_most(a, b),
                Call::RolesWithin => test_roles_within(a, b),
            }
        }
    }
}
