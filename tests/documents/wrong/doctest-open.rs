// wrong: the fence is not closed
/// ```
/// assert_eq!(1, 1);
pub fn nothing() {}
