// wrong: unknown info string 'ignore'
/// ```ignore
/// assert_eq!(1, 2);
/// ```
pub fn nothing() {}
