
/// Appended for the oracle: the cluster class and Extended_Pictographic of a character. This version knows no InCB.
pub fn oracle_properties(c: char) -> (u32, bool, u32) {
    let (class, is_pictograph) = oracle_class(c);
    (class, is_pictograph, 0)
}
