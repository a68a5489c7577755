
/// Appended for the oracle: the cluster class, Extended_Pictographic and InCB of a character, as document 01 numbers them.
pub fn oracle_properties(c: char) -> (u32, bool, u32) {
    let incb = if tables::is_incb_linker(c) {
        3
    } else if tables::derived_property::InCB_Extend(c) {
        2
    } else if tables::grapheme::grapheme_category(c).2 == tables::grapheme::GC_InCB_Consonant {
        1
    } else {
        0
    };
    let (class, is_pictograph) = oracle_class(c);
    (class, is_pictograph, incb)
}
