
/// Appended for the oracle: the cluster class of a character as document 01 numbers it, and Extended_Pictographic.
fn oracle_class(c: char) -> (u32, bool) {
    use tables::grapheme::*;

    let category = grapheme_category(c).2;
    // The crate has one category where Unicode has several properties: a pictograph, and a consonant where one is known, is Other by its class.
    let class = match category {
        GC_CR => 1,
        GC_LF => 2,
        GC_Control => 3,
        GC_Extend => 4,
        GC_ZWJ => 5,
        GC_Regional_Indicator => 6,
        GC_Prepend => 7,
        GC_SpacingMark => 8,
        GC_L => 9,
        GC_V => 10,
        GC_T => 11,
        GC_LV => 12,
        GC_LVT => 13,
        _ => 0,
    };
    (class, category == GC_Extended_Pictographic)
}
