
// Appended for the oracle: a pool that was filled before, in which equal entries may stand (then the first counts).
impl ConstantPoolBuilder {
    pub fn push_entry(&mut self, s: &str) {
        let index = ConstantIndex(self.constants.len() as u32);
        let start = self.string_data.len();
        self.string_data.push_str(s);
        self.constants.push(ConstantEntry::Str(start..start + s.len()));
        self.string_map.entry(s.to_string()).or_insert(index);
    }
}
