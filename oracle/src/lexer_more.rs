
// Appended for the oracle: what it has to see of the lexer's state.
#[allow(missing_docs)]
impl KotoLexer<'_> {
    pub fn current_byte(&self) -> usize {
        self.lexer.current_byte
    }

    pub fn mode_depth(&self) -> usize {
        self.lexer.string_mode_stack.len()
    }

    /// Whether the contents of a normal string are read, and a template is open below it
    pub fn is_within_template(&self) -> bool {
        let stack = &self.lexer.string_mode_stack;
        matches!(stack.last(), Some(StringMode::Literal(_))) && stack.iter().any(|mode| matches!(mode, StringMode::TemplateExpr))
    }

    pub fn queued(&self) -> usize {
        self.token_queue.len()
    }
}
