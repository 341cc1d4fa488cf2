
/// What the oracle reads of a writer's private state.
pub mod reached {
    use super::LogWriter;

    pub fn write_back_since_ms(writer: &LogWriter) -> Option<u64> {
        writer.write_back_since_ms
    }
}
