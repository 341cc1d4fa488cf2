
/// The private operation of an acknowledgement.
pub mod reached {
    use super::{MarkStep, NorStorage};

    pub fn start_mark_step<F: NorStorage>(flash: &mut F, step: MarkStep) -> Result<(), F::Error> {
        super::start_mark_step(flash, step)
    }
}
