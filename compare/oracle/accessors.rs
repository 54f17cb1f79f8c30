
/// Stands behind the Rust's own text, in the same module: names for its private functions.
pub mod accessors {
    use super::{ConstantPoolLookup, JavaMethod, Slot};

    /// A slot of the walk's list: the local and the load's index, or `None` for any other.
    pub type Origin = Option<(u16, usize)>;

    pub fn build_message(method: &JavaMethod, bci: usize) -> Option<String> {
        super::build_message(method, bci)
    }

    /// The action and the depth at a fault.
    pub fn decode_fault(code: &[u8], bci: usize, pool: &impl ConstantPoolLookup) -> Option<(String, usize)> {
        let fault = super::decode_fault(*code.get(bci)?, code, bci, pool)?;
        Some((fault.action, fault.null_depth))
    }

    pub fn simulate_block(
        code: &[u8],
        start: usize,
        fault: usize,
        pool: &impl ConstantPoolLookup,
    ) -> Option<Vec<Origin>> {
        let slots = super::simulate_block(code, start, fault, pool)?;
        Some(
            slots
                .into_iter()
                .map(|slot| match slot {
                    Slot::Aload { slot, load_bci } => Some((slot, load_bci)),
                    Slot::Other => None,
                })
                .collect(),
        )
    }

    pub fn block_leader(code: &[u8], fault: usize) -> Option<usize> {
        super::block_leader(code, fault)
    }

    pub fn instruction_length(code: &[u8], pc: usize) -> Option<usize> {
        super::instruction_length(code, pc)
    }

    pub fn describe_local(method: &JavaMethod, slot: u16, load: usize) -> String {
        super::describe_local(method, slot, load)
    }

    pub fn parse_method_params(descriptor: &str) -> Option<(Vec<String>, usize)> {
        super::parse_method_params(descriptor)
    }

    pub fn return_type_slots(descriptor: &str) -> Option<usize> {
        super::return_type_slots(descriptor)
    }

    pub fn slots_of_field_type(descriptor: &[u8]) -> usize {
        super::slots_of_field_type(descriptor)
    }
}
