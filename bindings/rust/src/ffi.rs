//! The C interface, as `bindings/c/korsepal.h` has it; of the reports only the one that names both model and wording. Each function
//! takes any input and touches nothing but what it is lent.

#[repr(C)]
pub struct ReportResult {
    pub answer: u32,
    pub kind: u32,
    pub scan: u32,
    pub block: u32,
    pub value: u64,
}

#[repr(C)]
pub struct LengthResult {
    pub status: u32,
    pub length: u64,
}

#[repr(C)]
pub struct LeaderResult {
    pub found: u32,
    pub scan: u64,
    pub leader: u64,
}

#[repr(C)]
pub struct WalkResult {
    pub outcome: u32,
    pub height: u64,
    pub count: u64,
    pub index: u64,
}

#[repr(C)]
pub struct NameResult {
    pub answer: u32,
    pub value: u64,
}

#[repr(C)]
pub struct ParametersResult {
    pub status: u32,
    pub slots: u64,
    pub length: u64,
}

#[repr(C)]
pub struct SlotsResult {
    pub status: u32,
    pub slots: u32,
}

#[repr(C)]
pub struct TypesResult {
    pub refusal: u32,
    pub count: u64,
}

/// A walk, in either model.
pub type Walk = unsafe extern "C" fn(
    case: *const u8,
    case_count: usize,
    leader: u64,
    fault: u64,
    stack: *mut u64,
    stack_count: usize,
) -> WalkResult;

extern "C" {
    pub fn korsepal_report_in(
        full: u32,
        wording: u32,
        case: *const u8,
        case_count: usize,
        stack: *mut u64,
        stack_count: usize,
        output: *mut u8,
        output_count: usize,
    ) -> ReportResult;
    pub fn korsepal_instruction_length(code: *const u8, code_count: usize, pc: u64) -> LengthResult;
    pub fn korsepal_block_leader(code: *const u8, code_count: usize, fault: u64) -> LeaderResult;
    pub fn korsepal_walk(
        case: *const u8,
        case_count: usize,
        leader: u64,
        fault: u64,
        stack: *mut u64,
        stack_count: usize,
    ) -> WalkResult;
    pub fn korsepal_walk_full(
        case: *const u8,
        case_count: usize,
        leader: u64,
        fault: u64,
        stack: *mut u64,
        stack_count: usize,
    ) -> WalkResult;
    pub fn korsepal_local_name(
        case: *const u8,
        case_count: usize,
        local: u64,
        load: u64,
        output: *mut u8,
        output_count: usize,
    ) -> NameResult;
    pub fn korsepal_parameters(
        descriptor: *const u8,
        descriptor_count: usize,
        output: *mut u8,
        output_count: usize,
    ) -> ParametersResult;
    pub fn korsepal_return_slots(descriptor: *const u8, descriptor_count: usize) -> SlotsResult;
    pub fn korsepal_field_slots(descriptor: *const u8, descriptor_count: usize) -> SlotsResult;
    pub fn korsepal_parse_type(
        descriptor: *const u8,
        descriptor_count: usize,
        numbers: *mut u64,
        numbers_count: usize,
    ) -> TypesResult;
    pub fn korsepal_parse_method(
        descriptor: *const u8,
        descriptor_count: usize,
        numbers: *mut u64,
        numbers_count: usize,
    ) -> TypesResult;
}
