//! Reports as C calls them, where the Rust crate has no way to: by the functions that name no wording, and in the full model by any
//! number but 0.
use crate::model::Model;
use korsepal::Answer;

#[repr(C)]
struct Numbers {
    answer: u32,
    kind: u32,
    scan: u32,
    block: u32,
    value: u64,
}

extern "C" {
    fn korsepal_report(_: *const u8, _: usize, _: *mut u64, _: usize, _: *mut u8, _: usize) -> Numbers;
    fn korsepal_report_full(_: *const u8, _: usize, _: *mut u64, _: usize, _: *mut u8, _: usize) -> Numbers;
    fn korsepal_report_in(
        _: u32,
        _: u32,
        _: *const u8,
        _: usize,
        _: *mut u64,
        _: usize,
        _: *mut u8,
        _: usize,
    ) -> Numbers;
}

/// The answer that the numbers say. A number that is not named for an answer must be 0, else the answer is an unknown one.
fn answer(numbers: Numbers, output: &[u8]) -> Answer<'_> {
    match numbers {
        Numbers { answer: 0, kind, scan, block, value } => match output.get(..value as usize) {
            Some(text) => Answer::Message { text, kind, scan, block },
            None => Answer::Unknown(0),
        },
        Numbers { answer: 1, kind: 0, scan: 0, block: 0, value: 0 } => Answer::NoMessage,
        Numbers { answer: 2, kind: 0, scan: 0, block: 0, value } => Answer::Broken { at: value },
        Numbers { answer: 3, kind: 0, scan: 0, block: 0, value } => Answer::NoRoom { at: value },
        Numbers { answer: 4, kind: 0, scan: 0, block: 0, value } => Answer::NoOutput { needed: value },
        Numbers { answer: 5, kind: 0, scan: 0, block: 0, value: 0 } => Answer::TooLong,
        Numbers { answer: 11, kind: 0, scan: 0, block: 0, value: 0 } => Answer::NoWording,
        Numbers { answer, .. } => Answer::Unknown(answer),
    }
}

/// The report in a model by the function that names no wording.
pub fn unnamed<'a>(model: Model, case: &[u8], stack: &mut [u64], output: &'a mut [u8]) -> Answer<'a> {
    let report = match model {
        Model::Document => korsepal_report,
        Model::Full => korsepal_report_full,
    };
    // SAFETY: each pointer goes with the count of its slice, and the slices don't overlap.
    let numbers = unsafe {
        report(case.as_ptr(), case.len(), stack.as_mut_ptr(), stack.len(), output.as_mut_ptr(), output.len())
    };
    answer(numbers, output)
}

/// The report by numbers: 0 or another for the model, and the wording's.
pub fn numbered<'a>(full: u32, wording: u32, case: &[u8], stack: &mut [u64], output: &'a mut [u8]) -> Answer<'a> {
    let (cells, bytes) = (stack.len(), output.len());
    // SAFETY: as in `unnamed`.
    let numbers = unsafe {
        korsepal_report_in(
            full,
            wording,
            case.as_ptr(),
            case.len(),
            stack.as_mut_ptr(),
            cells,
            output.as_mut_ptr(),
            bytes,
        )
    };
    answer(numbers, output)
}
