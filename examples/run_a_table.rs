//! Runs a table of rows over columns: two tasks by priority, task 1 above task 0 (case B of document 01).
//! Build: rustc --edition 2021 examples/run_a_table.rs -L crates/desk/out -l static=desk -o run_a_table

#[repr(C)]
struct Outcome {
    refusal: u32,
    place: u32,
    end: u32,
}

#[rustfmt::skip]
extern "C" {
    fn anduri_table(
        policy: u32, count: u32, slice: u32, priorities: *const u8, length: usize,
        times: *const u32, times_length: usize, tasks: *const u32, tasks_length: usize,
        amounts: *const u32, amounts_length: usize, result: *mut u32, result_length: usize,
    ) -> Outcome;
}

fn main() {
    let mut priorities = [0u8; 32];
    priorities[1] = 9;
    let (times, tasks, amounts) = ([0u32, 2], [0u32, 1], [5u32, 2]);
    let mut done = [0u32; 2];
    // SAFETY: each pointer is that of an array with the length beside it, and the result overlaps no other.
    let outcome = unsafe {
        anduri_table(
            1, 2, 0, priorities.as_ptr(), 32, times.as_ptr(), 2, tasks.as_ptr(), 2,
            amounts.as_ptr(), 2, done.as_mut_ptr(), 2,
        )
    };
    println!("refusal {} at {}, done {:?}, end {}", outcome.refusal, outcome.place, done, outcome.end);
}
