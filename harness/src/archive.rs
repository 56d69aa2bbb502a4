//! The C interface of the archive under comparison, over slices. Replies come
//! back as their numbers, in the order of the C structures.

#[repr(C)]
struct FileReply {
    refusal: u32,
    facts: u32,
    rules: u32,
    exceptions: u32,
    constraints: u32,
    step_bytes: u32,
}

#[repr(C)]
struct CountsReply {
    refusal: u32,
    stages: u32,
    steps: u32,
}

#[repr(C)]
struct VerdictReply {
    refusal: u32,
    verdict: u32,
}

#[repr(C)]
struct CountReply {
    refusal: u32,
    count: u32,
}

#[cfg(not(without_better))]
#[repr(C)]
struct ChoiceReply {
    refusal: u32,
    which: u32,
}

unsafe extern "C" {
    fn retention_accept(file: *const u8, file_len: usize) -> FileReply;
    fn retention_run(
        file: *const u8,
        file_len: usize,
        order: *const u8,
        order_len: usize,
        fact_marks: *mut u8,
        fact_marks_len: usize,
        rule_marks: *mut u8,
        rule_marks_len: usize,
        steps: *mut u8,
        steps_len: usize,
    ) -> CountsReply;
    fn retention_judge(
        file: *const u8,
        file_len: usize,
        list: *const u8,
        list_len: usize,
        set: *const u8,
        set_len: usize,
    ) -> VerdictReply;
    fn retention_check(
        file: *const u8,
        file_len: usize,
        set: *const u8,
        set_len: usize,
        fact: u32,
        proof: *const u8,
        proof_len: usize,
    ) -> VerdictReply;
    fn retention_search(
        file: *const u8,
        file_len: usize,
        fact_marks: *mut u8,
        fact_marks_len: usize,
        rule_marks: *mut u8,
        rule_marks_len: usize,
        steps: *mut u8,
        steps_len: usize,
        order: *mut u8,
        order_len: usize,
    ) -> CountsReply;
    fn retention_panel(file: *const u8, file_len: usize, out: *mut u8, out_len: usize) -> u32;
    fn retention_grounds(
        file: *const u8,
        file_len: usize,
        order: *const u8,
        order_len: usize,
        fact: u32,
        fact_marks: *mut u8,
        fact_marks_len: usize,
        rule_marks: *mut u8,
        rule_marks_len: usize,
        steps: *mut u8,
        steps_len: usize,
    ) -> CountReply;
    fn retention_layered(
        file: *const u8,
        file_len: usize,
        order: *mut u8,
        order_len: usize,
    ) -> CountReply;
    fn retention_load(
        start: u32,
        facts: u32,
        rules: u32,
        out: *mut u8,
        out_len: usize,
    ) -> CountReply;
    #[cfg(not(without_better))]
    fn retention_better(
        file: *const u8,
        file_len: usize,
        first: *const u8,
        first_len: usize,
        second: *const u8,
        second_len: usize,
    ) -> ChoiceReply;
}

// Each call below hands over slices with their own lengths. They are valid for
// the call, the mutable ones do not overlap, and the archive keeps none.

pub fn accept(file: &[u8]) -> [u32; 6] {
    let reply = unsafe { retention_accept(file.as_ptr(), file.len()) };
    [reply.refusal, reply.facts, reply.rules, reply.exceptions, reply.constraints, reply.step_bytes]
}

pub fn run(
    file: &[u8],
    order: &[u8],
    fact_marks: &mut [u8],
    rule_marks: &mut [u8],
    steps: &mut [u8],
) -> [u32; 3] {
    let reply = unsafe {
        retention_run(
            file.as_ptr(),
            file.len(),
            order.as_ptr(),
            order.len(),
            fact_marks.as_mut_ptr(),
            fact_marks.len(),
            rule_marks.as_mut_ptr(),
            rule_marks.len(),
            steps.as_mut_ptr(),
            steps.len(),
        )
    };
    [reply.refusal, reply.stages, reply.steps]
}

pub fn judge(file: &[u8], list: &[u8], set: &[u8]) -> [u32; 2] {
    let reply = unsafe {
        retention_judge(
            file.as_ptr(),
            file.len(),
            list.as_ptr(),
            list.len(),
            set.as_ptr(),
            set.len(),
        )
    };
    [reply.refusal, reply.verdict]
}

pub fn check(file: &[u8], set: &[u8], asked: u32, proof: &[u8]) -> [u32; 2] {
    let reply = unsafe {
        retention_check(
            file.as_ptr(),
            file.len(),
            set.as_ptr(),
            set.len(),
            asked,
            proof.as_ptr(),
            proof.len(),
        )
    };
    [reply.refusal, reply.verdict]
}

pub fn search(
    file: &[u8],
    fact_marks: &mut [u8],
    rule_marks: &mut [u8],
    steps: &mut [u8],
    order: &mut [u8],
) -> [u32; 3] {
    let reply = unsafe {
        retention_search(
            file.as_ptr(),
            file.len(),
            fact_marks.as_mut_ptr(),
            fact_marks.len(),
            rule_marks.as_mut_ptr(),
            rule_marks.len(),
            steps.as_mut_ptr(),
            steps.len(),
            order.as_mut_ptr(),
            order.len(),
        )
    };
    [reply.refusal, reply.stages, reply.steps]
}

pub fn panel(file: &[u8], out: &mut [u8]) -> u32 {
    unsafe { retention_panel(file.as_ptr(), file.len(), out.as_mut_ptr(), out.len()) }
}

pub fn grounds(
    file: &[u8],
    order: &[u8],
    asked: u32,
    fact_marks: &mut [u8],
    rule_marks: &mut [u8],
    steps: &mut [u8],
) -> [u32; 2] {
    let reply = unsafe {
        retention_grounds(
            file.as_ptr(),
            file.len(),
            order.as_ptr(),
            order.len(),
            asked,
            fact_marks.as_mut_ptr(),
            fact_marks.len(),
            rule_marks.as_mut_ptr(),
            rule_marks.len(),
            steps.as_mut_ptr(),
            steps.len(),
        )
    };
    [reply.refusal, reply.count]
}

pub fn layered(file: &[u8], order: &mut [u8]) -> [u32; 2] {
    let reply =
        unsafe { retention_layered(file.as_ptr(), file.len(), order.as_mut_ptr(), order.len()) };
    [reply.refusal, reply.count]
}

pub fn load(start: u32, facts: u32, rules: u32, out: &mut [u8]) -> [u32; 2] {
    let reply = unsafe { retention_load(start, facts, rules, out.as_mut_ptr(), out.len()) };
    [reply.refusal, reply.count]
}

/// The orders may overlap, or be one.
#[cfg(not(without_better))]
pub fn better(file: &[u8], first: &[u8], second: &[u8]) -> [u32; 2] {
    let reply = unsafe {
        retention_better(
            file.as_ptr(),
            file.len(),
            first.as_ptr(),
            first.len(),
            second.as_ptr(),
            second.len(),
        )
    };
    [reply.refusal, reply.which]
}

/// An archive from before the better of two orders has no such function.
#[cfg(without_better)]
pub fn better(_: &[u8], _: &[u8], _: &[u8]) -> [u32; 2] {
    unreachable!("not asked of such an archive")
}
