//! The exported functions of the port (crates/exports) as C sees them: runs and decisions, the layers, assembly alone;
//! then those of job files, of scans and of number texts. A slice is a pointer and a length.

extern "C" {
    pub fn pgo_optimize(
        poses: *const f64,
        poses_len: usize,
        ends: *const u32,
        ends_len: usize,
        edges: *const f32,
        edges_len: usize,
        fixed: *const u32,
        fixed_len: usize,
        limit: u32,
        cost_tolerance: f32,
        gradient_tolerance: f32,
        damping: f32,
        work32: *mut f32,
        work32_len: usize,
        work64: *mut f64,
        work64_len: usize,
        out: *mut f64,
        out_len: usize,
        answer: *mut u32,
        answer_len: usize,
        costs: *mut f32,
        costs_len: usize,
    ) -> u32;

    pub fn pgo_optimize_with_gravity(
        gx: f64,
        gy: f64,
        gz: f64,
        poses: *const f64,
        poses_len: usize,
        ends: *const u32,
        ends_len: usize,
        edges: *const f32,
        edges_len: usize,
        fixed: *const u32,
        fixed_len: usize,
        limit: u32,
        cost_tolerance: f32,
        gradient_tolerance: f32,
        damping: f32,
        work32: *mut f32,
        work32_len: usize,
        work64: *mut f64,
        work64_len: usize,
        out: *mut f64,
        out_len: usize,
        answer: *mut u32,
        answer_len: usize,
        costs: *mut f32,
        costs_len: usize,
    ) -> u32;

    pub fn pgo_decide(
        limit: u32,
        tolerance: f32,
        cost: f32,
        damping: f32,
        events: *const u32,
        events_len: usize,
        prices: *const f32,
        prices_len: usize,
        answer: *mut u32,
        answer_len: usize,
        costs: *mut f32,
        costs_len: usize,
    ) -> u32;

    pub fn pgo_narrow(x: f64) -> f32;

    pub fn pgo_sqrt32(x: f32) -> f32;

    pub fn pgo_sqrt64(x: f64) -> f64;

    pub fn pgo_quaternion_of_matrix(
        m: *const f32,
        m_len: usize,
        out: *mut f32,
        out_len: usize,
    ) -> u32;

    pub fn pgo_product(
        a: *const f32,
        a_len: usize,
        b: *const f32,
        b_len: usize,
        out: *mut f32,
        out_len: usize,
    ) -> u32;

    pub fn pgo_inverse(a: *const f32, a_len: usize, out: *mut f32, out_len: usize) -> u32;

    pub fn pgo_exp(delta: *const f32, delta_len: usize, out: *mut f32, out_len: usize) -> u32;

    pub fn pgo_log(t: *const f32, t_len: usize, out: *mut f32, out_len: usize) -> u32;

    pub fn pgo_retract(
        pose: *const f64,
        pose_len: usize,
        delta: *const f32,
        delta_len: usize,
        out: *mut f64,
        out_len: usize,
    ) -> u32;

    pub fn pgo_retract_with_gravity(
        g: *const f64,
        g_len: usize,
        pose: *const f64,
        pose_len: usize,
        delta: *const f32,
        delta_len: usize,
        out: *mut f64,
        out_len: usize,
    ) -> u32;

    pub fn pgo_residual(
        a: *const f64,
        a_len: usize,
        b: *const f64,
        b_len: usize,
        edge: *const f32,
        edge_len: usize,
        out: *mut f32,
        out_len: usize,
    ) -> u32;

    pub fn pgo_solve(work: *mut f32, work_len: usize, n: u32, damping: f32) -> u32;

    pub fn pgo_assemble(
        dof: u32,
        gravity: *const f64,
        gravity_len: usize,
        poses: *const f64,
        poses_len: usize,
        ends: *const u32,
        ends_len: usize,
        edges: *const f32,
        edges_len: usize,
        fixed: *const u32,
        fixed_len: usize,
        work: *mut f32,
        work_len: usize,
    ) -> u32;

    pub fn pgo_read_job(
        bytes: *const u8,
        bytes_len: usize,
        poses: *mut u64,
        poses_len: usize,
        ends: *mut u32,
        ends_len: usize,
        edges: *mut u32,
        edges_len: usize,
        fixed: *mut u32,
        fixed_len: usize,
        answer: *mut u32,
        answer_len: usize,
    ) -> u32;

    pub fn pgo_write_job(
        limit: u32,
        cost_tolerance: u32,
        gradient_tolerance: u32,
        damping: u32,
        poses: *const u64,
        poses_len: usize,
        ends: *const u32,
        ends_len: usize,
        edges: *const u32,
        edges_len: usize,
        fixed: *const u32,
        fixed_len: usize,
        out: *mut u8,
        out_len: usize,
        answer: *mut u32,
        answer_len: usize,
    ) -> u32;

    pub fn pgo_close_loops(
        ids: *const u32,
        ids_len: usize,
        poses: *const f64,
        poses_len: usize,
        loops: *const u32,
        loops_len: usize,
        loop_poses: *const f64,
        loop_poses_len: usize,
        weight: f32,
        gravity: *const f64,
        gravity_len: usize,
        limit: u32,
        cost_tolerance: f32,
        gradient_tolerance: f32,
        damping: f32,
        work32: *mut f32,
        work32_len: usize,
        work64: *mut f64,
        work64_len: usize,
        original: *mut f64,
        original_len: usize,
        out: *mut f64,
        out_len: usize,
        answer: *mut u32,
        answer_len: usize,
        costs: *mut f32,
        costs_len: usize,
        measures: *mut f64,
        measures_len: usize,
    ) -> u32;

    pub fn pgo_float_text(x: f64, out: *mut u8, out_len: usize) -> u32;
}
