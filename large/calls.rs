//! The calls of the library `exports`, as a Rust program sees them: a slice passes as a pointer and then a length.

use crate::cases::{Case, Ending, Penalty};

#[link(name = "exports", kind = "static")]
extern "C" {
    fn koyramutey_prepare_dense(
        n: usize, p: usize, values: *const f64, values_len: usize, y: *const f64, y_len: usize,
        prepared: *mut f64, prepared_len: usize, place: *mut usize,
    ) -> u32;
    fn koyramutey_prepare_csc(
        n: usize, p: usize, starts: *const u32, starts_len: usize, rows: *const u32, rows_len: usize,
        values: *const f64, values_len: usize, y: *const f64, y_len: usize,
        prepared: *mut f64, prepared_len: usize, place: *mut usize,
    ) -> u32;
    fn koyramutey_solve_dense(
        n: usize, p: usize, values: *const f64, values_len: usize, y: *const f64, y_len: usize, prepared: *const f64, prepared_len: usize,
        penalty: u32, alpha: f64, second: f64, tolerance: f64, start: usize, iterations: usize, epochs: usize, extrapolate: u32, depth: usize,
        w: *mut f64, w_len: usize, fit: *mut f64, fit_len: usize, indices: *mut u32, indices_len: usize, scratch: *mut f64, scratch_len: usize,
        status: *mut u32, violation: *mut f64, sets: *mut usize, passes: *mut usize, accepted: *mut usize, place: *mut usize,
    ) -> u32;
    fn koyramutey_solve_csc(
        n: usize, p: usize, starts: *const u32, starts_len: usize, rows: *const u32, rows_len: usize,
        values: *const f64, values_len: usize, y: *const f64, y_len: usize, prepared: *const f64, prepared_len: usize,
        penalty: u32, alpha: f64, second: f64, tolerance: f64, start: usize, iterations: usize, epochs: usize, extrapolate: u32, depth: usize,
        w: *mut f64, w_len: usize, fit: *mut f64, fit_len: usize, indices: *mut u32, indices_len: usize, scratch: *mut f64, scratch_len: usize,
        status: *mut u32, violation: *mut f64, sets: *mut usize, passes: *mut usize, accepted: *mut usize, place: *mut usize,
    ) -> u32;
    fn koyramutey_walk_dense(
        n: usize, p: usize, values: *const f64, values_len: usize, y: *const f64, y_len: usize, alphas: *const f64, alphas_len: usize,
        prepared: *mut f64, prepared_len: usize, penalty: u32, second: f64, tolerance: f64,
        start: usize, iterations: usize, epochs: usize, extrapolate: u32, depth: usize, most: usize,
        w: *mut f64, w_len: usize, fit: *mut f64, fit_len: usize, indices: *mut u32, indices_len: usize, scratch: *mut f64, scratch_len: usize,
        status: *mut u32, violation: *mut f64, sets: *mut usize, passes: *mut usize, accepted: *mut usize,
        position: *mut usize, place: *mut usize,
    ) -> u32;
    fn koyramutey_walk_csc(
        n: usize, p: usize, starts: *const u32, starts_len: usize, rows: *const u32, rows_len: usize,
        values: *const f64, values_len: usize, y: *const f64, y_len: usize, alphas: *const f64, alphas_len: usize,
        prepared: *mut f64, prepared_len: usize, penalty: u32, second: f64, tolerance: f64,
        start: usize, iterations: usize, epochs: usize, extrapolate: u32, depth: usize, most: usize,
        w: *mut f64, w_len: usize, fit: *mut f64, fit_len: usize, indices: *mut u32, indices_len: usize, scratch: *mut f64, scratch_len: usize,
        status: *mut u32, violation: *mut f64, sets: *mut usize, passes: *mut usize, accepted: *mut usize,
        position: *mut usize, place: *mut usize,
    ) -> u32;
    fn koyramutey_working_set(
        violations: *const f64, violations_len: usize, w: *const f64, w_len: usize, start: usize,
        indices: *mut u32, indices_len: usize, size: *mut usize, place: *mut usize,
    ) -> u32;
}

/// What is lent to a solve, and to a walk.
pub struct Buffers<'a> {
    pub w: &'a mut [f64],
    pub fit: &'a mut [f64],
    pub indices: &'a mut [u32],
    pub scratch: &'a mut [f64],
}

/// An empty slice passes as a null pointer.
fn pointer<T>(slice: &[T]) -> *const T {
    if slice.is_empty() { std::ptr::null() } else { slice.as_ptr() }
}

fn pointer_mut<T>(slice: &mut [T]) -> *mut T {
    if slice.is_empty() { std::ptr::null_mut() } else { slice.as_mut_ptr() }
}

/// What the numbers behind the pointers hold before a call: none that a call which takes its input leaves there.
const BEFORE: usize = 0xdead_beef;
const STATUS_BEFORE: u32 = 0xdead_beef;
const VIOLATION_BEFORE: f64 = -7.25e77;

fn code_of(penalty: Penalty) -> u32 {
    match penalty {
        Penalty::L1 => 0,
        Penalty::L1PlusL2 => 1,
        Penalty::Mcp => 2,
    }
}

/// Asks the call of the case's layout. Both begin with the design and the targets; a dense design passes neither starts nor rows.
macro_rules! ask {
    ($case:ident, $dense:ident, $csc:ident, $($other:expr),+ $(,)?) => {{
        let (n, p) = ($case.n as usize, $case.p as usize);
        let (starts, rows, values, y) = (&$case.starts, &$case.rows, &$case.values, &$case.targets);
        if $case.csc {
            unsafe {
                $csc(
                    n, p, pointer(starts), starts.len(), pointer(rows), rows.len(), pointer(values), values.len(), pointer(y), y.len(),
                    $($other),+
                )
            }
        } else {
            unsafe { $dense(n, p, pointer(values), values.len(), pointer(y), y.len(), $($other),+) }
        }
    }};
}

/// None where the prepared numbers are in the buffer then; otherwise the refusal's number and place.
pub fn prepare(case: &Case, prepared: &mut [f64]) -> Option<(u32, u64)> {
    let mut place = BEFORE;
    let number = ask!(case, koyramutey_prepare_dense, koyramutey_prepare_csc, pointer_mut(prepared), prepared.len(), &mut place);
    assert!(number != 0 || place == 0, "a place without a refusal");
    (number != 0).then_some((number, place as u64))
}

/// The numbers that a solve writes to; a walk writes to the position too.
struct Told {
    status: u32,
    violation: f64,
    counts: [usize; 3],
    position: usize,
    place: usize,
}

impl Told {
    fn nothing() -> Told {
        Told { status: STATUS_BEFORE, violation: VIOLATION_BEFORE, counts: [BEFORE; 3], position: BEFORE, place: BEFORE }
    }

    /// Of the call that answered this number and left these.
    fn ending(self, number: u32, case: &Case, w: &[f64], fit: &[f64]) -> Ending {
        let Told { status, violation, counts, position, place } = self;
        if number != 0 {
            let left = (status, violation, counts, position);
            assert_eq!(left, (STATUS_BEFORE, VIOLATION_BEFORE, [BEFORE; 3], BEFORE), "a refusal wrote to the report");
            return Ending::Refused { number, place: place as u64 };
        }
        assert_eq!(place, 0, "a place without a refusal");
        let (weights, fit) = (w[..case.p as usize].to_vec(), fit[..case.n as usize].to_vec());
        Ending::Fitted { status, violation, counts: counts.map(|count| count as u64), weights, fit }
    }
}

pub fn solve(case: &Case, prepared: &[f64], lent: Buffers) -> Ending {
    let (s, mut told, Buffers { w, fit, indices, scratch }) = (&case.settings, Told::nothing(), lent);
    let Told { status, violation, counts: [sets, passes, accepted], place, .. } = &mut told;
    let number = ask!(
        case, koyramutey_solve_dense, koyramutey_solve_csc, pointer(prepared), prepared.len(),
        code_of(s.penalty), s.alpha, s.second, s.tolerance,
        s.start as usize, s.iterations as usize, s.epochs as usize, u32::from(s.extrapolate), s.depth as usize,
        pointer_mut(w), w.len(), pointer_mut(fit), fit.len(), pointer_mut(indices), indices.len(), pointer_mut(scratch), scratch.len(),
        status, violation, sets, passes, accepted, place,
    );
    told.ending(number, case, w, fit)
}

/// The position in the list, where the walk is not refused, and how it ended. The settings' alpha is not passed.
pub fn walk(case: &Case, alphas: &[f64], most: usize, prepared: &mut [f64], lent: Buffers) -> (Option<usize>, Ending) {
    let (s, mut told, Buffers { w, fit, indices, scratch }) = (&case.settings, Told::nothing(), lent);
    let Told { status, violation, counts: [sets, passes, accepted], position, place } = &mut told;
    let number = ask!(
        case, koyramutey_walk_dense, koyramutey_walk_csc, pointer(alphas), alphas.len(), pointer_mut(prepared), prepared.len(),
        code_of(s.penalty), s.second, s.tolerance,
        s.start as usize, s.iterations as usize, s.epochs as usize, u32::from(s.extrapolate), s.depth as usize, most,
        pointer_mut(w), w.len(), pointer_mut(fit), fit.len(), pointer_mut(indices), indices.len(), pointer_mut(scratch), scratch.len(),
        status, violation, sets, passes, accepted, position, place,
    );
    ((number == 0).then_some(told.position), told.ending(number, case, w, fit))
}

/// The size of the set, which is in the index places then; or the refusal's number and place.
pub fn working_set(violations: &[f64], w: &[f64], start: usize, indices: &mut [u32]) -> Result<usize, (u32, usize)> {
    let (mut size, mut place) = (BEFORE, BEFORE);
    let number = unsafe {
        koyramutey_working_set(
            pointer(violations), violations.len(), pointer(w), w.len(), start,
            pointer_mut(indices), indices.len(), &mut size, &mut place,
        )
    };
    if number != 0 {
        assert_eq!(size, BEFORE, "a refusal wrote a size");
        return Err((number, place));
    }
    assert_eq!(place, 0, "a place without a refusal");
    Ok(size)
}
