//! Cuts a failing input down (delta debugging: Zeller and Hildebrandt, 2002).

/// So often is a smaller input tried.
const TRIALS_MAX: u32 = 3_000;

/// The input with pieces left out, as many as can be while it still fails.
pub fn shrink<T: Clone>(mut pieces: Vec<T>, mut fails: impl FnMut(&[T]) -> bool) -> Vec<T> {
    let mut trials = 0;
    let mut width = pieces.len().div_ceil(2);
    while width > 0 {
        let before = pieces.len();
        // From the end: most of what comes after the fault goes at once.
        let mut end = before;
        while end > 0 && trials < TRIALS_MAX {
            trials += 1;
            let start = end.saturating_sub(width);
            let mut fewer = pieces.clone();
            fewer.drain(start..end);
            if fails(&fewer) {
                pieces = fewer;
            }
            end = start;
        }
        // Single pieces are tried again until none can go.
        if width > 1 || pieces.len() == before {
            width /= 2;
        }
    }
    pieces
}
