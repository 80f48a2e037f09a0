//! Answers that are not the wanted ones.

/// How many answers differ from the wanted ones; the first is shown.
#[derive(Default)]
pub struct Differ(pub u64);

impl Differ {
    /// One more differs, unless it is the same.
    pub fn unless(&mut self, same: bool, what: impl FnOnce() -> String) {
        if !same {
            self.0 += 1;
            if self.0 == 1 {
                println!("differs: {}", what());
            }
        }
    }
}
