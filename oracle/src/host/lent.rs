//! A slice lent to a call, between margins that no call may touch.

const MARGIN: usize = 8;

#[allow(dead_code)] // not every feature lends a mutable slice
pub struct Lent<T>(Vec<T>);

#[allow(dead_code)]
impl<T: Copy + PartialEq> Lent<T> {
    pub fn new(numbers: &[T], margin: T) -> Self {
        let edge = [margin; MARGIN];
        Lent([&edge, numbers, &edge].concat())
    }

    pub fn numbers(&mut self) -> &mut [T] {
        let end = self.0.len() - MARGIN;
        &mut self.0[MARGIN..end]
    }

    /// Hands the numbers back. Writing past a slice is no difference to count: nothing holds then.
    pub fn back(mut self, margin: T) -> Vec<T> {
        let end = self.0.len() - MARGIN;
        let kept = self.0[..MARGIN].iter().chain(&self.0[end..]).all(|&number| number == margin);
        assert!(kept, "the call wrote outside a lent slice");
        self.0.truncate(end);
        self.0.drain(..MARGIN);
        self.0
    }
}
