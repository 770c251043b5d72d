//! Memory lent to a call, with guards: elements before and after that the call has no business with.

pub struct Lent<T> {
    before: Vec<T>,
    memory: Vec<T>,
    start: usize,
    length: usize,
}

impl<T: Copy + Eq> Lent<T> {
    /// These contents between two copies of the guard.
    pub fn new(contents: &[T], guard: &[T]) -> Lent<T> {
        let memory = [guard, contents, guard].concat();
        Lent { before: memory.clone(), memory, start: guard.len(), length: contents.len() }
    }

    /// Where the contents start. The pointer may be used for the guards too, so that a call that writes there is found
    /// out and nothing else breaks. It is not null for empty contents.
    pub fn pointer(&mut self) -> *mut T {
        self.memory.as_mut_ptr().wrapping_add(self.start)
    }

    pub fn length(&self) -> usize {
        self.length
    }

    pub fn contents(&self) -> &[T] {
        &self.memory[self.start..self.start + self.length]
    }

    /// The whole memory with its guards.
    pub fn memory(&mut self) -> &mut [T] {
        &mut self.memory
    }

    pub fn contents_kept(&self) -> bool {
        let end = self.start + self.length;
        self.memory[self.start..end] == self.before[self.start..end]
    }

    pub fn guards_kept(&self) -> bool {
        let end = self.start + self.length;
        self.memory[..self.start] == self.before[..self.start] && self.memory[end..] == self.before[end..]
    }
}
