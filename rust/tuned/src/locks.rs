//! A lock: who holds and who retains it, in any mode and in write mode.

#[derive(Clone, Copy, Default)]
pub struct Lock {
    pub held: u32,
    pub held_writing: u32,
    retained: u32,
    retained_writing: u32,
}

impl Lock {
    /// No other holder and no retainer off the asker's line bars it: any of them from writing, those in
    /// write mode from reading.
    pub fn allows(&self, t: usize, line: u32, read: bool) -> bool {
        let (held, retained) =
            if read { (self.held_writing, self.retained_writing) } else { (self.held, self.retained) };
        held & !(1 << t) | retained & !line == 0
    }

    /// The parent retains what the child held or retained, in the stronger mode.
    pub fn hand_up(&mut self, child: usize, parent: usize) {
        self.retained |= ((self.held | self.retained) >> child & 1) << parent;
        self.retained_writing |= ((self.held_writing | self.retained_writing) >> child & 1) << parent;
    }

    /// These have nothing of it any more.
    pub fn discard(&mut self, gone: u32) {
        self.held &= !gone;
        self.held_writing &= !gone;
        self.retained &= !gone;
        self.retained_writing &= !gone;
    }
}
