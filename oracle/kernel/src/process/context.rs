//! Stub of the saved registers. `ra` and `sp` are what the kernel wrote; where the context really
//! goes on is `saved`, a stack pointer of the host.

#[repr(C)]
pub struct Context {
    ra: usize,
    sp: usize,
    saved: usize,
}

impl Context {
    pub const fn new() -> Self {
        Self {
            ra: 0,
            sp: 0,
            saved: 0,
        }
    }

    pub fn write_zero(&mut self) {
        *self = Self::new();
    }

    pub fn write_ra(&mut self, ra: usize) {
        self.ra = ra;
    }

    pub fn write_sp(&mut self, sp: usize) {
        self.sp = sp;
    }

    /// The function at which a fresh context starts.
    pub fn first_pc(&self) -> usize {
        self.ra
    }

    /// The stack pointer that the kernel gave a fresh context.
    pub fn first_sp(&self) -> usize {
        self.sp
    }

    /// 0 until the context has been left once.
    pub fn saved(&self) -> usize {
        self.saved
    }

    pub fn saved_mut(&mut self) -> *mut usize {
        &mut self.saved
    }
}
