//! Stub of the trapframe: the user registers that the carried files name, and the rest of xv6's.

#[repr(C)]
pub struct Trapframe {
    pub kernel_satp: usize,
    pub kernel_sp: usize,
    pub kernel_trap: usize,
    pub epc: usize,
    pub kernel_hartid: usize,
    pub ra: usize,
    pub sp: usize,
    pub gp: usize,
    pub tp: usize,
    pub t: [usize; 7],
    pub s: [usize; 12],
    pub a0: usize,
    pub a: [usize; 7],
}
