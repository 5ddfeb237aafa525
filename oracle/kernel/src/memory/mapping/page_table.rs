//! Stub of the page tables: nothing is mapped. Each question that document 01 gives to the host is
//! answered by the host's answers; everything else succeeds.

use super::PteFlags;
use crate::machine::host;
use crate::memory::{PhysicalAddress, VirtualAddress};
use alloc::boxed::Box;

pub struct PageTable;

pub static mut KERNEL_PAGETABLE: PageTable = PageTable;

impl PageTable {
    pub unsafe fn uvmcreate() -> Box<PageTable> {
        Box::new(PageTable)
    }

    pub unsafe fn map(
        &mut self,
        _va: VirtualAddress,
        _pa: PhysicalAddress,
        _size: usize,
        _flags: PteFlags,
    ) -> bool {
        true
    }

    pub unsafe fn kernel_map(
        &mut self,
        _va: VirtualAddress,
        _pa: PhysicalAddress,
        _size: usize,
        _flags: PteFlags,
    ) {
    }

    pub unsafe fn uvm_init(&mut self, _code: &[u8]) {}

    pub fn uvm_free(&mut self, _size: usize) {}

    pub fn uvm_unmap(&mut self, _va: VirtualAddress, _pages: usize, _free: bool) {}

    pub fn proc_free_pagetable(&mut self, _size: usize) {}

    pub fn free_shared_user_pagetable(&mut self, _size: usize) {}

    pub fn pgt_translate(&mut self, _va: VirtualAddress) -> Option<PhysicalAddress> {
        host::mapped().then_some(PhysicalAddress::new(0))
    }

    pub unsafe fn uvm_alloc(&mut self, _old_size: usize, new_size: usize) -> Option<usize> {
        host::memory_had().then_some(new_size)
    }

    pub fn uvm_dealloc(&mut self, _old_size: usize, new_size: usize) -> usize {
        new_size
    }

    pub unsafe fn uvm_copy(&mut self, _child: &mut PageTable, _size: usize) -> Result<(), ()> {
        host::memory_had().then_some(()).ok_or(())
    }

    // The carried callers call it so.
    #[allow(clippy::not_unsafe_ptr_arg_deref)]
    pub fn copy_out(&mut self, dst: usize, src: *const u8, len: usize) -> Result<(), &'static str> {
        // SAFETY: the carried callers pass a live number and its size.
        host::store(dst, unsafe { core::slice::from_raw_parts(src, len) })
    }

    pub fn copy_in(&mut self, _dst: *mut u8, _src: usize, _len: usize) -> Result<(), &'static str> {
        Err("no user memory on a host")
    }
}
