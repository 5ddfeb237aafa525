//! Stub of the file system: nothing is stored, so nothing can fail or block.

#[derive(Clone)]
pub struct VFile;

pub struct FileType;

#[derive(Clone)]
pub struct Inode;

pub struct SuperBlock;

/// As large as on the disk, since a constant divides by its size.
pub struct DiskInode {
    _bytes: [u8; 64],
}

pub struct InodeCache;

pub static ICACHE: InodeCache = InodeCache;

impl InodeCache {
    pub fn namei(&self, _path: &[u8]) -> Option<Inode> {
        Some(Inode)
    }
}

pub struct Log;

pub static LOG: Log = Log;

impl Log {
    pub fn begin_op(&self) {}

    pub fn end_op(&self) {}
}
