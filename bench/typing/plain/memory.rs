// What stands for the allocator, which can't fail here.

#[derive(Debug)]
pub struct AllocError;

#[derive(Clone, Copy)]
pub struct Global;
