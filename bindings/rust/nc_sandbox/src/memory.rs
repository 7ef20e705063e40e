//! Whose memory a box has.

mod sealed {
    pub trait Sealed {}
}

/// Whose memory a box has: [`Own`] or [`Common`].
pub trait Memory: sealed::Sealed + 'static {}

/// The memory of a box that has it alone. While nobody calls the box, nothing changes there, so ranges of it can be borrowed.
#[derive(Debug)]
pub enum Own {}

/// Memory that boxes beside one another have in common. The code in one of them may change it at any moment, while another thread has
/// another one. So nobody borrows a range of it. What is read and written is copied.
#[derive(Debug)]
pub enum Common {}

impl sealed::Sealed for Own {}
impl sealed::Sealed for Common {}
impl Memory for Own {}
impl Memory for Common {}
