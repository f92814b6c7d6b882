//! What the sources use of the toolchain's library, over Rust's. Allocation never fails here.
//! Snapshots, ledgers and brands exist only in proofs, so they are empty.
pub mod alloc {
    #[derive(Clone, Copy, Debug)]
    pub struct Global;
    #[derive(Clone, Copy, Debug, PartialEq, Eq)]
    pub struct AllocError;
    impl From<AllocError> for std::io::Error {
        fn from(_: AllocError) -> std::io::Error {
            std::io::ErrorKind::OutOfMemory.into()
        }
    }
}
pub mod marker {
    pub use std::marker::*;
    pub struct Brand;
    pub trait Model {}
}
pub mod snapshot {
    pub struct Snapshot<T>(std::marker::PhantomData<T>);
    impl<T> Snapshot<T> {
        pub fn of(_: &T) -> Self {
            Snapshot(std::marker::PhantomData)
        }
    }
    impl<T> Clone for Snapshot<T> {
        fn clone(&self) -> Self {
            *self
        }
    }
    impl<T> Copy for Snapshot<T> {}
}
pub mod sync {
    pub mod ledger {
        use std::marker::PhantomData;
        pub trait Ledger {}
        impl Ledger for crate::marker::Brand {}
        pub struct Blank;
        pub struct Book<L>(PhantomData<L>);
        pub struct Share<L>(PhantomData<L>);
        impl Blank {
            pub fn new(_: u64) -> Blank {
                Blank
            }
            pub fn open<L>(self) -> (Book<L>, Share<L>) {
                (Book(PhantomData), Share(PhantomData))
            }
        }
        impl<L> Book<L> {
            pub fn add(&mut self, _: &mut Share<L>, _: u64) {}
        }
    }
}
pub mod cmp {
    pub use std::cmp::*;
}
pub mod mem {
    pub use std::mem::*;
}
pub mod process {
    pub use std::process::ExitCode;
}
pub mod str {
    pub use std::str::*;
}
pub mod collections {
    pub use crate::heap::BinaryHeap;
}
pub mod lists {
    /// A list that is passed from C.
    pub unsafe fn behind<'a, T>(first: *const T, count: usize) -> &'a [T] {
        if count == 0 {
            &[]
        } else {
            unsafe { std::slice::from_raw_parts(first, count) }
        }
    }
    pub unsafe fn behind_mut<'a, T>(first: *mut T, count: usize) -> &'a mut [T] {
        if count == 0 {
            &mut []
        } else {
            unsafe { std::slice::from_raw_parts_mut(first, count) }
        }
    }
}
pub mod env;
mod heap;
pub mod io;
mod string;
mod vec;

pub mod prelude {
    use crate::alloc::AllocError;
    pub use crate::alloc::Global;
    pub use crate::string::String;
    pub use crate::vec::Vec;
    pub use crate::{format_in, println_in, vec_in};
    pub use std::mem::size_of;

    /// What may be dropped: everything.
    pub trait Drop {}
    impl<T: ?Sized> Drop for T {}

    /// Copies that allocate.
    pub trait Clone: Sized {
        fn clone(&self) -> Result<Self, AllocError>;
    }
    impl<T: Copy> Clone for T {
        fn clone(&self) -> Result<T, AllocError> {
            Ok(*self)
        }
    }

    /// `collect` of the toolchain, which is passed an allocator.
    pub trait CollectIn: Iterator + Sized {
        fn collect_in(self, _: Global) -> Result<Vec<Self::Item>, AllocError> {
            Ok(Vec(Iterator::collect(self)))
        }
    }
    impl<I: Iterator> CollectIn for I {}

    /// `Box::new` of the toolchain.
    pub fn boxed<T>(_: Global, value: T) -> Result<Box<T>, AllocError> {
        Ok(Box::new(value))
    }

    /// Whoever runs a program.
    #[derive(Clone, Copy)]
    pub struct HostRuntime;
    impl HostRuntime {
        pub fn alloc(&self) -> Global {
            Global
        }
        pub fn reader(&self) -> std::io::Stdin {
            std::io::stdin()
        }
    }
}

#[macro_export]
macro_rules! vec_in {
    (in $alloc:expr; $value:expr; $count:expr) => {
        $crate::prelude::Vec::filled($value, $count)
    };
    (in $alloc:expr; $($value:expr),* $(,)?) => {
        $crate::prelude::Vec::of_array([$($value),*])
    };
}

#[macro_export]
macro_rules! format_in {
    (in $alloc:expr; $($rest:tt)*) => {
        $crate::prelude::String::formatted(::std::format!($($rest)*))
    };
}

#[macro_export]
macro_rules! println_in {
    ($rt:expr; $($rest:tt)*) => {{
        ::std::println!($($rest)*);
        Ok::<(), $crate::io::Error>(())
    }};
}
