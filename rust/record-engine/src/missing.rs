//! This file is compiled only if the static library is missing, so that nothing can be linked.
//! If this package is compiled to code, the compiler then stops and tells what to do. To check
//! types or to make the documentation, the library is not needed.

/// The compiler evaluates the constant only when it makes code for a use of this function.
fn stop<T>(_: T) {
    const { panic!("{}", env!("ARCHIVE_MISSING")) }
}

/// A use of the function.
#[used]
static STOP: fn(()) = stop::<()>;
