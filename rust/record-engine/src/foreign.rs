//! The functions of the static library (`include/record_engine.h`). Each is behind a safe
//! function of the same name, which takes slices. Only this file has `unsafe` code.

use crate::rows::Row;

/// The type of a slice's elements: `u8` unless another type is named.
macro_rules! element {
    () => {
        u8
    };
    ($element:ident) => {
        $element
    };
}

/// Declares functions of the library by their parameters, in the order of C. A parameter is a
/// number, a slice that is read, or a slice that is written. A slice holds bytes, or elements of
/// the type behind `as`. In C a slice is a pointer to its first element and the number of its
/// elements.
macro_rules! functions {
    ($($name:ident($(
        $(number $number:ident)?
        $(read $input:ident $(as $read:ident)?)?
        $(write $output:ident $(as $written:ident)?)?
    ),*);)*) => {
        mod library {
            use super::Row;

            unsafe extern "C" {
                $(pub fn $name($(
                    $($number: usize,)?
                    $($input: *const element!($($read)?), _: usize,)?
                    $($output: *mut element!($($written)?), _: usize,)?
                )*) -> u64;)*
            }
        }

        $(pub fn $name($(
            $($number: usize,)?
            $($input: &[element!($($read)?)],)?
            $($output: &mut [element!($($written)?)],)?
        )*) -> u64 {
            // SAFETY: the pointers and lengths are those of slices that live through the call.
            // A slice that is written is borrowed mutably, so it overlaps no other. The function
            // is proved to stay inside the slices and to keep none. `Row` has the layout of C.
            unsafe {
                library::$name($(
                    $($number,)?
                    $($input.as_ptr(), $input.len(),)?
                    $($output.as_mut_ptr(), $output.len(),)?
                )*)
            }
        })*
    };
}

functions! {
    record_check_table(number n, read table);
    record_rewrite(number n, read table, read bytes, write output);
    record_order(number n, read table, read first, read second);
    record_generalize(number n, read table, read first, read second, write output);
    record_unify(number n, read table, read first, read second, write output);
    record_difference(number n, read table, read general, read specific, write output);
    record_rewrite_appropriate(number n, read table, read list, read bytes, write output);
    record_generalize_appropriate(number n, read table, read list, read first, read second, write output);
    record_unify_appropriate(number n, read table, read list, read first, read second, write output);
    record_difference_explained(number n, read table, read general, read specific, write output, write reasons);
    record_difference_by(number n, read table, read list, read general, read specific, write output);
    record_difference_explained_by(number n, read table, read list, read general, read specific, write output, write reasons);
    record_next(number n, read table, number features, read record, write output);
    record_import(number n, read table, read rows as Row, read nodes, write output);
    record_export(number n, read table, read bytes, write rows as Row, write nodes);
    record_gathering_begin(number n, read table, write gathering);
    record_gathering_add(write gathering, read bytes);
    record_gathering_order(read gathering, read bytes);
    record_gathering_finish(read gathering, write output);
    record_store_put(number n, read table, write store, number version, read record);
    record_store_read(number n, read table, read store, number version, write output);
    record_store_drop(number n, read table, write store, number version);
    record_house_table(write output);
}
