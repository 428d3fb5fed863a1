//! Tests of a table of rows, one for each reading.

/// A test by each name that calls `holds` with its number, and one that every
/// number up to `READINGS` is there.
#[macro_export]
macro_rules! readings {
    ($($name:ident $number:literal)*) => {
        $(
            #[test]
            fn $name() {
                holds($number);
            }
        )*

        #[test]
        fn every_reading_is_tried() {
            assert!([$($number),*].into_iter().eq(1..=READINGS));
        }
    };
}
