//! For tests that hold on both boards.

/// Runs each of these tests, which are generic over the board, on the base board and on the wide one.
macro_rules! on_each_board {
    ($($test:ident),* $(,)?) => {
        mod base {
            $(#[test]
            fn $test() {
                super::$test::<super::Base>();
            })*
        }

        mod wide {
            $(#[test]
            fn $test() {
                super::$test::<super::Wide>();
            })*
        }
    };
}
