//! The calls as they are: the areas are slices, and the answer is the number given back.
//!
//! A slice is never NULL with a length, and a slice that is written to overlaps no other: what the library asks of its
//! callers holds by Rust's own rules.
//!
//! The constants are the header's limits, and its lengths in bytes, without their prefix.

/// Each line is a call without its prefix: the order of its areas and numbers is that of include/gindrazoma.h. It becomes
/// the declaration of `gindrazoma_NAME`, in which an area is a pointer and a length, and a safe function over slices.
macro_rules! calls {
    ($(fn $name:ident($($parameter:tt)*);)*) => { $(calls! { @ $name [$($parameter)*] [] [] $($parameter)*, })* };
    // one parameter after the other: C's types for it, and what is handed over
    (@ $name:ident $all:tt [$($type:tt)*] [$($value:tt)*] $area:ident: &[u8], $($rest:tt)*) => {
        calls! { @ $name $all [$($type)* *const u8, usize,] [$($value)* $area.as_ptr(), $area.len(),] $($rest)* }
    };
    (@ $name:ident $all:tt [$($type:tt)*] [$($value:tt)*] $area:ident: &mut [u8], $($rest:tt)*) => {
        calls! { @ $name $all [$($type)* *mut u8, usize,] [$($value)* $area.as_mut_ptr(), $area.len(),] $($rest)* }
    };
    (@ $name:ident $all:tt [$($type:tt)*] [$($value:tt)*] $number:ident: $width:ident, $($rest:tt)*) => {
        calls! { @ $name $all [$($type)* $width,] [$($value)* $number,] $($rest)* }
    };
    (@ $name:ident [$($parameter:tt)*] [$($type:ty,)*] [$($value:expr,)*]) => {
        #[inline]
        pub fn $name($($parameter)*) -> i32 {
            extern "C" {
                #[link_name = concat!("gindrazoma_", stringify!($name))]
                fn call($(_: $type),*) -> i32;
            }
            // SAFETY: each area is a slice of its length.
            unsafe { call($($value),*) }
        }
    };
}

pub const JOBS_MAX: usize = 24;
pub const RULES_MAX: usize = 252;
pub const AFTER_MAX: usize = 4;
pub const JOB_NORM_MAX: usize = 512;
pub const PLAN_NORM_MAX: usize = 4096;
pub const PAIRS_MAX: usize = 32;
pub const LOG_MAX: usize = 128;
pub const IMAGE_MAX: usize = 2048;
pub const WORKSPACE: usize = 65536;
pub const RULE_BYTES: usize = 8;
pub const MOVE_BYTES: usize = 2;
pub const PAIR_BYTES: usize = 4;
pub const BLOCK_BYTES: usize = 512;
pub const RULE_LIST_MAX: usize = 2016;
pub const READ_MAX: usize = 2017;
pub const RUN_MAX: usize = 8192;
pub const MOVE_MAX: usize = 4101;
pub const FORM_MAX: usize = 4096;

calls! {
    fn read_image(image: &[u8], out: &mut [u8]);
    fn write_image(jobs: u32, rules: &[u8], out: &mut [u8]);
    fn plan_norm(image: &[u8], plan: &[u8]);
    fn shortest_run(image: &[u8], plan: &[u8], out: &mut [u8]);
    fn nth_move(image: &[u8], plan: &[u8], index: u32, out: &mut [u8]);
    fn compare(image: &[u8], left: &[u8], right: &[u8], space: &mut [u8]);
    fn prime_form(image: &[u8], plan: &[u8], out: &mut [u8], space: &mut [u8]);
    fn compare_alike(image: &[u8], alike: &[u8], left: &[u8], right: &[u8], space: &mut [u8]);
    fn prime_form_alike(image: &[u8], alike: &[u8], plan: &[u8], out: &mut [u8], space: &mut [u8]);
    fn replay_log(image: &[u8], alike: &[u8], plan: &[u8], log: &[u8], space: &mut [u8]);
    fn deterministic(image: &[u8], alike: &[u8]);
    fn plan_growth(image: &[u8], plan: &[u8]);
    fn compare_tables(left_image: &[u8], right_image: &[u8], alike: &[u8], left: &[u8], right: &[u8], space: &mut [u8]);
}
