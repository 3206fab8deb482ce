//! The library's codes and exports, as `arrow2_proved.h` declares them.

pub const ARROW2_OK: u32 = 0;
pub const ARROW2_LENGTH: u32 = 2;
pub const ARROW2_OVERFLOW: u32 = 3;
pub const ARROW2_MEMORY: u32 = 4;
pub const ARROW2_SPEC_EMPTY: u32 = 5;
pub const ARROW2_SPEC_NEGATIVE: u32 = 6;
pub const ARROW2_SPEC_FALLING: u32 = 7;
pub const ARROW2_NULLS: u32 = 8;
pub const ARROW2_PAST: u32 = 9;
pub const ARROW2_UTF8: u32 = 10;
pub const ARROW2_INDEX: u32 = 11;

unsafe extern "C" {
    pub fn arrow2_count_zeros(bytes: *const u8, count: usize, offset: usize, length: usize, zeros: *mut usize) -> u32;
    pub fn arrow2_equal_bits(
        left: *const u8,
        left_len: usize,
        left_offset: usize,
        right: *const u8,
        right_len: usize,
        right_offset: usize,
        length: usize,
        equal: *mut bool,
    ) -> u32;
    pub fn arrow2_get_bit(bytes: *const u8, count: usize, index: usize, value: *mut bool) -> u32;
    pub fn arrow2_set_bit(bytes: *mut u8, count: usize, index: usize, value: bool) -> u32;
    pub fn arrow2_copy_bits(
        bytes: *const u8,
        count: usize,
        offset: usize,
        length: usize,
        out: *mut u8,
        out_len: usize,
    ) -> u32;
    pub fn arrow2_unary_table(
        bytes: *const u8,
        count: usize,
        offset: usize,
        length: usize,
        table: u16,
        out: *mut u8,
        out_len: usize,
    ) -> u32;
    pub fn arrow2_binary_table(
        first: *const u8,
        first_len: usize,
        first_offset: usize,
        second: *const u8,
        second_len: usize,
        second_offset: usize,
        length: usize,
        table: u16,
        out: *mut u8,
        out_len: usize,
    ) -> u32;
    pub fn arrow2_ternary_table(
        first: *const u8,
        first_len: usize,
        first_offset: usize,
        second: *const u8,
        second_len: usize,
        second_offset: usize,
        third: *const u8,
        third_len: usize,
        third_offset: usize,
        length: usize,
        table: u16,
        out: *mut u8,
        out_len: usize,
    ) -> u32;
    pub fn arrow2_quaternary_table(
        first: *const u8,
        first_len: usize,
        first_offset: usize,
        second: *const u8,
        second_len: usize,
        second_offset: usize,
        third: *const u8,
        third_len: usize,
        third_offset: usize,
        fourth: *const u8,
        fourth_len: usize,
        fourth_offset: usize,
        length: usize,
        table: u16,
        out: *mut u8,
        out_len: usize,
    ) -> u32;
    pub fn arrow2_unary_assign_table(bytes: *mut u8, count: usize, length: usize, table: u16) -> u32;
    pub fn arrow2_binary_assign_table(
        bytes: *mut u8,
        count: usize,
        second: *const u8,
        second_len: usize,
        second_offset: usize,
        length: usize,
        table: u16,
    ) -> u32;
    pub fn arrow2_ternary_assign_table(
        bytes: *mut u8,
        count: usize,
        second: *const u8,
        second_len: usize,
        second_offset: usize,
        third: *const u8,
        third_len: usize,
        third_offset: usize,
        length: usize,
        table: u16,
    ) -> u32;
    pub fn arrow2_quaternary_assign_table(
        bytes: *mut u8,
        count: usize,
        second: *const u8,
        second_len: usize,
        second_offset: usize,
        third: *const u8,
        third_len: usize,
        third_offset: usize,
        fourth: *const u8,
        fourth_len: usize,
        fourth_offset: usize,
        length: usize,
        table: u16,
    ) -> u32;
    pub fn arrow2_offsets32_check(offsets: *const i32, count: usize) -> u32;
    pub fn arrow2_offsets64_check(offsets: *const i64, count: usize) -> u32;
    pub fn arrow2_offsets32_lengths(offsets: *const i32, count: usize, out: *mut usize, out_len: usize) -> u32;
    pub fn arrow2_offsets64_lengths(offsets: *const i64, count: usize, out: *mut usize, out_len: usize) -> u32;
    pub fn arrow2_offsets32_lengths_unchecked(
        offsets: *const i32,
        count: usize,
        out: *mut usize,
        out_len: usize,
    ) -> u32;
    pub fn arrow2_offsets64_lengths_unchecked(
        offsets: *const i64,
        count: usize,
        out: *mut usize,
        out_len: usize,
    ) -> u32;
    pub fn arrow2_offsets32_from_lengths(
        start: usize,
        lengths: *const usize,
        count: usize,
        out: *mut i32,
        out_len: usize,
    ) -> u32;
    pub fn arrow2_offsets64_from_lengths(
        start: usize,
        lengths: *const usize,
        count: usize,
        out: *mut i64,
        out_len: usize,
    ) -> u32;
    pub fn arrow2_offsets32_rebase(
        offsets: *const i32,
        count: usize,
        from: usize,
        out: *mut i32,
        out_len: usize,
    ) -> u32;
    pub fn arrow2_offsets64_rebase(
        offsets: *const i64,
        count: usize,
        from: usize,
        out: *mut i64,
        out_len: usize,
    ) -> u32;
    pub fn arrow2_offsets32_rebase_unchecked(
        offsets: *const i32,
        count: usize,
        from: usize,
        out: *mut i32,
        out_len: usize,
    ) -> u32;
    pub fn arrow2_offsets64_rebase_unchecked(
        offsets: *const i64,
        count: usize,
        from: usize,
        out: *mut i64,
        out_len: usize,
    ) -> u32;
    pub fn arrow2_offsets_widen(offsets: *const i32, count: usize, out: *mut i64, out_len: usize) -> u32;
    pub fn arrow2_offsets_narrow(offsets: *const i64, count: usize, out: *mut i32, out_len: usize) -> u32;
    pub fn arrow2_runs(
        bytes: *const u8,
        count: usize,
        offset: usize,
        length: usize,
        at: *mut usize,
        starts: *mut usize,
        starts_len: usize,
        lengths: *mut usize,
        lengths_len: usize,
        written: *mut usize,
    ) -> u32;
    pub fn arrow2_set_indices(
        bytes: *const u8,
        count: usize,
        offset: usize,
        length: usize,
        at: *mut usize,
        indices: *mut usize,
        indices_len: usize,
        written: *mut usize,
    ) -> u32;
    pub fn arrow2_pack(items: *const bool, count: usize, out: *mut u8, out_len: usize) -> u32;
    pub fn arrow2_unpack(bytes: *const u8, count: usize, offset: usize, out: *mut bool, out_len: usize) -> u32;
    pub fn arrow2_and_kleene(
        lhs: *const u8,
        lhs_len: usize,
        lhs_offset: usize,
        lhs_validity: *const u8,
        lhs_validity_len: usize,
        lhs_validity_offset: usize,
        rhs: *const u8,
        rhs_len: usize,
        rhs_offset: usize,
        rhs_validity: *const u8,
        rhs_validity_len: usize,
        rhs_validity_offset: usize,
        length: usize,
        values: *mut u8,
        values_len: usize,
        validity: *mut u8,
        validity_len: usize,
    ) -> u32;
    pub fn arrow2_or_kleene(
        lhs: *const u8,
        lhs_len: usize,
        lhs_offset: usize,
        lhs_validity: *const u8,
        lhs_validity_len: usize,
        lhs_validity_offset: usize,
        rhs: *const u8,
        rhs_len: usize,
        rhs_offset: usize,
        rhs_validity: *const u8,
        rhs_validity_len: usize,
        rhs_validity_offset: usize,
        length: usize,
        values: *mut u8,
        values_len: usize,
        validity: *mut u8,
        validity_len: usize,
    ) -> u32;
    pub fn arrow2_and_kleene_optional(
        lhs: *const u8,
        lhs_len: usize,
        lhs_offset: usize,
        lhs_validity: *const u8,
        lhs_validity_len: usize,
        lhs_validity_offset: usize,
        lhs_all_valid: bool,
        rhs: *const u8,
        rhs_len: usize,
        rhs_offset: usize,
        rhs_validity: *const u8,
        rhs_validity_len: usize,
        rhs_validity_offset: usize,
        rhs_all_valid: bool,
        length: usize,
        values: *mut u8,
        values_len: usize,
        validity: *mut u8,
        validity_len: usize,
    ) -> u32;
    pub fn arrow2_or_kleene_optional(
        lhs: *const u8,
        lhs_len: usize,
        lhs_offset: usize,
        lhs_validity: *const u8,
        lhs_validity_len: usize,
        lhs_validity_offset: usize,
        lhs_all_valid: bool,
        rhs: *const u8,
        rhs_len: usize,
        rhs_offset: usize,
        rhs_validity: *const u8,
        rhs_validity_len: usize,
        rhs_validity_offset: usize,
        rhs_all_valid: bool,
        length: usize,
        values: *mut u8,
        values_len: usize,
        validity: *mut u8,
        validity_len: usize,
    ) -> u32;
    pub fn arrow2_validity_check(bytes: *const u8, count: usize, offset: usize, length: usize, null_count: i64) -> u32;
    pub fn arrow2_bits_check(bytes: usize, offset: usize, length: usize) -> u32;
    pub fn arrow2_values_check(bytes: usize, width: usize, offset: usize, length: usize) -> u32;
    pub fn arrow2_offsets32_check_inside(offsets: *const i32, count: usize, items: usize, index: *mut usize) -> u32;
    pub fn arrow2_offsets64_check_inside(offsets: *const i64, count: usize, items: usize, index: *mut usize) -> u32;
    pub fn arrow2_texts32_check(
        offsets: *const i32,
        count: usize,
        values: *const u8,
        values_len: usize,
        index: *mut usize,
    ) -> u32;
    pub fn arrow2_texts64_check(
        offsets: *const i64,
        count: usize,
        values: *const u8,
        values_len: usize,
        index: *mut usize,
    ) -> u32;
    pub fn arrow2_indices_i8_check(
        indices: *const i8,
        count: usize,
        validity: *const u8,
        validity_len: usize,
        validity_offset: usize,
        all_valid: bool,
        items: usize,
        slot: *mut usize,
    ) -> u32;
    pub fn arrow2_indices_u8_check(
        indices: *const u8,
        count: usize,
        validity: *const u8,
        validity_len: usize,
        validity_offset: usize,
        all_valid: bool,
        items: usize,
        slot: *mut usize,
    ) -> u32;
    pub fn arrow2_indices_i16_check(
        indices: *const i16,
        count: usize,
        validity: *const u8,
        validity_len: usize,
        validity_offset: usize,
        all_valid: bool,
        items: usize,
        slot: *mut usize,
    ) -> u32;
    pub fn arrow2_indices_u16_check(
        indices: *const u16,
        count: usize,
        validity: *const u8,
        validity_len: usize,
        validity_offset: usize,
        all_valid: bool,
        items: usize,
        slot: *mut usize,
    ) -> u32;
    pub fn arrow2_indices_i32_check(
        indices: *const i32,
        count: usize,
        validity: *const u8,
        validity_len: usize,
        validity_offset: usize,
        all_valid: bool,
        items: usize,
        slot: *mut usize,
    ) -> u32;
    pub fn arrow2_indices_u32_check(
        indices: *const u32,
        count: usize,
        validity: *const u8,
        validity_len: usize,
        validity_offset: usize,
        all_valid: bool,
        items: usize,
        slot: *mut usize,
    ) -> u32;
    pub fn arrow2_indices_i64_check(
        indices: *const i64,
        count: usize,
        validity: *const u8,
        validity_len: usize,
        validity_offset: usize,
        all_valid: bool,
        items: usize,
        slot: *mut usize,
    ) -> u32;
    pub fn arrow2_indices_u64_check(
        indices: *const u64,
        count: usize,
        validity: *const u8,
        validity_len: usize,
        validity_offset: usize,
        all_valid: bool,
        items: usize,
        slot: *mut usize,
    ) -> u32;
}
