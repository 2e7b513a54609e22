// Written by tools/header from the text of the crate exports: edit that one, and run tools/header.
//! The functions of the archive, as include/fascjoldi.h declares them for C: a module for each element size, and one for each
//! of the other files. A slice is a pointer and a length.

pub mod of_u8 {
    extern "C" {
        #[link_name = "fascjoldi_pack_u8"]
        pub fn pack(width: usize, values: *const u8, values_length: usize, packed: *mut u8, packed_length: usize,
            place: &mut usize) -> usize;
        #[link_name = "fascjoldi_unpack_u8"]
        pub fn unpack(width: usize, packed: *const u8, packed_length: usize, values: *mut u8, values_length: usize,
            place: &mut usize) -> usize;
        #[link_name = "fascjoldi_unpack_single_u8"]
        pub fn unpack_single(width: usize, packed: *const u8, packed_length: usize, index: usize, value: &mut u8, words: &mut u64,
            place: &mut usize) -> usize;
        #[link_name = "fascjoldi_words_at_u8"]
        pub fn words_at(width: usize, index: usize) -> u64;
        #[link_name = "fascjoldi_unpack_indices_u8"]
        pub fn unpack_indices(width: usize, packed: *const u8, packed_length: usize, indices: *const usize, indices_length: usize,
            output: *mut u8, output_length: usize, words: &mut u64, place: &mut usize) -> usize;
        #[link_name = "fascjoldi_unpack_within_u8"]
        pub fn unpack_within(width: usize, packed: *const u8, packed_length: usize, indices: *const usize, indices_length: usize,
            budget: u64, output: *mut u8, output_length: usize, answered: &mut usize, words: &mut u64, place: &mut usize) -> usize;
        #[link_name = "fascjoldi_delta_u8"]
        pub fn delta(input: *const u8, input_length: usize, base: *const u8, base_length: usize, output: *mut u8,
            output_length: usize, place: &mut usize) -> usize;
        #[link_name = "fascjoldi_undelta_u8"]
        pub fn undelta(input: *const u8, input_length: usize, base: *const u8, base_length: usize, output: *mut u8,
            output_length: usize, place: &mut usize) -> usize;
        #[link_name = "fascjoldi_undelta_pack_u8"]
        pub fn undelta_pack(width: usize, packed: *const u8, packed_length: usize, base: *const u8, base_length: usize,
            values: *mut u8, values_length: usize, place: &mut usize) -> usize;
        #[link_name = "fascjoldi_for_pack_u8"]
        pub fn for_pack(width: usize, values: *const u8, values_length: usize, reference: u8, packed: *mut u8,
            packed_length: usize, place: &mut usize) -> usize;
        #[link_name = "fascjoldi_unfor_pack_u8"]
        pub fn unfor_pack(width: usize, packed: *const u8, packed_length: usize, reference: u8, values: *mut u8,
            values_length: usize, place: &mut usize) -> usize;
        #[link_name = "fascjoldi_unpack_blocks_u8"]
        pub fn unpack_blocks(width: usize, blocks: usize, packed: *const u8, packed_length: usize, values: *mut u8,
            values_length: usize, place: &mut usize) -> usize;
        #[link_name = "fascjoldi_for_pack_blocks_u8"]
        pub fn for_pack_blocks(width: usize, blocks: usize, values: *const u8, values_length: usize, reference: u8,
            packed: *mut u8, packed_length: usize, place: &mut usize) -> usize;
        #[link_name = "fascjoldi_decode_u8"]
        pub fn decode(dictionary: *const u8, dictionary_length: usize, indices: *const u16, indices_length: usize, output: *mut u8,
            output_length: usize, place: &mut usize) -> usize;
        #[link_name = "fascjoldi_transpose_u8"]
        pub fn transpose(input: *const u8, input_length: usize, output: *mut u8, output_length: usize, place: &mut usize) -> usize;
        #[link_name = "fascjoldi_untranspose_u8"]
        pub fn untranspose(input: *const u8, input_length: usize, output: *mut u8, output_length: usize, place: &mut usize) -> usize;
        #[link_name = "fascjoldi_transpose_bits_u8"]
        pub fn transpose_bits(input: &[u64; 16], output: &mut [u64; 16]);
    }
}

pub mod of_u16 {
    extern "C" {
        #[link_name = "fascjoldi_pack_u16"]
        pub fn pack(width: usize, values: *const u16, values_length: usize, packed: *mut u16, packed_length: usize,
            place: &mut usize) -> usize;
        #[link_name = "fascjoldi_unpack_u16"]
        pub fn unpack(width: usize, packed: *const u16, packed_length: usize, values: *mut u16, values_length: usize,
            place: &mut usize) -> usize;
        #[link_name = "fascjoldi_unpack_single_u16"]
        pub fn unpack_single(width: usize, packed: *const u16, packed_length: usize, index: usize, value: &mut u16,
            words: &mut u64, place: &mut usize) -> usize;
        #[link_name = "fascjoldi_words_at_u16"]
        pub fn words_at(width: usize, index: usize) -> u64;
        #[link_name = "fascjoldi_unpack_indices_u16"]
        pub fn unpack_indices(width: usize, packed: *const u16, packed_length: usize, indices: *const usize, indices_length: usize,
            output: *mut u16, output_length: usize, words: &mut u64, place: &mut usize) -> usize;
        #[link_name = "fascjoldi_unpack_within_u16"]
        pub fn unpack_within(width: usize, packed: *const u16, packed_length: usize, indices: *const usize, indices_length: usize,
            budget: u64, output: *mut u16, output_length: usize, answered: &mut usize, words: &mut u64, place: &mut usize) -> usize;
        #[link_name = "fascjoldi_delta_u16"]
        pub fn delta(input: *const u16, input_length: usize, base: *const u16, base_length: usize, output: *mut u16,
            output_length: usize, place: &mut usize) -> usize;
        #[link_name = "fascjoldi_undelta_u16"]
        pub fn undelta(input: *const u16, input_length: usize, base: *const u16, base_length: usize, output: *mut u16,
            output_length: usize, place: &mut usize) -> usize;
        #[link_name = "fascjoldi_undelta_pack_u16"]
        pub fn undelta_pack(width: usize, packed: *const u16, packed_length: usize, base: *const u16, base_length: usize,
            values: *mut u16, values_length: usize, place: &mut usize) -> usize;
        #[link_name = "fascjoldi_for_pack_u16"]
        pub fn for_pack(width: usize, values: *const u16, values_length: usize, reference: u16, packed: *mut u16,
            packed_length: usize, place: &mut usize) -> usize;
        #[link_name = "fascjoldi_unfor_pack_u16"]
        pub fn unfor_pack(width: usize, packed: *const u16, packed_length: usize, reference: u16, values: *mut u16,
            values_length: usize, place: &mut usize) -> usize;
        #[link_name = "fascjoldi_unpack_blocks_u16"]
        pub fn unpack_blocks(width: usize, blocks: usize, packed: *const u16, packed_length: usize, values: *mut u16,
            values_length: usize, place: &mut usize) -> usize;
        #[link_name = "fascjoldi_for_pack_blocks_u16"]
        pub fn for_pack_blocks(width: usize, blocks: usize, values: *const u16, values_length: usize, reference: u16,
            packed: *mut u16, packed_length: usize, place: &mut usize) -> usize;
        #[link_name = "fascjoldi_decode_u16"]
        pub fn decode(dictionary: *const u16, dictionary_length: usize, indices: *const u16, indices_length: usize,
            output: *mut u16, output_length: usize, place: &mut usize) -> usize;
        #[link_name = "fascjoldi_transpose_u16"]
        pub fn transpose(input: *const u16, input_length: usize, output: *mut u16, output_length: usize, place: &mut usize) -> usize;
        #[link_name = "fascjoldi_untranspose_u16"]
        pub fn untranspose(input: *const u16, input_length: usize, output: *mut u16, output_length: usize, place: &mut usize) -> usize;
        #[link_name = "fascjoldi_transpose_bits_u16"]
        pub fn transpose_bits(input: &[u64; 16], output: &mut [u64; 16]);
    }
}

pub mod of_u32 {
    extern "C" {
        #[link_name = "fascjoldi_pack_u32"]
        pub fn pack(width: usize, values: *const u32, values_length: usize, packed: *mut u32, packed_length: usize,
            place: &mut usize) -> usize;
        #[link_name = "fascjoldi_unpack_u32"]
        pub fn unpack(width: usize, packed: *const u32, packed_length: usize, values: *mut u32, values_length: usize,
            place: &mut usize) -> usize;
        #[link_name = "fascjoldi_unpack_single_u32"]
        pub fn unpack_single(width: usize, packed: *const u32, packed_length: usize, index: usize, value: &mut u32,
            words: &mut u64, place: &mut usize) -> usize;
        #[link_name = "fascjoldi_words_at_u32"]
        pub fn words_at(width: usize, index: usize) -> u64;
        #[link_name = "fascjoldi_unpack_indices_u32"]
        pub fn unpack_indices(width: usize, packed: *const u32, packed_length: usize, indices: *const usize, indices_length: usize,
            output: *mut u32, output_length: usize, words: &mut u64, place: &mut usize) -> usize;
        #[link_name = "fascjoldi_unpack_within_u32"]
        pub fn unpack_within(width: usize, packed: *const u32, packed_length: usize, indices: *const usize, indices_length: usize,
            budget: u64, output: *mut u32, output_length: usize, answered: &mut usize, words: &mut u64, place: &mut usize) -> usize;
        #[link_name = "fascjoldi_delta_u32"]
        pub fn delta(input: *const u32, input_length: usize, base: *const u32, base_length: usize, output: *mut u32,
            output_length: usize, place: &mut usize) -> usize;
        #[link_name = "fascjoldi_undelta_u32"]
        pub fn undelta(input: *const u32, input_length: usize, base: *const u32, base_length: usize, output: *mut u32,
            output_length: usize, place: &mut usize) -> usize;
        #[link_name = "fascjoldi_undelta_pack_u32"]
        pub fn undelta_pack(width: usize, packed: *const u32, packed_length: usize, base: *const u32, base_length: usize,
            values: *mut u32, values_length: usize, place: &mut usize) -> usize;
        #[link_name = "fascjoldi_for_pack_u32"]
        pub fn for_pack(width: usize, values: *const u32, values_length: usize, reference: u32, packed: *mut u32,
            packed_length: usize, place: &mut usize) -> usize;
        #[link_name = "fascjoldi_unfor_pack_u32"]
        pub fn unfor_pack(width: usize, packed: *const u32, packed_length: usize, reference: u32, values: *mut u32,
            values_length: usize, place: &mut usize) -> usize;
        #[link_name = "fascjoldi_unpack_blocks_u32"]
        pub fn unpack_blocks(width: usize, blocks: usize, packed: *const u32, packed_length: usize, values: *mut u32,
            values_length: usize, place: &mut usize) -> usize;
        #[link_name = "fascjoldi_for_pack_blocks_u32"]
        pub fn for_pack_blocks(width: usize, blocks: usize, values: *const u32, values_length: usize, reference: u32,
            packed: *mut u32, packed_length: usize, place: &mut usize) -> usize;
        #[link_name = "fascjoldi_decode_u32"]
        pub fn decode(dictionary: *const u32, dictionary_length: usize, indices: *const u16, indices_length: usize,
            output: *mut u32, output_length: usize, place: &mut usize) -> usize;
        #[link_name = "fascjoldi_transpose_u32"]
        pub fn transpose(input: *const u32, input_length: usize, output: *mut u32, output_length: usize, place: &mut usize) -> usize;
        #[link_name = "fascjoldi_untranspose_u32"]
        pub fn untranspose(input: *const u32, input_length: usize, output: *mut u32, output_length: usize, place: &mut usize) -> usize;
        #[link_name = "fascjoldi_transpose_bits_u32"]
        pub fn transpose_bits(input: &[u64; 16], output: &mut [u64; 16]);
    }
}

pub mod of_u64 {
    extern "C" {
        #[link_name = "fascjoldi_pack_u64"]
        pub fn pack(width: usize, values: *const u64, values_length: usize, packed: *mut u64, packed_length: usize,
            place: &mut usize) -> usize;
        #[link_name = "fascjoldi_unpack_u64"]
        pub fn unpack(width: usize, packed: *const u64, packed_length: usize, values: *mut u64, values_length: usize,
            place: &mut usize) -> usize;
        #[link_name = "fascjoldi_unpack_single_u64"]
        pub fn unpack_single(width: usize, packed: *const u64, packed_length: usize, index: usize, value: &mut u64,
            words: &mut u64, place: &mut usize) -> usize;
        #[link_name = "fascjoldi_words_at_u64"]
        pub fn words_at(width: usize, index: usize) -> u64;
        #[link_name = "fascjoldi_unpack_indices_u64"]
        pub fn unpack_indices(width: usize, packed: *const u64, packed_length: usize, indices: *const usize, indices_length: usize,
            output: *mut u64, output_length: usize, words: &mut u64, place: &mut usize) -> usize;
        #[link_name = "fascjoldi_unpack_within_u64"]
        pub fn unpack_within(width: usize, packed: *const u64, packed_length: usize, indices: *const usize, indices_length: usize,
            budget: u64, output: *mut u64, output_length: usize, answered: &mut usize, words: &mut u64, place: &mut usize) -> usize;
        #[link_name = "fascjoldi_delta_u64"]
        pub fn delta(input: *const u64, input_length: usize, base: *const u64, base_length: usize, output: *mut u64,
            output_length: usize, place: &mut usize) -> usize;
        #[link_name = "fascjoldi_undelta_u64"]
        pub fn undelta(input: *const u64, input_length: usize, base: *const u64, base_length: usize, output: *mut u64,
            output_length: usize, place: &mut usize) -> usize;
        #[link_name = "fascjoldi_undelta_pack_u64"]
        pub fn undelta_pack(width: usize, packed: *const u64, packed_length: usize, base: *const u64, base_length: usize,
            values: *mut u64, values_length: usize, place: &mut usize) -> usize;
        #[link_name = "fascjoldi_for_pack_u64"]
        pub fn for_pack(width: usize, values: *const u64, values_length: usize, reference: u64, packed: *mut u64,
            packed_length: usize, place: &mut usize) -> usize;
        #[link_name = "fascjoldi_unfor_pack_u64"]
        pub fn unfor_pack(width: usize, packed: *const u64, packed_length: usize, reference: u64, values: *mut u64,
            values_length: usize, place: &mut usize) -> usize;
        #[link_name = "fascjoldi_unpack_blocks_u64"]
        pub fn unpack_blocks(width: usize, blocks: usize, packed: *const u64, packed_length: usize, values: *mut u64,
            values_length: usize, place: &mut usize) -> usize;
        #[link_name = "fascjoldi_for_pack_blocks_u64"]
        pub fn for_pack_blocks(width: usize, blocks: usize, values: *const u64, values_length: usize, reference: u64,
            packed: *mut u64, packed_length: usize, place: &mut usize) -> usize;
        #[link_name = "fascjoldi_decode_u64"]
        pub fn decode(dictionary: *const u64, dictionary_length: usize, indices: *const u16, indices_length: usize,
            output: *mut u64, output_length: usize, place: &mut usize) -> usize;
        #[link_name = "fascjoldi_transpose_u64"]
        pub fn transpose(input: *const u64, input_length: usize, output: *mut u64, output_length: usize, place: &mut usize) -> usize;
        #[link_name = "fascjoldi_untranspose_u64"]
        pub fn untranspose(input: *const u64, input_length: usize, output: *mut u64, output_length: usize, place: &mut usize) -> usize;
        #[link_name = "fascjoldi_transpose_bits_u64"]
        pub fn transpose_bits(input: &[u64; 16], output: &mut [u64; 16]);
    }
}

pub mod bits {
    extern "C" {
        #[link_name = "fascjoldi_untranspose_bits_u64"]
        pub fn untranspose_bits_u64(input: &[u64; 16], output: &mut [u64; 16]);
    }
}

pub mod columns {
    extern "C" {
        #[link_name = "fascjoldi_file_check"]
        pub fn file_check(file: *const u8, file_length: usize, place: &mut usize) -> usize;
        #[link_name = "fascjoldi_file_check_canonical"]
        pub fn file_check_canonical(file: *const u8, file_length: usize, place: &mut usize) -> usize;
        #[link_name = "fascjoldi_file_block_out"]
        pub fn file_block_out(file: *const u8, file_length: usize, block: usize, output: *mut u64, output_length: usize,
            place: &mut usize) -> usize;
        #[link_name = "fascjoldi_file_row_at"]
        pub fn file_row_at(file: *const u8, file_length: usize, row: usize, value: &mut u64, words: &mut u64, place: &mut usize) -> usize;
        #[link_name = "fascjoldi_file_write"]
        pub fn file_write(values: *const u64, values_length: usize, output: *mut u8, output_length: usize, length: &mut usize,
            place: &mut usize) -> usize;
        #[link_name = "fascjoldi_file_rewrite"]
        pub fn file_rewrite(file: *const u8, file_length: usize, output: *mut u8, output_length: usize, length: &mut usize,
            place: &mut usize) -> usize;
        #[link_name = "fascjoldi_file_renumber"]
        pub fn file_renumber(file: *const u8, file_length: usize, olds: *const u64, olds_length: usize, news: *const u64,
            news_length: usize, order: *const u64, order_length: usize, output: *mut u8, output_length: usize, length: &mut usize,
            changed: &mut usize, place: &mut usize) -> usize;
        #[link_name = "fascjoldi_file_search"]
        pub fn file_search(file: *const u8, file_length: usize, low: u64, high: u64, rows: *mut u64, rows_length: usize,
            found: &mut usize, opened: &mut usize, place: &mut usize) -> usize;
        #[link_name = "fascjoldi_front_length"]
        pub fn front_length(head: *const u8, head_length: usize) -> usize;
        #[link_name = "fascjoldi_front_check"]
        pub fn front_check(front: *const u8, front_length: usize, size: usize, place: &mut usize) -> usize;
        #[link_name = "fascjoldi_front_edition"]
        pub fn front_edition(front: *const u8, front_length: usize) -> usize;
        #[link_name = "fascjoldi_front_count"]
        pub fn front_count(front: *const u8, front_length: usize) -> usize;
        #[link_name = "fascjoldi_front_row_count"]
        pub fn front_row_count(front: *const u8, front_length: usize) -> u64;
        #[link_name = "fascjoldi_front_contents_length"]
        pub fn front_contents_length(front: *const u8, front_length: usize) -> usize;
        #[link_name = "fascjoldi_front_entry"]
        pub fn front_entry(front: *const u8, front_length: usize, block: usize, kind: &mut u8, width: &mut u8, zero: &mut u16,
            length: &mut u32, reference: &mut u64);
        #[link_name = "fascjoldi_front_range"]
        pub fn front_range(front: *const u8, front_length: usize, block: usize, smallest: &mut u64, largest: &mut u64);
        #[link_name = "fascjoldi_front_same_range"]
        pub fn front_same_range(left: *const u8, left_length: usize, right: *const u8, right_length: usize, block: usize) -> bool;
        #[link_name = "fascjoldi_front_blocks_in_both"]
        pub fn front_blocks_in_both(left: *const u8, left_length: usize, right: *const u8, right_length: usize) -> u16;
        #[link_name = "fascjoldi_body_block_out"]
        pub fn body_block_out(front: *const u8, front_length: usize, block: usize, body: *const u8, body_length: usize,
            output: *mut u64, output_length: usize, place: &mut usize) -> usize;
        #[link_name = "fascjoldi_body_check_range"]
        pub fn body_check_range(front: *const u8, front_length: usize, block: usize, values: *const u64, values_length: usize,
            place: &mut usize) -> usize;
        #[link_name = "fascjoldi_body_first"]
        pub fn body_first(front: *const u8, front_length: usize, number: &mut usize, start: &mut usize, length: &mut u32);
        #[link_name = "fascjoldi_body_next"]
        pub fn body_next(front: *const u8, front_length: usize, number: &mut usize, start: &mut usize, length: &mut u32);
        #[link_name = "fascjoldi_file_row_from"]
        pub fn file_row_from(file: *const u8, file_length: usize, number: usize, start: usize, row: usize, value: &mut u64,
            words: &mut u64, place: &mut usize) -> usize;
        #[link_name = "fascjoldi_search_opens"]
        pub fn search_opens(front: *const u8, front_length: usize, block: usize, low: u64, high: u64) -> bool;
        #[link_name = "fascjoldi_search_rows"]
        pub fn search_rows(values: *const u64, values_length: usize, block: usize, low: u64, high: u64, rows: *mut u64,
            rows_length: usize, found: &mut usize, opened: &mut usize, place: &mut usize) -> usize;
        #[link_name = "fascjoldi_block_differing"]
        pub fn block_differing(left: *const u64, left_length: usize, right: *const u64, right_length: usize, places: *mut u16,
            places_length: usize, count: &mut usize, place: &mut usize) -> usize;
    }
}

pub mod chunks {
    extern "C" {
        #[link_name = "fascjoldi_trickle_start"]
        pub fn trickle_start(asked: usize, width: &mut usize, held: &mut usize, room: &mut [u8; 8192], place: &mut usize) -> usize;
        #[link_name = "fascjoldi_trickle_feed"]
        pub fn trickle_feed(width: &mut usize, held: &mut usize, room: &mut [u8; 8192], chunk: *const u8, chunk_length: usize) -> usize;
        #[link_name = "fascjoldi_trickle_ask"]
        pub fn trickle_ask(width: usize, held: usize, room: &[u8; 8192], output: *mut u64, output_length: usize, place: &mut usize) -> usize;
    }
}

pub mod machine {
    extern "C" {
        #[link_name = "fascjoldi_listing_start"]
        pub fn listing_start(left_size: usize, right_size: usize, state: &mut [u64; 8], side: &mut usize, part: &mut usize,
            start: &mut usize, length: &mut usize) -> usize;
        #[link_name = "fascjoldi_listing_next"]
        pub fn listing_next(state: &mut [u64; 8], left_front: *const u8, left_front_length: usize, right_front: *const u8,
            right_front_length: usize, left_body: *const u8, left_body_length: usize, right_body: *const u8,
            right_body_length: usize, output: *mut u8, output_length: usize, side: &mut usize, part: &mut usize, start: &mut usize,
            length: &mut usize) -> usize;
        #[link_name = "fascjoldi_listing_turns"]
        pub fn listing_turns() -> usize;
    }
}

pub mod text {
    extern "C" {
        #[link_name = "fascjoldi_decimal_parse"]
        pub fn decimal_parse(text: *const u8, text_length: usize, value: &mut u64, place: &mut usize) -> usize;
        #[link_name = "fascjoldi_decimal_lay"]
        pub fn decimal_lay(value: u64, output: *mut u8, output_length: usize) -> usize;
        #[link_name = "fascjoldi_summary_of_block"]
        pub fn summary_of_block(front: *const u8, front_length: usize, block: usize, values: *const u64, values_length: usize,
            kind: &mut u8, width: &mut u8, length: &mut u32, reference: &mut u64, smallest: &mut u64, largest: &mut u64);
        #[link_name = "fascjoldi_summary_thousandths"]
        pub fn summary_thousandths(bytes: u32, rows: u32) -> u64;
        #[link_name = "fascjoldi_summary_marks"]
        pub fn summary_marks(width: u8) -> usize;
        #[link_name = "fascjoldi_summary_place_in"]
        pub fn summary_place_in(row: u64, block: usize) -> usize;
    }
}
