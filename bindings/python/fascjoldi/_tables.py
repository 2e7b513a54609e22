"""Written by tools/tables from include/fascjoldi.h and bindings/columns/result.c. Do not change it here."""

# What each function gives, and what it takes, a letter for each; P is a pointer.
FUNCTIONS = {
    "fascjoldi_pack_u8": "zzPzPzP",
    "fascjoldi_pack_u16": "zzPzPzP",
    "fascjoldi_pack_u32": "zzPzPzP",
    "fascjoldi_pack_u64": "zzPzPzP",
    "fascjoldi_unpack_u8": "zzPzPzP",
    "fascjoldi_unpack_u16": "zzPzPzP",
    "fascjoldi_unpack_u32": "zzPzPzP",
    "fascjoldi_unpack_u64": "zzPzPzP",
    "fascjoldi_unpack_single_u8": "zzPzzPPP",
    "fascjoldi_unpack_single_u16": "zzPzzPPP",
    "fascjoldi_unpack_single_u32": "zzPzzPPP",
    "fascjoldi_unpack_single_u64": "zzPzzPPP",
    "fascjoldi_words_at_u8": "Qzz",
    "fascjoldi_words_at_u16": "Qzz",
    "fascjoldi_words_at_u32": "Qzz",
    "fascjoldi_words_at_u64": "Qzz",
    "fascjoldi_unpack_indices_u8": "zzPzPzPzPP",
    "fascjoldi_unpack_indices_u16": "zzPzPzPzPP",
    "fascjoldi_unpack_indices_u32": "zzPzPzPzPP",
    "fascjoldi_unpack_indices_u64": "zzPzPzPzPP",
    "fascjoldi_unpack_within_u8": "zzPzPzQPzPPP",
    "fascjoldi_unpack_within_u16": "zzPzPzQPzPPP",
    "fascjoldi_unpack_within_u32": "zzPzPzQPzPPP",
    "fascjoldi_unpack_within_u64": "zzPzPzQPzPPP",
    "fascjoldi_delta_u8": "zPzPzPzP",
    "fascjoldi_delta_u16": "zPzPzPzP",
    "fascjoldi_delta_u32": "zPzPzPzP",
    "fascjoldi_delta_u64": "zPzPzPzP",
    "fascjoldi_undelta_u8": "zPzPzPzP",
    "fascjoldi_undelta_u16": "zPzPzPzP",
    "fascjoldi_undelta_u32": "zPzPzPzP",
    "fascjoldi_undelta_u64": "zPzPzPzP",
    "fascjoldi_undelta_pack_u8": "zzPzPzPzP",
    "fascjoldi_undelta_pack_u16": "zzPzPzPzP",
    "fascjoldi_undelta_pack_u32": "zzPzPzPzP",
    "fascjoldi_undelta_pack_u64": "zzPzPzPzP",
    "fascjoldi_for_pack_u8": "zzPzBPzP",
    "fascjoldi_for_pack_u16": "zzPzHPzP",
    "fascjoldi_for_pack_u32": "zzPzIPzP",
    "fascjoldi_for_pack_u64": "zzPzQPzP",
    "fascjoldi_unfor_pack_u8": "zzPzBPzP",
    "fascjoldi_unfor_pack_u16": "zzPzHPzP",
    "fascjoldi_unfor_pack_u32": "zzPzIPzP",
    "fascjoldi_unfor_pack_u64": "zzPzQPzP",
    "fascjoldi_unpack_blocks_u8": "zzzPzPzP",
    "fascjoldi_unpack_blocks_u16": "zzzPzPzP",
    "fascjoldi_unpack_blocks_u32": "zzzPzPzP",
    "fascjoldi_unpack_blocks_u64": "zzzPzPzP",
    "fascjoldi_for_pack_blocks_u8": "zzzPzBPzP",
    "fascjoldi_for_pack_blocks_u16": "zzzPzHPzP",
    "fascjoldi_for_pack_blocks_u32": "zzzPzIPzP",
    "fascjoldi_for_pack_blocks_u64": "zzzPzQPzP",
    "fascjoldi_decode_u8": "zPzPzPzP",
    "fascjoldi_decode_u16": "zPzPzPzP",
    "fascjoldi_decode_u32": "zPzPzPzP",
    "fascjoldi_decode_u64": "zPzPzPzP",
    "fascjoldi_transpose_u8": "zPzPzP",
    "fascjoldi_transpose_u16": "zPzPzP",
    "fascjoldi_transpose_u32": "zPzPzP",
    "fascjoldi_transpose_u64": "zPzPzP",
    "fascjoldi_untranspose_u8": "zPzPzP",
    "fascjoldi_untranspose_u16": "zPzPzP",
    "fascjoldi_untranspose_u32": "zPzPzP",
    "fascjoldi_untranspose_u64": "zPzPzP",
    "fascjoldi_transpose_bits_u8": "vPP",
    "fascjoldi_transpose_bits_u16": "vPP",
    "fascjoldi_transpose_bits_u32": "vPP",
    "fascjoldi_transpose_bits_u64": "vPP",
    "fascjoldi_untranspose_bits_u64": "vPP",
    "fascjoldi_file_check": "zPzP",
    "fascjoldi_file_check_canonical": "zPzP",
    "fascjoldi_file_block_out": "zPzzPzP",
    "fascjoldi_file_row_at": "zPzzPPP",
    "fascjoldi_file_write": "zPzPzPP",
    "fascjoldi_file_rewrite": "zPzPzPP",
    "fascjoldi_file_renumber": "zPzPzPzPzPzPPP",
    "fascjoldi_file_search": "zPzQQPzPPP",
    "fascjoldi_front_length": "zPz",
    "fascjoldi_front_check": "zPzzP",
    "fascjoldi_front_edition": "zPz",
    "fascjoldi_front_count": "zPz",
    "fascjoldi_front_row_count": "QPz",
    "fascjoldi_front_contents_length": "zPz",
    "fascjoldi_front_entry": "vPzzPPPPP",
    "fascjoldi_front_range": "vPzzPP",
    "fascjoldi_front_same_range": "?PzPzz",
    "fascjoldi_front_blocks_in_both": "HPzPz",
    "fascjoldi_body_block_out": "zPzzPzPzP",
    "fascjoldi_body_check_range": "zPzzPzP",
    "fascjoldi_body_first": "vPzPPP",
    "fascjoldi_body_next": "vPzPPP",
    "fascjoldi_file_row_from": "zPzzzzPPP",
    "fascjoldi_search_opens": "?PzzQQ",
    "fascjoldi_search_rows": "zPzzQQPzPPP",
    "fascjoldi_block_differing": "zPzPzPzPP",
    "fascjoldi_trickle_start": "zzPPPP",
    "fascjoldi_trickle_feed": "zPPPPz",
    "fascjoldi_trickle_ask": "zzzPPzP",
    "fascjoldi_listing_start": "zzzPPPPP",
    "fascjoldi_listing_next": "zPPzPzPzPzPzPPPP",
    "fascjoldi_listing_turns": "z",
    "fascjoldi_decimal_parse": "zPzPP",
    "fascjoldi_decimal_lay": "zQPz",
    "fascjoldi_summary_of_block": "vPzzPzPPPPPP",
    "fascjoldi_summary_thousandths": "QII",
    "fascjoldi_summary_marks": "zB",
    "fascjoldi_summary_place_in": "zQz",
}

# What the numbers mean, of blocks and of what is named.
MEANINGS = {
    0: {
        "": "the call is done",
    },
    1: {
        "": "the width is above T",
        "chunks": "the width is above 64",
    },
    2: {
        "": "a buffer for a block is not 1,024 long",
        "a file": (
            "a block or the room for places that is lent is not 1,024 long, or the numbers to be written are no "
            "whole blocks or more than 256 of them"
        ),
        "chunks": "the output is not 1,024 long",
    },
    3: {
        "": "the packed length is not LANES times the width",
    },
    4: {
        "": "the base is not LANES long",
    },
    5: {
        "": "an index list and its output differ in length",
    },
    6: {
        "": "an index is 1,024 or more; the lowest such place of the list, 0 for single access",
    },
    7: {
        "": "a dictionary index is at or beyond the dictionary's length; the lowest such place",
    },
    8: {
        "a file": "the file is cut short: in its first four bytes, in the entries or in the bodies",
    },
    9: {
        "a file": (
            "the edition is neither 1 nor 2, or there are more than 256 blocks; of the canonical check also a "
            "readable file of edition 1"
        ),
    },
    10: {
        "a file": (
            "an entry is not as laid out, or is of kind 3 in edition 2, or its smallest value is above its "
            "largest; the lowest such entry"
        ),
    },
    11: {
        "a file": "there are bytes after the last body",
    },
    12: {
        "a file": "there is no block, or no row, with this number",
    },
    13: {
        "a file": "a run index is out of range; the lowest block that has one",
    },
    14: {
        "a file": "the output, or the room for rows, is too short for what is to be written there",
    },
    15: {
        "a file": "a smallest or largest value is not the body's true one; the lowest block that has one",
    },
    16: {
        "chunks": "the values are asked for too early; the bytes held so far",
    },
    17: {
        "a file": "a block is not as our writer would write it; the lowest such block",
    },
    18: {
        "a renumbering": "the three lists are not of one length",
    },
    19: {
        "a renumbering": "an old number is not above the one before it; the lowest such place",
    },
    20: {
        "a renumbering": (
            "a place of the order says no pair, or one that does not come behind the pair before it; the lowest "
            "such place"
        ),
    },
    21: {
        "a renumbering": "a new number stands at another place too; the lowest such place",
    },
    22: {
        "a renumbering": "a number that is not listed stands among the new numbers; the lowest row that has one",
    },
}

# The program's sentences on a file; where there are two parts, the place stands between them.
SENTENCES = {
    8: (
        "the file is cut short, it ends before its contents or its bodies do; fetch it again",
        None,
    ),
    9: (
        "this is no column file of edition 1 or 2 with at most 256 blocks; look whether it is the right file",
        None,
    ),
    10: (
        "entry ",
        (
            " of the contents is not as laid out: its kind, width, length, reference or range cannot be; fetch "
            "the file again"
        ),
    ),
    11: (
        "there are bytes behind the last body, as where two files were joined; fetch it again",
        None,
    ),
    13: (
        "block ",
        (
            " has a run index at or beyond the number of its run values, so its rows cannot be told; fetch the "
            "file again"
        ),
    ),
    15: (
        "block ",
        (
            " has another smallest or largest value than the contents say: one of the two is damaged; fetch the "
            "file again"
        ),
    ),
    17: (
        "block ",
        " is not as our writer would write it; `columns rewrite` makes a file that is",
    ),
}
NO_ROW = (
    "there is no row ",
    "; the file has no rows",
    "; the last one is row ",
)
