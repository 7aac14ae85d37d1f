//! The worked cases (a) to (m) of document 01, with their face usage and sizes, and those of points, of flat faces and
//! cells, of name bytes, of MIXED sections, of labels allowed once, of references and of parents (document 02, §1
//! to §7).

use reference::answers::validate_line;
use reference::bytes::u32_at;
use reference::cases::{case, cases, RIND_ARRAY};

use reference::{check_table, corner, data_size, element_type, face_usage, section_entries, validate};
use reference::{Counts, Rejection};

/// The cases with their verdicts.
const VERDICTS: [(&str, &str); 244] = [
    ("a", "accept 17 0 1 2"),
    ("b", "refuse 1 0"),
    ("c", "refuse 4 0"),
    ("d", "refuse 23 0"),
    ("e", "refuse 30 9"),
    ("f", "refuse 31 9"),
    ("g", "refuse 32 9"),
    ("h", "refuse 29 9"),
    ("i", "refuse 34 9 entry 12"),
    ("j0", "refuse 35 13 entry 4"),
    ("j5", "refuse 37 13 entry 4"),
    ("jmin", "refuse 36 13 entry 4"),
    ("k", "accept 17 0 1 2"),
    ("l", "accept 17 0 1 2"),
    ("m", "accept 8 0 1 0"),
    ("p1_wall", "accept 8 0 1 0"),
    ("p1_above", "refuse 25 7"),
    ("p1_least", "refuse 25 7"),
    ("p1_both", "refuse 25 5"),
    ("p1_list", "accept 8 0 1 0"),
    ("p1_zone_size", "refuse 26 7"),
    ("p1_in_zone", "refuse 20 6"),
    ("p1_range_name", "refuse 21 6"),
    ("p1_list_name", "refuse 21 6"),
    ("p1_product", "refuse 26 7"),
    ("p1_great", "accept 7 0 1 0"),
    ("f2_face", "refuse 33 9"),
    ("f2_first_face", "refuse 33 9"),
    ("f2_wide", "refuse 33 9"),
    ("f2_surface", "accept 17 0 1 2"),
    ("f2_plane", "accept 17 0 1 2"),
    ("f2_one_node", "accept 17 0 1 2"),
    ("f2_cell", "refuse 33 13"),
    ("f2_cell_line", "accept 17 0 1 2"),
    ("f2_one_face", "accept 17 0 1 2"),
    ("f2_node", "refuse 33 9"),
    ("f2_reference", "refuse 33 13"),
    ("f2_rise", "refuse 31 9"),
    ("f2_length", "refuse 32 9"),
    ("f2_surface_beside", "accept 24 0 2 3"),
    ("f2_volume_beside", "refuse 33 20"),
    ("f2_bars", "accept 21 0 1 3"),
    ("f2_cells_first", "refuse 33 13"),
    ("f2_cells_first_bad", "refuse 37 9 entry 4"),
    ("n3_root", "refuse 23 0"),
    ("n3_chain", "accept 3 2 0 0"),
    ("n3_first_byte", "accept 4 0 0 0"),
    ("n3_last_byte", "accept 4 0 0 0"),
    ("n3_padding", "accept 4 0 0 0"),
    ("n3_blanks", "accept 5 0 0 0"),
    ("n3_ladder", "accept 2 33 0 0"),
    ("n3_prefixes", "accept 2 32 0 0"),
    ("n3_skipped", "accept 3 6 0 0"),
    ("n3_mixed", "accept 3 2 0 0"),
    ("n3_cousins", "accept 9 0 0 0"),
    ("n3_zones", "accept 26 0 12 0"),
    ("n3_no_types", "refuse 23 2"),
    ("n3_twin", "refuse 11 4"),
    ("n3_twins", "refuse 11 5"),
    ("n3_far_twin", "refuse 11 21"),
    ("n3_skipped_twin", "refuse 11 9"),
    ("m4_prism", "accept 9 0 1 1"),
    ("m4_three", "accept 9 0 1 1"),
    ("m4_wide", "accept 9 0 1 1"),
    ("m4_wide_offsets", "accept 9 0 1 1"),
    ("m4_wide_connectivity", "accept 9 0 1 1"),
    ("m4_quadrilateral", "accept 9 0 1 1"),
    ("m4_one_vertex", "accept 9 0 1 1"),
    ("m4_small", "accept 9 0 1 1"),
    ("m4_faces", "refuse 38 5"),
    ("m4_cells", "refuse 38 5"),
    ("m4_mixed", "refuse 38 5"),
    ("m4_none", "refuse 38 5"),
    ("m4_other_size", "refuse 38 5"),
    ("m4_shifted", "refuse 38 5"),
    ("m4_type_alone", "refuse 38 5"),
    ("m4_unlisted_alone", "refuse 38 5"),
    ("m4_negative", "refuse 38 5"),
    ("m4_beyond", "refuse 38 5"),
    ("m4_least", "refuse 38 5"),
    ("m4_node_then_type", "refuse 38 5"),
    ("m4_type_then_node", "refuse 38 5"),
    ("m4_node_zero", "refuse 34 5 entry 11"),
    ("m4_node_above", "refuse 34 5 entry 21"),
    ("m4_node_negative", "refuse 34 5 entry 2"),
    ("m4_range", "refuse 29 5"),
    ("m4_no_offsets", "refuse 29 5"),
    ("m4_first_offset", "refuse 30 5"),
    ("m4_rise", "refuse 31 5"),
    ("m4_length", "refuse 32 5"),
    ("m4_faces_instead", "refuse 34 5 entry 1"),
    ("m4_beside_faces", "accept 21 0 1 3"),
    ("m4_cell_of_mixed", "refuse 37 13 entry 4"),
    ("m4_meets", "refuse 28 17"),
    ("o5_rind", "refuse 11 7"),
    ("o5_rind_name", "refuse 21 7"),
    ("o5_rind_first", "refuse 21 6"),
    ("o5_rind_alike", "refuse 11 7"),
    ("o5_rind_names", "refuse 21 6"),
    ("o5_rind_last_byte", "refuse 21 7"),
    ("o5_rind_bad", "refuse 21 7"),
    ("o5_rind_bad_first", "refuse 25 6"),
    ("o5_rind_apart", "refuse 11 8"),
    ("o5_rind_other_label", "refuse 11 7"),
    ("o5_coordinates", "refuse 11 7"),
    ("o5_coordinates_name", "refuse 21 7"),
    ("o5_location", "refuse 11 7"),
    ("o5_location_name", "refuse 21 7"),
    ("o5_type", "refuse 11 5"),
    ("o5_type_name", "refuse 21 5"),
    ("o5_type_first", "refuse 21 4"),
    ("o5_type_names", "refuse 23 3"),
    ("o5_version", "refuse 11 6"),
    ("o5_version_name", "refuse 21 6"),
    ("o5_user", "accept 6 2 1 0"),
    ("o5_user_alike", "refuse 11 7"),
    ("o5_unknown", "accept 5 3 1 0"),
    ("o5_two_flows", "accept 9 0 1 0"),
    ("o5_zone", "refuse 11 7"),
    ("o5_zone_name", "refuse 20 6"),
    ("r6_zero", "refuse 35 13 entry 1"),
    ("r6_zero_wide", "refuse 35 13 entry 2"),
    ("r6_itself", "refuse 37 13 entry 3"),
    ("r6_itself_negative", "refuse 37 13 entry 4"),
    ("r6_none", "refuse 36 13 entry 4"),
    ("r6_none_negative", "refuse 36 13 entry 1"),
    ("r6_least", "refuse 36 13 entry 1"),
    ("r6_least_wide", "refuse 36 13 entry 2"),
    ("r6_least_in_8_bytes", "refuse 36 13 entry 3"),
    ("r6_greatest", "refuse 36 13 entry 3"),
    ("r6_greatest_wide", "refuse 36 13 entry 4"),
    ("r6_above_4_bytes", "refuse 36 13 entry 4"),
    ("r6_face_in_4_bytes", "refuse 36 13 entry 1"),
    ("r6_cell_before_zero", "refuse 37 13 entry 2"),
    ("r6_zero_before_cell", "refuse 35 13 entry 2"),
    ("r6_none_before_zero", "refuse 36 13 entry 3"),
    ("r6_none_before_cell", "refuse 36 13 entry 1"),
    ("r6_second_cell", "refuse 37 13 entry 6"),
    ("r6_first_cell", "refuse 36 13 entry 4"),
    ("r6_other_cell", "refuse 37 13 entry 3"),
    ("r6_fixed", "refuse 37 13 entry 3"),
    ("r6_mixed", "refuse 37 13 entry 3"),
    ("r6_untaken", "refuse 37 13 entry 3"),
    ("r6_untaken_before", "refuse 27 9"),
    ("r6_bad_count", "refuse 36 13 entry 3"),
    ("r6_bad_type", "refuse 36 13 entry 3"),
    ("r6_bad_range", "refuse 36 13 entry 3"),
    ("r6_unsigned_range", "refuse 36 13 entry 3"),
    ("r6_face_behind", "accept 21 0 1 3"),
    ("r6_bad_count_of_faces", "refuse 36 13 entry 4"),
    ("r6_bad_range_of_faces", "refuse 36 13 entry 4"),
    ("r6_later_faces", "accept 17 0 1 2"),
    ("r6_later_triangles", "refuse 37 9 entry 1"),
    ("r6_later_untaken", "refuse 37 9 entry 1"),
    ("r6_later_bad_count", "refuse 36 9 entry 1"),
    ("r6_later_without_nodes", "refuse 23 13"),
    ("r6_other_zone", "refuse 36 13 entry 4"),
    ("r6_cell_and_other_zone", "refuse 37 13 entry 4"),
    ("r6_meets_face", "refuse 28 17"),
    ("r6_meets_cell", "refuse 37 13 entry 2"),
    ("r6_face_meets_cell", "refuse 28 17"),
    ("r6_cell_meets_faces", "refuse 28 13"),
    ("r6_node_first", "refuse 34 9 entry 1"),
    ("r6_node_middle", "refuse 34 9 entry 6"),
    ("r6_node_last", "refuse 34 9 entry 12"),
    ("r6_nodes", "refuse 34 9 entry 2"),
    ("r6_node_wide", "refuse 34 9 entry 7"),
    ("r6_node_least", "refuse 34 9 entry 12"),
    ("r6_node_of_triangle", "refuse 34 9 entry 10"),
    ("q7_agrees", "accept 18 0 1 2"),
    ("q7_wide", "accept 18 0 1 2"),
    ("q7_both_sides", "accept 18 0 1 2"),
    ("q7_two_cells", "accept 18 0 1 2"),
    ("q7_exchanged", "accept 18 0 1 2"),
    ("q7_second_section", "accept 22 0 1 3"),
    ("q7_three_cells", "accept 14 0 1 2"),
    ("q7_apart", "accept 14 0 1 2"),
    ("q7_face_without", "accept 22 0 1 3"),
    ("q7_array_behind", "accept 22 0 1 3"),
    ("q7_cell_first", "accept 18 0 1 2"),
    ("q7_text", "accept 19 0 1 2"),
    ("q7_second", "accept 18 0 1 2"),
    ("q7_one_side", "accept 18 0 1 2"),
    ("q7_unused", "accept 18 0 1 2"),
    ("q7_twice", "accept 18 0 1 2"),
    ("q7_other_twice", "accept 18 0 1 2"),
    ("q7_left_out", "accept 18 0 1 2"),
    ("q7_second_section_left_out", "accept 22 0 1 3"),
    ("q7_second_wrong", "accept 14 0 1 2"),
    ("q7_first_wrong", "accept 14 0 1 2"),
    ("q7_wrong_cell", "accept 14 0 1 2"),
    ("q7_both_named", "accept 14 0 1 2"),
    ("q7_both_sections", "accept 23 0 1 3"),
    ("q7_repeat", "accept 18 0 1 2"),
    ("q7_user", "accept 18 0 1 2"),
    ("q7_unknown", "accept 17 1 1 2"),
    ("q7_name", "accept 18 0 1 2"),
    ("q7_in_cells", "accept 18 0 1 2"),
    ("q7_numbers_in_cells", "accept 18 0 1 2"),
    ("q7_in_triangles", "accept 14 0 1 1"),
    ("q7_in_mixed", "accept 22 0 1 3"),
    ("q7_empty_in_cells", "refuse 24 17"),
    ("q7_empty_in_triangles", "refuse 24 13"),
    ("q7_empty", "refuse 39 9"),
    ("q7_reals", "refuse 39 9"),
    ("q7_singles", "refuse 39 9"),
    ("q7_unsigned", "refuse 39 9"),
    ("q7_characters", "refuse 39 9"),
    ("q7_turned", "refuse 39 9"),
    ("q7_list", "refuse 39 9"),
    ("q7_three_dimensions", "refuse 39 9"),
    ("q7_one_more", "refuse 39 9"),
    ("q7_one_less", "refuse 39 9"),
    ("q7_one_column", "refuse 39 9"),
    ("q7_three_columns", "refuse 39 9"),
    ("q7_first_zero", "refuse 39 9"),
    ("q7_zero_then_cell", "refuse 39 9"),
    ("q7_face", "refuse 39 9"),
    ("q7_second_face", "refuse 39 9"),
    ("q7_none", "refuse 39 9"),
    ("q7_second_none", "refuse 39 9"),
    ("q7_negative", "refuse 39 9"),
    ("q7_second_negative", "refuse 39 9"),
    ("q7_least", "refuse 39 9"),
    ("q7_least_wide", "refuse 39 9"),
    ("q7_greatest_wide", "refuse 39 9"),
    ("q7_cell_in_4_bytes", "refuse 39 9"),
    ("q7_zero_in_4_bytes", "refuse 39 9"),
    ("q7_fixed", "refuse 39 9"),
    ("q7_mixed", "refuse 39 9"),
    ("q7_other_zone", "refuse 39 9"),
    ("q7_no_cells", "refuse 39 9"),
    ("q7_cells_of_bad_count", "refuse 39 9"),
    ("q7_cells_of_bad_range", "refuse 39 9"),
    ("q7_cells_first_of_bad_count", "refuse 25 9"),
    ("q7_cells_without_faces", "refuse 23 13"),
    ("q7_cell_of_bad_face", "refuse 35 13 entry 4"),
    ("q7_cell_meets_faces", "refuse 28 13"),
    ("q7_node", "refuse 34 9 entry 12"),
    ("q7_offset", "refuse 30 9"),
    ("q7_before_cell", "refuse 39 9"),
    ("q7_behind_cell", "refuse 35 9 entry 4"),
    ("q7_two_arrays", "refuse 39 9"),
    ("q7_second_array", "refuse 39 17"),
];

#[test]
fn verdicts() {
    assert_eq!(cases().len(), VERDICTS.len());
    for (name, verdict) in VERDICTS {
        assert_eq!(validate_line(&case(name)), verdict, "case ({name})");
    }
}

#[test]
fn header_of_a() {
    let image = case("a");
    let words: Vec<u32> = (0..8).map(|k| u32_at(&image, 4 * k)).collect();
    assert_eq!(words, [1, 1844, 17, 32, 1460, 16, 1588, 256]);
    assert_eq!(image.len(), 1844);
    let counts = Counts { validated: 17, skipped: 0, zones: 1, sections: 2 };
    assert_eq!(validate(&image), Ok(counts));
}

#[test]
fn lengths_of_small_cases() {
    assert_eq!(case("b").len(), 31);
    assert_eq!(case("c").len(), 32);
    assert_eq!(case("d").len(), 116);
    assert_eq!(check_table(&case("d")), Ok(1));
}

#[test]
fn usage_of_a_k_and_l() {
    let mut out = [9; 6];
    assert_eq!(face_usage(&case("a"), 3, &mut out), Ok(4));
    assert_eq!(out, [1, 1, 1, 1, 9, 9]);
    assert_eq!(face_usage(&case("k"), 3, &mut out), Ok(4));
    assert_eq!(out, [1, 1, 3, 0, 9, 9]);
    let mut out = [9; 6];
    assert_eq!(face_usage(&case("l"), 3, &mut out), Err(Rejection::at_element(45, 13, 5)));
    assert_eq!(out, [0, 0, 0, 0, 9, 9]);
}

#[test]
fn sizes_of_m() {
    let size = data_size(&case("m"), RIND_ARRAY).unwrap();
    assert_eq!(size.dimensions(), [17, 33, 11]);
    assert_eq!(size.directions, 3);
}

#[test]
fn sizes_of_points() {
    for (name, count) in [("p1_wall", 12), ("p1_list", 5)] {
        let size = data_size(&case(name), 7).unwrap();
        assert_eq!(size.dimensions(), [count]);
        assert_eq!(size.directions, 1);
    }
}

#[test]
fn usage_of_flat_cases() {
    let mut out = [9; 5];
    assert_eq!(face_usage(&case("f2_cell_line"), 3, &mut out), Ok(4));
    assert_eq!(out, [1, 1, 1, 0, 9]);
    assert_eq!(face_usage(&case("f2_one_face"), 3, &mut out), Err(Rejection::at_element(45, 13, 5)));
    assert_eq!(out, [0, 0, 0, 0, 9]);
    assert_eq!(face_usage(&case("f2_cell"), 3, &mut out), Err(Rejection::at_node(33, 13)));
    assert_eq!(out, [0, 0, 0, 0, 9]);
}

#[test]
fn corners_and_types_of_mixed_cases() {
    for name in ["m4_three", "m4_wide", "m4_wide_offsets", "m4_wide_connectivity"] {
        let image = case(name);
        let section = section_entries(&image, 3).unwrap()[0].numbers();
        let elements: [(u64, &[i64]); 3] =
            [(17, &[1, 2, 3, 4, 5, 6, 7, 8]), (14, &[2, 9, 3, 6, 10, 7]), (10, &[6, 10, 7, 11])];
        for (element, (own_type, nodes)) in (1..).zip(elements) {
            assert_eq!(element_type(&image, &section, element), Ok(own_type), "{name}");
            for (c, &node) in (1..).zip(nodes) {
                assert_eq!(corner(&image, &section, element, c), Ok(node), "{name}");
            }
            for c in [0, nodes.len() as u64 + 1] {
                assert_eq!(corner(&image, &section, element, c), Err(Rejection::of_call(42)), "{name}");
            }
        }
    }
}
