//! Every stored type, in the verdict and in the reader.

use super::*;
use reference::{corner, element_corners, element_type};

#[test]
fn every_fixed_type_in_every_base() {
    for dimensions in DIMENSIONS {
        for widths in WIDTHS {
            let image = mesh(dimensions, 27, &every_type(), widths);
            assert_eq!(refusal(&image), (0, 0), "{dimensions:?} {widths:?}");
            let image = image.to_bytes();
            let section = entry(&image, 2);
            assert_eq!(section[..4], [4, 20, 1, 19]);
            assert_eq!([section[5], section[7], section[8]], [widths[0] as u64, widths[1] as u64, 195]);
            for (number, (own_type, nodes)) in (1..).zip(LIST) {
                assert_eq!(element_type(&image, &section, number), Ok(own_type as u64));
                let mut out = [7; 28];
                assert_eq!(element_corners(&image, &section, number, &mut out), Ok(nodes));
                assert_eq!(out[..nodes], element(own_type, nodes)[1..]);
                assert!(out[nodes..].iter().all(|&number| number == 7));
                assert_eq!(rule(element_corners(&image, &section, number, &mut out[..nodes - 1])), 46);
                for c in 1..=nodes as u64 {
                    assert_eq!(corner(&image, &section, number, c), Ok(c as i64));
                }
                for c in [0, nodes as u64 + 1, u64::MAX] {
                    assert_eq!(rule(corner(&image, &section, number, c)), 42);
                }
            }
        }
    }
}

#[test]
fn every_stored_type_at_every_length() {
    let ends = [i64::from(i32::MIN), i64::from(i32::MAX)];
    for stored in (-30..70).chain(ends) {
        for length in 1..30 {
            let fits = LIST.contains(&(stored, length - 1));
            let elements = [element(10, 4), element(stored, length - 1), element(5, 3)];
            let made = mesh([3, 3], 30, &elements, [4, 4]);
            assert_eq!(refusal(&made), if fits { (0, 0) } else { (38, 4) }, "{stored} {length}");
            let image = made.to_bytes();
            let at = image.len() as u64 - 4 * (5 + length as u64 + 4);
            let section = [4, 20, 1, 3, at - 16, 4, at, 4, 9 + length as u64, 0, 0];
            let answer = element_type(&image, &section, 2);
            assert_eq!(answer, if fits { Ok(stored as u64) } else { Err(Rejection::of_call(43)) });
            assert_eq!(rule(corner(&image, &section, 2, 1)), if fits { 0 } else { 43 });
            assert_eq!(rule(corner(&image, &section, 2, 99)), if fits { 42 } else { 43 });
            assert_eq!(element_type(&image, &section, 3), Ok(5));
        }
    }
}

#[test]
fn a_stored_type_is_signed_and_of_full_width() {
    let far = 1i64 << 32;
    for of_offsets in [4, 8] {
        for (own_type, nodes) in LIST {
            let others =
                [far + own_type, own_type - far, (1 << 31) + own_type, i64::MIN + own_type, i64::MIN, -own_type];
            for stored in others {
                let made = mesh([2, 2], 27, &[element(stored, nodes), element(5, 3)], [of_offsets, 8]);
                assert_eq!(refusal(&made), (38, 4), "{stored}");
                let lawful = mesh([2, 2], 27, &[element(own_type, nodes), element(5, 3)], [of_offsets, 8]).to_bytes();
                let section = entry(&lawful, 2);
                assert_eq!(element_type(&lawful, &section, 1), Ok(own_type as u64));
                assert_eq!(rule(element_type(&made.to_bytes(), &section, 1)), 43);
                assert_eq!(rule(corner(&made.to_bytes(), &section, 1, 1)), 43);
                assert_eq!(element_type(&made.to_bytes(), &section, 2), Ok(5));
            }
        }
    }
}
