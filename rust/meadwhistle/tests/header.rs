//! `src/ffi.rs` lays out its structs as the C header does. Where this fails, change both: the engine writes past the end of a struct
//! that is too small.

const HEADER: &str = include_str!("../../../include/meadwhistle.h");

/// The structs of `src/ffi.rs`, in the header's words.
const STRUCTS: [&str; 4] = [
    "typedef struct { uint8_t number; size_t written; } meadwhistle_ran;",
    "typedef struct { uint8_t is_open; size_t root; uint64_t leaves; uint64_t repeats; uint64_t active; uint64_t going; \
     uint16_t nodes[64]; uint64_t gain[64]; } meadwhistle_desk;",
    "typedef struct { uint8_t number; uint8_t status; uint16_t notices; uint64_t lines; } meadwhistle_reply;",
    "typedef struct { uint8_t file; size_t place; } meadwhistle_part;",
];

#[test]
fn the_structs_are_the_headers() {
    let code: Vec<&str> = HEADER
        .split("/*")
        .map(|piece| piece.split_once("*/").map_or(piece, |(_, code)| code))
        .flat_map(str::split_whitespace)
        .collect();
    let code = code.join(" ");
    for declared in STRUCTS {
        assert!(code.contains(declared), "not in the header: {declared}");
    }
    assert_eq!(code.matches("typedef struct").count(), STRUCTS.len());
}
