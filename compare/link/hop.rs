//! Prints the channels of a connection's first events, by document 01's map and hop.
#[repr(C)]
struct Got {
    number: u8,
    first: usize,
    second: usize,
}

extern "C" {
    fn board_hop(raw: *const [u8; 5], unmapped: u8, hop: u8) -> Got;
}

fn main() {
    let (map, mut unmapped) = ([0x0A, 0, 0, 0, 0], 0);
    for _ in 0..8 {
        let to = unsafe { board_hop(&map, unmapped, 5) };
        assert_eq!(to.number, 0, "refused");
        println!("{} {}", to.first, to.second);
        unmapped = to.first as u8;
    }
}
