//! What a host does with an embedded filter: its instructions, eight bytes each, are what `prctl(2)` and `seccomp(2)` ask for. This one only
//! prints them.

const FILTER: &[u8] = include_bytes!(concat!(env!("OUT_DIR"), "/filter.bpf"));

fn main() {
    for instruction in FILTER.chunks_exact(8) {
        let bytes: String = instruction.iter().map(|byte| format!("{byte:02x}")).collect();
        println!("{bytes}");
    }
}
