use bitpacking::{BitPacker, BitPacker4x};

fn main() {
    let ids: Vec<u32> = (0..128).map(|k| 3 * k).collect();
    let (packer, mut bytes, mut unpacked) = (BitPacker4x::new(), [0; 512], [0; 128]);
    let width = packer.num_bits_sorted(0, &ids);
    let size = packer.compress_sorted(0, &ids, &mut bytes, width);
    packer.decompress_sorted(0, &bytes[..size], &mut unpacked, width);
    println!("{size} bytes for {unpacked:?}");
}
