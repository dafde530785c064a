//! The peer of `main.rt.in`: the same bytes, written in plain Rust.
use std::time::Instant;

struct Voxel {
    x: u8,
    y: u8,
    z: u8,
    colour: u8,
}

fn put(file: &mut Vec<u8>, n: u32) {
    file.extend_from_slice(&n.to_le_bytes());
}

#[inline(never)]
fn written(size: [u32; 3], voxels: &[Voxel]) -> Vec<u8> {
    let n = voxels.len() as u32;
    let mut file = Vec::with_capacity(60 + 4 * voxels.len());
    file.extend_from_slice(b"VOX ");
    put(&mut file, 150);
    file.extend_from_slice(b"MAIN");
    put(&mut file, 0);
    put(&mut file, 40 + 4 * n);
    file.extend_from_slice(b"SIZE");
    put(&mut file, 12);
    put(&mut file, 0);
    for side in size {
        put(&mut file, side);
    }
    file.extend_from_slice(b"XYZI");
    put(&mut file, 4 + 4 * n);
    put(&mut file, 0);
    put(&mut file, n);
    for v in voxels {
        file.extend_from_slice(&[v.x, v.y, v.z, v.colour]);
    }
    file
}

fn main() {
    let bytes = std::fs::read("ordered.vox").unwrap();
    let number = |at: usize| u32::from_le_bytes(bytes[at..at + 4].try_into().unwrap());
    let size = [number(32), number(36), number(40)];
    let voxels: Vec<Voxel> =
        bytes[60..].chunks_exact(4).map(|b| Voxel { x: b[0], y: b[1], z: b[2], colour: b[3] }).collect();
    let (mut best, mut length) = (u128::MAX, 0);
    for _ in 0..9 {
        let start = Instant::now();
        let file = written(size, &voxels);
        best = best.min(start.elapsed().as_nanos());
        length = file.len();
    }
    println!("{} {}", best / 1000, length);
}
