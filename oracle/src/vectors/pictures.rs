//! Planes of both stages: `LRV1`, restoration, and `SRV1`, upscaling.

use super::at_hand;
use super::files::{compressed, decompressed, Reader};
use crate::cases::PlaneCase;
use crate::frame::{plane_extent, plane_sub, Frame};
use crate::report::Report;
use crate::upscale::Scaling;

/// A plane before and after restoration.
pub struct Restoration {
    pub case: PlaneCase,
    pub restored: Vec<i32>,
}

/// A plane before and after upscaling.
pub struct Upscaling {
    pub scaling: Scaling,
    pub input: Vec<i32>,
    pub expected: Vec<i32>,
}

enum Picture {
    Restoration(Restoration),
    Upscaling(Upscaling),
}

/// Gives every restored plane to `look`, with the name of its file.
pub fn restorations(report: &mut Report, mut look: impl FnMut(&mut Report, &str, Restoration)) {
    each(report, |report, name, picture| {
        if let Picture::Restoration(picture) = picture {
            look(report, name, picture);
        }
    });
}

/// Gives every upscaled plane to `look`, with the name of its file.
pub fn upscalings(report: &mut Report, mut look: impl FnMut(&mut Report, &str, Upscaling)) {
    each(report, |report, name, picture| {
        if let Picture::Upscaling(picture) = picture {
            look(report, name, picture);
        }
    });
}

fn each(report: &mut Report, mut look: impl FnMut(&mut Report, &str, Picture)) {
    let Some(folder) = at_hand(report) else { return };
    let files = compressed(&folder.join("planes")).unwrap_or_else(|message| {
        report.differs(&message);
        Vec::new()
    });
    for file in files {
        let name = file.file_name().unwrap_or_default().to_string_lossy().into_owned();
        match decompressed(&file) {
            Ok(bytes) => {
                pictures(&bytes).into_iter().for_each(|picture| look(report, &name, picture))
            }
            Err(message) => report.differs(&message),
        }
    }
}

fn pictures(bytes: &[u8]) -> Vec<Picture> {
    let mut reader = Reader(bytes);
    let mut found = Vec::new();
    while !reader.is_at_end() {
        found.push(match &reader.magic() {
            b"LRV1" => Picture::Restoration(restoration(&mut reader)),
            b"SRV1" => Picture::Upscaling(upscaling(&mut reader)),
            other => panic!("a record starts with {other:?}"),
        });
    }
    found
}

/// CDEF and result are told by what they differ from the plane before, modulo the number's size.
fn restoration(reader: &mut Reader<'_>) -> Restoration {
    let frame = frame(&reader.section().0);
    let units = reader.section().0.iter().map(|&number| i32::from(number as u16 as i16)).collect();
    let (deblocked, bits) = reader.section();
    let add = |plane: &[i32], more: &[i32]| -> Vec<i32> {
        plane.iter().zip(more).map(|(a, b)| (a + b) & ((1 << bits) - 1)).collect()
    };
    let cdef = add(&deblocked, &reader.section().0);
    let restored = add(&cdef, &reader.section().0);
    Restoration { case: PlaneCase { frame, units, deblocked, cdef }, restored }
}

fn frame(numbers: &[i32]) -> Frame {
    let number = |place: usize| numbers[place] as u32;
    Frame {
        plane: number(0),
        sub_x: number(1),
        sub_y: number(2),
        depth: number(3),
        frame_height: number(4),
        upscaled_width: number(5),
        unit_size: number(6),
        frame_type: number(7),
    }
}

fn upscaling(reader: &mut Reader<'_>) -> Upscaling {
    let numbers = reader.section().0;
    let number = |place: usize| numbers[place] as u32;
    let sub = plane_sub(number(0), (number(1), number(2)));
    let scaling = Scaling {
        plane: number(0),
        sub_x: number(1),
        sub_y: number(2),
        depth: number(3),
        frame_width: number(5),
        upscaled_width: number(6),
        frame_height: number(4),
        use_superres: 1,
        in_rows: number(7),
        in_cols: number(8),
        out_rows: plane_extent(number(4), sub.1),
        out_cols: plane_extent(number(6), sub.0),
    };
    let input = reader.section().0;
    Upscaling { scaling, input, expected: reader.section().0 }
}
