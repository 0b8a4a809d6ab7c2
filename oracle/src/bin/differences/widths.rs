//! Upscaling: widths and the clips at a row's end.

use crate::report::{row, watched, Finding};
use crate::superres::{by_frame, by_plane, plane, tell, tell_in, CASE_J, ROW_J};
use oracle::superres::{upscale_frame, upscale_plane, upscale_sample, SuperresFrameContext};
use oracle::upscale::{step_and_start, Scaling};

pub fn findings() -> Vec<Finding> {
    [width_findings(), clip_findings()].concat()
}

/// Frame widths 5 to 6 with sub_x 1: both planes are 3 wide.
const FIVE_TO_SIX: Scaling = Scaling {
    plane: 1,
    sub_x: 1,
    frame_width: 5,
    upscaled_width: 6,
    in_cols: 3,
    out_cols: 3,
    ..CASE_J
};

fn width_findings() -> Vec<Finding> {
    vec![
        by_plane(
            "frame widths 5 to 6, plane 1, sub_x 1, row 10 20 30",
            "8",
            format!("{}; {}", tell(FIVE_TO_SIX, &[10, 20, 30]), by_formula(&[10, 20, 30])),
        ),
        by_frame(
            "frame widths 5 to 6, subsampling (1,1), planes 0 and 1",
            "8 for plane 1, nothing written",
            plane_zero_first(),
        ),
        by_plane("8 to 16 from an input of 16393 columns, all 100", "7", long_row(8, 16, 16_393)),
        by_plane("16384 to 16385, all 100", "4", long_row(16_384, 16_385, 16_384)),
        by_plane("131072 to 131074, all 100, the last column 0", "4", far_end()),
    ]
}

/// What the standard's formula gives for the row where the Rust refuses.
fn by_formula(input: &[i32]) -> String {
    let (step, start) = step_and_start(3, 3);
    let output: Vec<i32> = (0..3)
        .map(|x| {
            let position = (x * step + start - (1 << 14)) as i32;
            let phase = (position & 0x3fff) >> 8;
            upscale_sample(input, position >> 14, phase as usize, 0, 3, 8)
        })
        .collect();
    format!("the formula (step {step}, start {start}) gives {}", row(&output))
}

fn plane_zero_first() -> String {
    let context = SuperresFrameContext { subsampling_y: 1, ..FIVE_TO_SIX.context() };
    let (mut luma, mut chroma) = (vec![10, 20, 30, 40, 50], vec![10, 20, 30]);
    let (mut first, mut second) = (vec![9; 6], vec![9; 3]);
    let input = [plane(1, 5, &mut luma), plane(1, 3, &mut chroma)];
    let mut output = [plane(1, 6, &mut first), plane(1, 3, &mut second)];
    let did = format!("{:?}", upscale_frame(&context, &input, &mut output));
    format!("{did}; plane 0 is then {}, plane 1 {}", row(&first), row(&second))
}

fn long_row(from: u32, to: u32, cols: u32) -> String {
    let (did, output) = upscaled(from, to, &mut vec![100; cols as usize]);
    let wrong = output.iter().filter(|&&sample| sample != 100).count();
    format!("{did}; {wrong} of {to} outputs are not 100")
}

/// Positions past 2^31: the end of the row is read from its start.
fn far_end() -> String {
    let mut samples = vec![100; 131_072];
    samples[131_071] = 0;
    let (did, output) = upscaled(131_072, 131_074, &mut samples);
    format!("{did}; output ends in {}", row(&output[131_070..]))
}

/// One row, with what the call said and what it wrote over 9.
fn upscaled(from: u32, to: u32, samples: &mut [i32]) -> (String, Vec<i32>) {
    let scaling = Scaling { frame_width: from, upscaled_width: to, out_cols: to, ..CASE_J };
    let mut output = vec![9; to as usize];
    let did = watched(|| {
        let input = plane(1, samples.len() as u32, samples);
        let mut output = plane(1, to, &mut output);
        format!("{:?}", upscale_plane(&scaling.context(), 0, &input, &mut output))
    });
    (did, output)
}

fn clip_findings() -> Vec<Finding> {
    let mi_cols = |mi_cols| SuperresFrameContext { mi_cols, ..CASE_J.context() };
    let one = Scaling { frame_width: 1, upscaled_width: 2, in_cols: 1, out_cols: 2, ..CASE_J };
    let nine = Scaling { frame_width: 9, upscaled_width: 12, in_cols: 9, out_cols: 12, ..CASE_J };
    let cropped = [0, 0, 0, 0, 0, 0, 0, 0, 100];
    let padded: Vec<i32> = cropped.into_iter().chain([0; 7]).collect();
    vec![
        by_plane(
            "case J, MiCols 0 (the frame width gives 2)",
            "MiCols follows from the frame width",
            tell_in(&mi_cols(0), &CASE_J, &ROW_J),
        ),
        by_plane(
            "case J, MiCols 1",
            "MiCols follows from the frame width",
            tell_in(&mi_cols(1), &CASE_J, &ROW_J),
        ),
        by_plane(
            "1 to 2, a row cut to 1 column: 100",
            "0, as the Rust: the second clip is its own",
            tell(one, &[100]),
        ),
        by_plane(
            "the same row with the 7 columns that the first clip allows, all 0",
            "0, as the standard reads it",
            tell(Scaling { in_cols: 8, ..one }, &[100, 0, 0, 0, 0, 0, 0, 0]),
        ),
        by_plane(
            "9 to 12, a row cut to 9 columns: 0 but the last, which is 100",
            "0, as the Rust: the second clip is its own",
            tell(nine, &cropped),
        ),
        by_plane(
            "the same row with the 7 columns that the first clip allows, all 0",
            "0, as the standard reads it",
            tell(Scaling { in_cols: 16, ..nine }, &padded),
        ),
    ]
}
