//! Upscaling: numbers, shapes and samples.

use crate::report::{row, watched, Finding};
use oracle::loop_filter::PlaneBuffer;
use oracle::superres::{upscale_frame, upscale_plane, SuperresFrameContext};
use oracle::upscale::Scaling;

/// Document 01's case J.
pub const CASE_J: Scaling = Scaling {
    plane: 0,
    sub_x: 0,
    sub_y: 0,
    depth: 8,
    frame_width: 8,
    upscaled_width: 16,
    frame_height: 1,
    use_superres: 1,
    in_rows: 1,
    in_cols: 8,
    out_rows: 1,
    out_cols: 16,
};
pub const ROW_J: [i32; 8] = [0, 0, 0, 0, 128, 128, 128, 128];

pub fn findings() -> Vec<Finding> {
    [number_findings(), shape_findings(), sample_findings()].concat()
}

pub fn by_plane(input: &'static str, document: &'static str, reference: String) -> Finding {
    Finding { call: "upscale_plane", input, document, reference }
}

pub fn by_frame(input: &'static str, document: &'static str, reference: String) -> Finding {
    Finding { call: "upscale_frame", input, document, reference }
}

/// The plane call on these numbers and samples, the output filled with 9 before.
pub fn tell(scaling: Scaling, input: &[i32]) -> String {
    tell_in(&scaling.context(), &scaling, input)
}

pub fn tell_in(context: &SuperresFrameContext, scaling: &Scaling, input: &[i32]) -> String {
    let mut samples = input.to_vec();
    let mut output = vec![9; scaling.out_samples()];
    let did = watched(|| {
        let input = plane(scaling.in_rows, scaling.in_cols, &mut samples);
        let mut output = plane(scaling.out_rows, scaling.out_cols, &mut output);
        format!("{:?}", upscale_plane(context, scaling.plane as u8, &input, &mut output))
    });
    format!("{did}; output {}", row(&output))
}

pub fn plane(rows: u32, cols: u32, samples: &mut [i32]) -> PlaneBuffer<'_> {
    PlaneBuffer { rows, cols, samples }
}

fn number_findings() -> Vec<Finding> {
    let row = &ROW_J;
    vec![
        by_plane("case J as it stands (the output holds 9 before)", "0", tell(CASE_J, row)),
        by_plane("case J, depth 9", "1", tell(Scaling { depth: 9, ..CASE_J }, row)),
        by_plane("case J, depth 31", "1", tell(Scaling { depth: 31, ..CASE_J }, row)),
        by_plane("case J as plane 3", "2", tell(Scaling { plane: 3, ..CASE_J }, row)),
        by_plane(
            "case J as plane 1, subsampling (0,1)",
            "2",
            tell(Scaling { plane: 1, sub_y: 1, ..CASE_J }, row),
        ),
        by_plane(
            "case J, frame height 0, no output rows",
            "4",
            tell(Scaling { frame_height: 0, out_rows: 0, ..CASE_J }, row),
        ),
        by_plane(
            "frame width 0 to 4, input 1 by 1 (sample 7)",
            "4",
            tell(Scaling { frame_width: 0, in_cols: 1, ..to_four() }, &[7]),
        ),
        by_plane(
            "frame width 0 to 4, input of no columns",
            "4",
            tell(Scaling { frame_width: 0, in_cols: 0, ..to_four() }, &[]),
        ),
        by_frame("case J, upscaled width 7", "6", narrower()),
        by_plane(
            "case J with the flag clear, shapes 1 by 8 and 1 by 16",
            "7 (a copy asks for equal shapes)",
            tell(Scaling { use_superres: 0, ..CASE_J }, row),
        ),
        by_plane(
            "case J, upscaled width 8, both shapes 1 by 8",
            "0, a copy",
            tell(Scaling { upscaled_width: 8, out_cols: 8, ..CASE_J }, row),
        ),
    ]
}

fn to_four() -> Scaling {
    Scaling { upscaled_width: 4, out_cols: 4, ..CASE_J }
}

fn narrower() -> String {
    let scaling = Scaling { upscaled_width: 7, out_cols: 7, ..CASE_J };
    let (mut input, mut output) = (ROW_J.to_vec(), vec![9; 7]);
    let input = [plane(1, 8, &mut input)];
    let mut planes = [plane(1, 7, &mut output)];
    let did = format!("{:?}", upscale_frame(&scaling.context(), &input, &mut planes));
    format!("{did}; output {}", row(&output))
}

fn shape_findings() -> Vec<Finding> {
    let two = Scaling { frame_height: 2, in_rows: 2, out_rows: 2, ..CASE_J };
    let fifteen = [ROW_J.as_slice(), &ROW_J[..7]].concat();
    vec![
        by_plane(
            "case J, input of 7 columns",
            "7",
            tell(Scaling { in_cols: 7, ..CASE_J }, &ROW_J[..7]),
        ),
        by_plane(
            "case J, output of 15 columns",
            "7",
            tell(Scaling { out_cols: 15, ..CASE_J }, &ROW_J),
        ),
        by_plane(
            "case J twice below itself, input 2 by 8 with 15 samples",
            "7",
            tell(two, &fifteen),
        ),
        by_plane("case J, input 1 by 8 with 9 samples", "7", {
            tell(CASE_J, &[ROW_J.as_slice(), &[5]].concat())
        }),
        by_frame("a copy of 1 by 8, input with 7 samples", "7", short_copy()),
        by_frame("two planes asked for, one handed over", "a call takes one plane", {
            let context = SuperresFrameContext { num_planes: 2, ..CASE_J.context() };
            format!("{:?}", upscale_frame(&context, &[PlaneBuffer::empty()], &mut []))
        }),
    ]
}

fn short_copy() -> String {
    let context = Scaling { use_superres: 0, ..CASE_J }.context();
    let (mut input, mut output) = (ROW_J[..7].to_vec(), vec![9; 8]);
    let did = watched(|| {
        let input = [plane(1, 8, &mut input)];
        let mut output = [plane(1, 8, &mut output)];
        format!("{:?}", upscale_frame(&context, &input, &mut output))
    });
    format!("{did}; output {}", row(&output))
}

fn sample_findings() -> Vec<Finding> {
    let with = |sample: i32| {
        let mut input = ROW_J;
        input[7] = sample;
        tell(CASE_J, &input)
    };
    vec![
        by_plane("case J, last sample 300", "15", with(300)),
        by_plane("case J, last sample -1", "15", with(-1)),
        by_plane("case J, last sample 2^31 - 1", "15", with(i32::MAX)),
        by_plane(
            "case J with a second input row of 300, which is not read",
            "15",
            tell(Scaling { in_rows: 2, ..CASE_J }, &[ROW_J, [300; 8]].concat()),
        ),
    ]
}
