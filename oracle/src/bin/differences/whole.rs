//! Whole-plane restoration.

use crate::case_b::{self, ROW, WIENER};
use crate::report::{row, watched, Finding};
use oracle::context::with_units;
use oracle::frame::Frame;
use oracle::loop_restoration::loop_restoration_frame;
use oracle::units::Unit;
use oracle::whole_plane::planes_up_to;

const GUIDED: Unit = [2, 0, 0, 0, 0, 0, 0, 0, -32, 31];
const NONE: Unit = [0; 10];

pub fn findings() -> Vec<Finding> {
    [frame_findings(), unit_findings(), shape_findings(), sample_findings()].concat()
}

fn whole(input: &'static str, document: &'static str, reference: String) -> Finding {
    Finding { call: "whole plane", input, document, reference }
}

/// One row of a plane by the reference: shapes and samples as given, one unit everywhere.
struct Run {
    frame: Frame,
    unit: Unit,
    cols: [u32; 3],
    deblocked: Vec<i32>,
    cdef: Vec<i32>,
    out: Vec<i32>,
}

impl Run {
    /// Case B as it stands, the output filled with 9 to show what is written.
    fn case_b() -> Self {
        Run {
            frame: case_b::FRAME,
            unit: WIENER,
            cols: [7; 3],
            deblocked: vec![0; 7],
            cdef: ROW.to_vec(),
            out: vec![9; 7],
        }
    }

    fn with_frame(change: fn(&mut Frame)) -> String {
        let mut run = Self::case_b();
        change(&mut run.frame);
        run.tell()
    }

    fn with_unit(unit: Unit) -> String {
        Run { unit, ..Self::case_b() }.tell()
    }

    fn tell(mut self) -> String {
        let did = watched(|| {
            self.call();
            "done".to_string()
        });
        format!("{did}; output {}", row(&self.out))
    }

    fn call(&mut self) {
        let (plane, unit) = (self.frame.plane, self.unit);
        let curr = planes_up_to(plane, (1, self.cols[0]), &mut self.deblocked);
        let cdef = planes_up_to(plane, (1, self.cols[1]), &mut self.cdef);
        let mut out = planes_up_to(plane, (1, self.cols[2]), &mut self.out);
        with_units(&self.frame, &|_, _| unit, |context| {
            loop_restoration_frame(context, &curr, &cdef, &mut out);
        });
    }
}

fn frame_findings() -> Vec<Finding> {
    let tell = Run::with_frame;
    vec![
        whole("case B as it stands (the output holds 9 before)", "0", tell(|_| {})),
        whole("case B, depth 9", "1", tell(|frame| frame.depth = 9)),
        whole("case B, depth 0", "1", tell(|frame| frame.depth = 0)),
        whole("case B, depth 26", "1", tell(|frame| frame.depth = 26)),
        whole("case B, depth 64", "1", tell(|frame| frame.depth = 64)),
        whole("case B as plane 3 of four", "2", tell(|frame| frame.plane = 3)),
        whole(
            "case B as plane 1, subsampling (0,1)",
            "2",
            tell(|frame| (frame.plane, frame.sub_y) = (1, 1)),
        ),
        whole(
            "case B as plane 1, subsampling (2,0): the plane is 2 wide",
            "2",
            tell(|frame| (frame.plane, frame.sub_x) = (1, 2)),
        ),
        whole("frame type 4", "3", "not representable: the type is an enum of four".to_string()),
        whole("case B, frame height 0", "4", tell(|frame| frame.frame_height = 0)),
        whole("case B, upscaled width 0", "4", tell(|frame| frame.upscaled_width = 0)),
        whole("16385 by 1, all 100 but one sample 0", "4", too_wide()),
        whole("case B, unit size 0", "5", tell(|frame| frame.unit_size = 0)),
        whole("case B, unit size 63", "5", tell(|frame| frame.unit_size = 63)),
        whole("case B, unit size 32", "5", tell(|frame| frame.unit_size = 32)),
    ]
}

fn too_wide() -> String {
    let width = 16_385;
    let mut cdef = vec![100; width];
    cdef[width - 1] = 0;
    let mut run = Run { cols: [width as u32; 3], cdef, ..Run::case_b() };
    run.frame.upscaled_width = width as u32;
    (run.deblocked, run.out) = (vec![0; width], vec![9; width]);
    let did = watched(|| {
        run.call();
        "done".to_string()
    });
    format!("{did}; output ends in {}", row(&run.out[width - 4..]))
}

fn unit_findings() -> Vec<Finding> {
    let mut wide = WIENER;
    wide[4] = 11;
    let mut huge = WIENER;
    huge[6] = 1 << 28;
    let guided = |set, w0, w1| [2, 0, 0, 0, 0, 0, 0, set, w0, w1];
    vec![
        whole(
            "a unit table of the wrong length",
            "10",
            "not representable: units come from callbacks by unit row and column".to_string(),
        ),
        whole("case B, unit type 3", "11", Run::with_unit([3; 10])),
        whole("case B, first horizontal coefficient 11", "11", Run::with_unit(wide)),
        whole("case B, third horizontal coefficient 2^28", "11", Run::with_unit(huge)),
        whole("case B, self-guided, set 15", "0", Run::with_unit(guided(15, -32, 31))),
        whole("case B, self-guided, set 16", "11", Run::with_unit(guided(16, -32, 31))),
        whole("case B, self-guided, w0 32", "11", Run::with_unit(guided(0, 32, 31))),
        whole("case B, self-guided, w1 2^22", "11", Run::with_unit(guided(0, 0, 1 << 22))),
    ]
}

fn shape_findings() -> Vec<Finding> {
    let base = Run::case_b;
    vec![
        whole(
            "case B, deblocked plane 1 by 7 without samples (one stripe: it is never read)",
            "7",
            Run { deblocked: vec![], ..base() }.tell(),
        ),
        whole(
            "case B, CDEF plane 1 by 7 with 6 samples",
            "7",
            Run { cdef: ROW[..6].to_vec(), ..base() }.tell(),
        ),
        whole(
            "case B, output plane 1 by 7 with 6 samples",
            "7",
            Run { out: vec![9; 6], ..base() }.tell(),
        ),
        whole(
            "case B, CDEF plane 1 by 7 with 8 samples",
            "7",
            Run { cdef: vec![0, 0, 0, 100, 0, 0, 0, 5], ..base() }.tell(),
        ),
        whole(
            "case B, CDEF plane 1 by 4 (samples 0 0 0 100)",
            "7",
            Run { cols: [7, 4, 7], cdef: ROW[..4].to_vec(), ..base() }.tell(),
        ),
        whole(
            "case B, output plane 1 by 4",
            "7",
            Run { cols: [7, 7, 4], out: vec![9; 4], ..base() }.tell(),
        ),
        whole("case B, the CDEF plane not handed over", "7", missing_plane()),
        whole(
            "scratch too short",
            "16",
            "not representable: scratch is allocated inside".to_string(),
        ),
    ]
}

fn missing_plane() -> String {
    let (mut deblocked, mut samples) = (vec![0; 7], vec![9; 7]);
    let curr = planes_up_to(0, (1, 7), &mut deblocked);
    let mut out = planes_up_to(0, (1, 7), &mut samples);
    let did = watched(|| {
        with_units(&case_b::FRAME, &|_, _| WIENER, |context| {
            loop_restoration_frame(context, &curr, &[], &mut out);
        });
        "done".to_string()
    });
    format!("{did}; output {}", row(&samples))
}

fn sample_findings() -> Vec<Finding> {
    let with = |unit: Unit, sample: i32| {
        let mut cdef = ROW.to_vec();
        cdef[3] = sample;
        Run { unit, cdef, ..Run::case_b() }.tell()
    };
    vec![
        whole("8 bits, type none, sample 256", "15", with(NONE, 256)),
        whole("8 bits, type none, sample -1", "15", with(NONE, -1)),
        whole("8 bits, Wiener, sample 256", "15", with(WIENER, 256)),
        whole("8 bits, Wiener, sample -100", "15", with(WIENER, -100)),
        whole("8 bits, Wiener, sample 2^31 - 1", "15", with(WIENER, i32::MAX)),
        whole("8 bits, self-guided, sample 256", "15", with(GUIDED, 256)),
        whole("8 bits, self-guided, sample 2^31 - 1", "15", with(GUIDED, i32::MAX)),
    ]
}
