//! Upscaling from 960 to 1920 columns, 1080 rows; and between widths that have no common step.

use crate::pictures::picture;
use crate::table::{head, row, BY_DEPTH};
use crate::turns::{Effort, Pair};
use oracle::calls::UpscaleCall;
use oracle::frame::DEPTHS;
use oracle::host::upscale_plane_bare;
use oracle::report::Report;
use oracle::rng::Rng;
use oracle::upscale::{upscale_into, Scaling};

const ROWS: u32 = 1080;
const WIDTHS: [(u32, u32); 2] = [(960, 1920), (1477, 1920)];

struct UpscalePair {
    call: UpscaleCall,
    upscaled: Vec<i32>,
    number: u32,
    accepted: bool,
}

impl UpscalePair {
    fn new(depth: u32, (from, to): (u32, u32)) -> Self {
        let scaling = Scaling {
            plane: 0,
            sub_x: 0,
            sub_y: 0,
            depth,
            frame_width: from,
            upscaled_width: to,
            frame_height: ROWS,
            use_superres: 1,
            in_rows: ROWS,
            in_cols: from,
            out_rows: ROWS,
            out_cols: to,
        };
        let mut rng = Rng::for_case("bench upscaling", depth as usize);
        let input = picture(&mut rng, from as usize, ROWS as usize, depth);
        let call = UpscaleCall::new(&mut rng, scaling, input);
        UpscalePair { upscaled: vec![0; call.output.len()], call, number: 0, accepted: false }
    }
}

impl Pair for UpscalePair {
    fn reference(&mut self) {
        let UpscaleCall { scaling, input, .. } = &mut self.call;
        self.accepted = upscale_into(scaling, input, &mut self.upscaled).is_ok();
    }

    fn library(&mut self) {
        self.number = upscale_plane_bare(&mut self.call);
    }

    fn agree(&self) -> bool {
        self.accepted && self.number == 0 && self.call.output == self.upscaled
    }
}

pub fn rows(effort: &Effort, report: &mut Report) {
    head("upscale_plane, 1080 rows", &BY_DEPTH);
    for widths in WIDTHS {
        let label = format!("{} to {}", widths.0, widths.1);
        let ratios = DEPTHS.map(|depth| {
            let what = format!("{depth} bits, {label}");
            effort.ratio(report, &what, &mut UpscalePair::new(depth, widths))
        });
        row(&label, &ratios);
    }
}
