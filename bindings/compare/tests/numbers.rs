//! The numbers that a call can answer: any other fails the comparison, whoever answers it. 9 is retired.

use std::panic::{catch_unwind, AssertUnwindSafe};
use swathecold_compare::call::Call;
use swathecold_compare::comparison::Comparison;
use swathecold_compare::plain::{Cut, Document01, Lanes, Lent, Replacement, Verdict};
use swathecold_compare::reading::Reading;
use swathecold_compare::unit::{Directions, Picture, Unit};

/// Answers one number, whatever it is asked.
struct Always(u32);

#[rustfmt::skip]
impl Unit for Always {
    fn level_sizes(&self, _: u32, _: u32, _: u32, _: u32, _: &mut [u64; 4]) -> u32 { self.0 }
    fn generate_mipmaps(&self, _: u32, _: u32, _: u32, _: u32, _: &mut [u32], _: &mut u64) -> u32 { self.0 }
    fn cut_cross(&self, _: u32, _: u32, _: &[u8], _: &mut [u32], _: &mut u64) -> u32 { self.0 }
    fn cut(&self, _: &Lent, _: &Cut, _: &mut [u32], _: &mut u64) -> u32 { self.0 }
    fn level_view(&self, _: &Lent, _: u32, _: u32, _: &mut [u64; 2]) -> u32 { self.0 }
    fn compute_mip_level(&self, _: u32, _: u32, _: &Lanes, _: &mut u32) -> u32 { self.0 }
    fn sample4_rgb(&self, _: &Picture, _: [u32; 2], _: &Lanes, _: &Lanes, _: &Lanes, _: &mut [f32; 12]) -> u32 { self.0 }
    fn sample4_alpha(&self, _: &Picture, _: [u32; 2], _: &Lanes, _: &Lanes, _: &Lanes, _: &mut Lanes) -> u32 { self.0 }
    fn sample_bilinear_rgb(&self, _: &Picture, _: [u32; 2], _: &Lanes, _: &Lanes, _: u32, _: &[u32; 4],
                           _: &mut [f32; 12]) -> u32 { self.0 }
    fn sample_bilinear_alpha(&self, _: &Picture, _: [u32; 2], _: &Lanes, _: &Lanes, _: u32, _: &mut Lanes) -> u32 { self.0 }
    fn cubemap_uv_from_normal(&self, _: &Directions, _: &mut [f32; 8], _: &mut [u32; 4]) -> u32 { self.0 }
    fn sample_cubemap_rgb(&self, _: &Picture, _: &Directions, _: &[u32; 4], _: &mut [f32; 12]) -> u32 { self.0 }
    fn sample_cubemap_trilinear_rgb(&self, _: &Picture, _: &Directions, _: &Lanes, _: &mut [f32; 12]) -> u32 { self.0 }
    fn build_ranges(&self, _: &Lent, _: &mut [u8], _: &mut u64) -> u32 { self.0 }
    fn replace_texel(&self, _: u32, _: u32, _: u32, _: &mut [u32], _: &mut [u8], _: &Replacement) -> u32 { self.0 }
    fn irradiance_sh4(&self, _: &Lent, _: &mut [f32; 12]) -> u32 { self.0 }
    fn check_chain(&self, _: &Lent, _: u32, _: &mut Verdict) -> u32 { self.0 }
    fn check_level(&self, _: &Lent, _: u32, _: u32, _: &mut Verdict) -> u32 { self.0 }
}

/// A call that document 01 accepts.
const ACCEPTED: Call = Call::ComputeMipLevel {
    width: 1,
    height: 1,
    steps: [0.0; 4],
};

/// A reading that answers what no call gives stops the run, even where the other agrees with it.
#[test]
fn no_reading_answers_another_number() {
    for number in 0..=20 {
        let mut comparison = Comparison::new(Box::new(Always(number)));
        comparison.hold("itself", Box::new(Always(number)), false);
        let stopped = catch_unwind(AssertUnwindSafe(|| comparison.call(&ACCEPTED))).is_err();
        assert_eq!(stopped, matches!(number, 9 | 12 | 13 | 16..), "{number}");
        assert_eq!(comparison.others[0].differences(), 0);
    }
}

/// One that answers what no call gives is reported, in these words.
#[test]
fn no_unit_answers_another_number() {
    let mut comparison = Comparison::new(Box::new(Reading::<Document01>::NEW));
    comparison.hold("always 9", Box::new(Always(9)), false);
    comparison.call(&ACCEPTED);
    let shown = comparison.others[0]
        .tallies
        .iter()
        .find_map(|tally| tally.smallest.as_ref());
    let text = &shown.expect("a difference").text;
    assert!(text.contains("answers 9, which no call gives, for 0"), "{text}");
}
