//! The rules' bench figures P1 to P10 and their report, of the straightforward implementation.

use quailribbon_bench::straight::*;

/// Start 380, step 1, n = 401, all 0 but these samples.
fn light(lit: &[(usize, u32)]) -> Vec<u32> {
    let mut samples = vec![0; 401];
    for &(wavelength, sample) in lit {
        samples[wavelength - 380] = sample;
    }
    samples
}

fn photopic_of(lit: &[(usize, u32)]) -> u32 {
    photopic(380, 1, &light(lit)).value
}

fn chromaticity_of(lit: &[(usize, u32)]) -> (u32, u32) {
    let answer = xy(2, 380, 1, &light(lit));
    (answer.x, answer.y)
}

fn uv_of(lit: &[(usize, u32)]) -> (u32, u32) {
    let answer = uv(2, 380, 1, &light(lit));
    (answer.u, answer.v)
}

#[test]
fn p1_all_zero() {
    let dark = light(&[]);
    assert_eq!(photopic(380, 1, &dark).value, 0);
    assert_eq!(scotopic(380, 1, &dark).value, 0);
    assert_eq!(photopic_10(380, 1, &dark).value, 0);
    assert_eq!(mesopic(500, 380, 1, &dark).value, 0);
    assert_eq!(research(32, 380, 1, &dark).value, 0);
    let answer = xyz(2, 380, 1, &dark);
    assert_eq!((answer.number, answer.x, answer.y, answer.z), (0, 0, 0, 0));
    assert_eq!(xy(2, 380, 1, &dark).number, 9);
    assert_eq!(uv(2, 380, 1, &dark).number, 9);
    let answer = chart(2, 380, 1, &dark);
    assert_eq!((answer.number, answer.x, answer.y), (9, 0.0, 0.0));
    assert_eq!((answer.u, answer.v), (0.0, 0.0));
}

#[test]
fn p2_the_report() {
    let mut record = [0; 1331];
    let written = write_record(380, 1, &light(&[(460, 1_000_000)]), &mut record);
    assert_eq!(written.length, 1006);
    assert_eq!(record[..3], [0x12, 0x83, 0x22]);
    let mut text = [0; 200];
    let length = report(&record[..1006], &mut text).length as usize;
    let page =
        "photopic 40980\nscotopic 963972\nX 198617\nY 40980\nZ 1140066\nx 0.14396\ny 0.02970\n";
    assert_eq!(text[..length], *page.as_bytes());
    let point = chart(2, 380, 1, &light(&[(460, 1)]));
    assert_eq!(point.x, 14396.0 / 100000.0);
    assert_eq!((point.u, point.v), (18766.0 / 100000.0, 8712.0 / 100000.0));
}

#[test]
fn p3_about_a_half() {
    assert_eq!(photopic_of(&[(460, 25_000)]), 1025);
    assert_eq!(photopic_of(&[(460, 24_999)]), 1024);
    // Exactly 93229.5.
    assert_eq!(photopic_of(&[(555, 136_491), (382, 184_750)]), 93230);
    assert_eq!(photopic_of(&[(555, 136_491), (382, 184_749)]), 93229);
}

#[test]
fn light_as_at_555_017_has_683_lumens_a_watt() {
    let samples = light(&[(555, 983_000), (556, 17_000)]);
    assert_eq!(photopic(380, 1, &samples).value, 683_000);
    assert_eq!(scotopic(380, 1, &samples).value, 683_000);
    assert_eq!(photopic_10(380, 1, &samples).value, 683_000);
    for k in [0, 500, 1000] {
        assert_eq!(mesopic(k, 380, 1, &samples).value, 683_000);
    }
    for observer in [2, 10] {
        assert_eq!(xyz(observer, 380, 1, &samples).y, 683_000);
    }
    for observer in [32, 40] {
        assert_eq!(research(observer, 380, 1, &samples).value, 683_000);
    }
}

#[test]
fn research_figures() {
    let both = |start, samples: &[u32]| {
        [32, 40].map(|observer| research(observer, start, 1, samples).value)
    };
    assert_eq!(both(380, &light(&[(460, 1_000_000)])), [58187, 96637]);
    assert_eq!(both(360, &[1_000_000; 471]), [77248855, 80965642]);
    assert_eq!(both(380, &light(&[(389, 1_000_000)])), [0, 0]);
    assert_eq!(both(380, &light(&[(390, 1_000_000)])), [283, 279]);
    for observer in [0, 2, 10, 31, 33, 39, 41, u32::MAX] {
        assert_eq!(research(observer, 381, 3, &[]).number, 6);
    }
    for observer in [32, 40] {
        assert_eq!(research(observer, 381, 3, &[]).number, 1);
        assert_eq!(xyz(observer, 380, 1, &light(&[])).number, 6);
        assert_eq!(xy(observer, 380, 1, &light(&[])).number, 6);
        assert_eq!(uv(observer, 380, 1, &light(&[])).number, 6);
        assert_eq!(chart(observer, 380, 1, &light(&[])).number, 6);
        assert_eq!(panel_xyz(observer, 1, 360, 1, &[0; 471]).number, 6);
    }
}

#[test]
fn p4_mesopic() {
    let samples = light(&[(460, 1_000_000)]);
    let at = |k| mesopic(k, 380, 1, &samples);
    assert_eq!([0, 500, 1000].map(|k| at(k).value), [963972, 305508, 40980]);
    assert_eq!(at(1001).number, 5);
}

#[test]
fn p5_the_straight_line() {
    let mut samples = vec![0; 81];
    samples[16] = 1_000_000;
    assert_eq!(photopic(380, 5, &samples).value, 205365);
}

#[test]
fn p6_p7_p8_mixtures() {
    assert_eq!(photopic_of(&[(485, 1_000_000)]), 115632);
    assert_eq!(scotopic(380, 1, &light(&[(485, 1_000_000)])).value, 1446808);
    assert_eq!(chromaticity_of(&[(485, 1_000_000)]), (6871, 20072));
    let both = [(460, 1_000_000), (485, 1_000_000)];
    assert_eq!(photopic_of(&both), 156612);
    assert_eq!(chromaticity_of(&both), (12179, 8008));
    assert_eq!(uv_of(&both), (13105, 19388));
    assert_eq!(photopic_of(&[(460, 50_000)]), 2049);
}

#[test]
fn p9_white_panels() {
    let white = [10_000; 471];
    let of = |illuminant| {
        let answer = panel_xyz(2, illuminant, 360, 1, &white);
        [answer.x, answer.y, answer.z]
    };
    assert_eq!(of(1), [109850, 100000, 35585]);
    assert_eq!(of(2), [95047, 100000, 108883]);
    let figures = panel_figures(2, 2, 360, 1, &white);
    assert_eq!([figures.X, figures.Y, figures.Z], of(2));
    assert_eq!([figures.xy_number, figures.x, figures.y], [0, 31273, 32902]);
    let white_uv = |observer, illuminant| {
        let answer = panel_uv(observer, illuminant, 360, 1, &white);
        [answer.u, answer.v]
    };
    assert_eq!(
        [white_uv(2, 1), white_uv(2, 2)],
        [[25597, 52429], [19784, 46834]]
    );
    assert_eq!(
        [white_uv(10, 1), white_uv(10, 2)],
        [[25896, 52425], [19786, 46955]]
    );
}

#[test]
fn the_ends_are_carried_to_360_and_to_830() {
    let at = |place: usize| {
        let mut samples = [0; 41];
        samples[place] = 1_000_000;
        let answer = xyz(2, 380, 10, &samples);
        [answer.x, answer.y, answer.z]
    };
    assert_eq!(at(0), [13903, 403, 65458]);
    assert_eq!(at(40), [575, 208, 0]);
    let white = panel_xyz(2, 1, 380, 1, &[10_000; 401]);
    assert_eq!([white.x, white.y, white.z], [109850, 100000, 35585]);
}

#[test]
fn p10_refusals() {
    let refused = |start, step, samples: &[u32]| {
        let answer = photopic(start, step, samples);
        (answer.number, answer.place)
    };
    let mut samples = light(&[]);
    assert_eq!(refused(380, 3, &samples), (1, 0));
    assert_eq!(refused(299, 1, &samples), (2, 0));
    assert_eq!(refused(381, 1, &samples), (2, 0));
    assert_eq!(refused(380, 1, &samples[..400]), (3, 0));
    samples[7] = 1_000_001;
    assert_eq!(refused(380, 1, &samples), (4, 7));
}
