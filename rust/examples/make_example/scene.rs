//! Four coupons: a soft ground, a frame, a face value, a stripe and a barcode.

use tinladle::Plane;

pub const COUPON_WIDTH: usize = 96;
pub const COUPON_HEIGHT: usize = 64;

/// Colours are Y, Cb, Cr.
type Colour = [i64; 3];

/// A coupon: its ground at the top left, how far the ground's luma moves to the bottom right, its stripe, its face
/// value.
struct Coupon {
    ground: Colour,
    slope: i64,
    stripe: Colour,
    value: [usize; 2],
}

const COUPONS: [Coupon; 4] = [
    Coupon { ground: [214, 110, 146], slope: -60, stripe: [95, 100, 190], value: [5, 0] },
    Coupon { ground: [150, 150, 112], slope: 70, stripe: [88, 180, 105], value: [2, 0] },
    Coupon { ground: [205, 96, 128], slope: -75, stripe: [120, 84, 104], value: [7, 5] },
    Coupon { ground: [140, 136, 152], slope: 65, stripe: [150, 78, 160], value: [1, 0] },
];

const INK: Colour = [38, 128, 128];

/// Digits of 5 by 7, a row to a number, the leftmost dot in bit 4.
const DIGITS: [[u8; 7]; 10] = [
    [14, 17, 17, 17, 17, 17, 14],
    [4, 12, 4, 4, 4, 4, 14],
    [14, 17, 1, 6, 8, 16, 31],
    [14, 17, 1, 6, 1, 17, 14],
    [2, 6, 10, 18, 31, 2, 2],
    [31, 16, 30, 1, 1, 17, 14],
    [6, 8, 16, 30, 17, 17, 14],
    [31, 1, 2, 4, 8, 8, 8],
    [14, 17, 17, 14, 17, 17, 14],
    [14, 17, 17, 15, 1, 2, 12],
];
/// The size of a digit's dot, and where the first digit stands in its coupon.
const DOT: usize = 4;
const VALUE_AT: (usize, usize) = (10, 9);

/// Whether the sample lies in its coupon's barcode: whole blocks of 16 by 16.
pub fn in_barcode(x: usize, y: usize) -> bool {
    (64..96).contains(&(x % COUPON_WIDTH)) && (16..48).contains(&(y % COUPON_HEIGHT))
}

fn in_digit(digit: usize, x: usize, y: usize) -> bool {
    let (column, row) = (x / DOT, y / DOT);
    column < 5 && row < 7 && DIGITS[digit][row] >> (4 - column) & 1 == 1
}

fn in_value(coupon: &Coupon, x: usize, y: usize) -> bool {
    let (left, top) = VALUE_AT;
    if x < left || y < top {
        return false;
    }
    coupon.value.iter().enumerate().any(|(i, &digit)| {
        let from = left + i * 6 * DOT;
        x >= from && in_digit(digit, x - from, y - top)
    })
}

/// Bars of one to three samples, on white, with a white rim.
fn barcode(x: usize, y: usize) -> Colour {
    const BARS: u32 = 0b1011_0010_1110_0101_1001_1010_1101_0011;
    let (column, row) = (x - 64, y - 16);
    let ink = (3..29).contains(&column) && (3..29).contains(&row) && BARS >> column & 1 == 1;
    if ink { INK } else { [235, 128, 128] }
}

/// The ground brightens or darkens towards the bottom right, its colour a little too.
fn ground(coupon: &Coupon, x: usize, y: usize) -> Colour {
    let way = (2 * x + 3 * y) as i64;
    let most = (2 * COUPON_WIDTH + 3 * COUPON_HEIGHT) as i64;
    let [luma, cb, cr] = coupon.ground;
    [luma + coupon.slope * way / most, cb + 24 * way / most, cr - 24 * way / most]
}

fn colour(x: usize, y: usize) -> Colour {
    let coupon = &COUPONS[y / COUPON_HEIGHT * 2 + x / COUPON_WIDTH];
    let bars = in_barcode(x, y);
    let (x, y) = (x % COUPON_WIDTH, y % COUPON_HEIGHT);
    // The stripe leans, and grows lighter to the right.
    let leaning = 2 * y + x / 6;
    if bars {
        barcode(x, y)
    } else if in_value(coupon, x, y) {
        INK
    } else if (88..110).contains(&leaning) {
        let [luma, cb, cr] = coupon.stripe;
        [luma + x as i64 / 3, cb, cr]
    } else {
        ground(coupon, x, y)
    }
}

/// The sample of a plane at a luma position.
pub fn sample(plane: Plane, x: usize, y: usize) -> i64 {
    colour(x, y)[plane as usize]
}
