//! A face as a small disc: a hole for each loop but the first.

use std::f64::consts::TAU;

/// Holes drawn; more are told as a number of loops.
const MOST_HOLES: usize = 6;
/// Radius of a disc that stands in a square of 20.
const RADIUS: f64 = 9.0;

/// The shapes, to stand once in a page: `l0` to `l7` by loops, and `ln` for more.
pub fn shapes() -> String {
    let mut text =
        String::from("<svg width=\"0\" height=\"0\" class=\"shapes\" aria-hidden=\"true\">\n");
    text += &symbol(
        "l0",
        "<circle cx=\"10\" cy=\"10\" r=\"8\" fill=\"none\" stroke=\"currentColor\" \
         stroke-width=\"2\" stroke-dasharray=\"3.2 3.1\"/>",
    );
    for holes in 0..=MOST_HOLES {
        let path = format!(
            "<path fill=\"currentColor\" fill-rule=\"evenodd\" d=\"{}\"/>",
            outline(holes)
        );
        text += &symbol(&format!("l{}", holes + 1), &path);
    }
    let full = "<circle cx=\"10\" cy=\"10\" r=\"9\" fill=\"currentColor\"/>";
    text += &symbol("ln", full);
    text + "</svg>\n"
}

fn symbol(id: &str, inside: &str) -> String {
    format!("<symbol id=\"{id}\" viewBox=\"0 0 20 20\">{inside}</symbol>\n")
}

/// The disc and its holes as one path.
fn outline(holes: usize) -> String {
    let mut path = circle(10.0, 10.0, RADIUS);
    let (ring, radius) = match holes {
        0 | 1 => (0.0, 3.6),
        2 => (3.9, 2.7),
        3 => (4.3, 2.4),
        4 => (4.6, 2.2),
        _ => (5.1, 1.9),
    };
    for hole in 0..holes {
        let turn = TAU * hole as f64 / holes as f64;
        let (x, y) = (10.0 + ring * turn.cos(), 10.0 + ring * turn.sin());
        path += &circle(x, y, radius);
    }
    path
}

fn circle(x: f64, y: f64, r: f64) -> String {
    let (left, d) = (x - r, 2.0 * r);
    format!("M{left:.2} {y:.2}a{r} {r} 0 1 0 {d} 0a{r} {r} 0 1 0 -{d} 0z")
}

/// The disc of a face; `unlike` if the other program has another count.
pub fn disc(face: usize, loops: usize, unlike: bool) -> String {
    let class = if unlike { "d x" } else { "d" };
    let plural = if loops == 1 { "" } else { "s" };
    let title = format!("<title>face {face}: {loops} loop{plural}</title>");
    let inside = if loops <= MOST_HOLES + 1 {
        format!("<use href=\"#l{loops}\"/>")
    } else {
        let size = if loops < 100 { 10 } else { 7 };
        format!("<use href=\"#ln\"/><text x=\"10\" y=\"10\" font-size=\"{size}\">{loops}</text>")
    };
    format!("<svg class=\"{class}\" viewBox=\"0 0 20 20\">{title}{inside}</svg>")
}
