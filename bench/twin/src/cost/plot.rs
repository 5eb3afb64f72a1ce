//! A plot of cost against window size, both axes logarithmic.

use std::fmt::Write;

use crate::cost::pair::Each;
use crate::cost::sweep::Point;

const WIDTH: f64 = 860.0;
const HEIGHT: f64 = 560.0;
const LEFT: f64 = 80.0;
const RIGHT: f64 = 640.0;
const TOP: f64 = 50.0;
const BOTTOM: f64 = 490.0;

/// Powers of two at the ends of the lower axis.
const SIZES: (i32, i32) = (3, 20);

/// One line of the plot.
struct Curve<'a> {
    name: String,
    colour: &'a str,
    dashed: bool,
    points: Vec<(f64, f64)>,
}

/// Powers of ten at the ends of the upright axis.
struct Decades {
    first: i32,
    last: i32,
}

impl Decades {
    fn of(curves: &[Curve]) -> Decades {
        let costs = || {
            curves
                .iter()
                .flat_map(|curve| &curve.points)
                .map(|(_, cost)| cost.log10())
        };
        let least = costs().fold(f64::INFINITY, f64::min);
        let most = costs().fold(f64::NEG_INFINITY, f64::max);
        let first = least.floor() as i32;
        Decades {
            first,
            last: (most.ceil() as i32).max(first + 1),
        }
    }

    fn place(&self, cost: f64) -> f64 {
        let part = (cost.log10() - f64::from(self.first)) / f64::from(self.last - self.first);
        BOTTOM - part * (BOTTOM - TOP)
    }
}

fn across(window: f64) -> f64 {
    let (first, last) = SIZES;
    LEFT + (window.log2() - f64::from(first)) / f64::from(last - first) * (RIGHT - LEFT)
}

/// The plot of both keepers and both implementations.
pub fn plot(ladder: &[Point], ring: &[Point]) -> String {
    let mut curves = Vec::new();
    for (keeper, points, put, count) in [
        ("ladder", ladder, "#0b6e99", "#c2410c"),
        ("ring", ring, "#4d7c0f", "#7e22ce"),
    ] {
        curves.extend(both(&format!("{keeper}, put"), put, points, |point| {
            point.put
        }));
        curves.extend(both(&format!("{keeper}, count"), count, points, |point| {
            point.count
        }));
    }
    let decades = Decades::of(&curves);
    let mut svg = format!(
        "<svg xmlns=\"http://www.w3.org/2000/svg\" width=\"{WIDTH}\" height=\"{HEIGHT}\" viewBox=\"0 0 {WIDTH} {HEIGHT}\" \
         font-family=\"sans-serif\" font-size=\"13\">\n<rect width=\"{WIDTH}\" height=\"{HEIGHT}\" fill=\"white\"/>\n"
    );
    // Writing to a string cannot fail.
    let _ = titles(&mut svg)
        .and_then(|()| axes(&mut svg, &decades))
        .and_then(|()| draw(&mut svg, &curves, &decades));
    svg + "</svg>\n"
}

/// The two curves of one call: the other's unbroken, the twin's dashed.
fn both<'a>(
    name: &str,
    colour: &'a str,
    points: &[Point],
    cost: impl Fn(&Point) -> Each,
) -> [Curve<'a>; 2] {
    let curve = |who: &str, dashed, of: fn(Each) -> f64| Curve {
        name: format!("{name}, {who}"),
        colour,
        dashed,
        points: points
            .iter()
            .map(|point| (f64::from(point.window), of(cost(point))))
            .collect(),
    };
    [
        curve("proved", false, |each| each.other),
        curve("twin", true, |each| each.twin),
    ]
}

fn titles(svg: &mut String) -> std::fmt::Result {
    let middle = (LEFT + RIGHT) / 2.0;
    writeln!(
        svg,
        "<text x=\"{middle}\" y=\"28\" text-anchor=\"middle\" font-size=\"16\">Cost of one call by size of the sliding \
         window</text>"
    )?;
    writeln!(
        svg,
        "<text x=\"{middle}\" y=\"{}\" text-anchor=\"middle\">keys in the window</text>",
        BOTTOM + 44.0
    )?;
    let upright = (TOP + BOTTOM) / 2.0;
    writeln!(
        svg,
        "<text x=\"24\" y=\"{upright}\" text-anchor=\"middle\" transform=\"rotate(-90 24 {upright})\">nanoseconds per \
         call</text>"
    )
}

fn axes(svg: &mut String, decades: &Decades) -> std::fmt::Result {
    for power in (SIZES.0..=SIZES.1).filter(|power| power % 2 == 0) {
        let x = across(2f64.powi(power));
        writeln!(
            svg,
            "<line x1=\"{x:.1}\" y1=\"{TOP}\" x2=\"{x:.1}\" y2=\"{BOTTOM}\" stroke=\"#ddd\"/>"
        )?;
        writeln!(
            svg,
            "<text x=\"{x:.1}\" y=\"{}\" text-anchor=\"middle\">2<tspan dy=\"-5\" font-size=\"9\">{power}</tspan></text>",
            BOTTOM + 20.0
        )?;
    }
    for power in decades.first..=decades.last {
        let y = decades.place(10f64.powi(power));
        writeln!(
            svg,
            "<line x1=\"{LEFT}\" y1=\"{y:.1}\" x2=\"{RIGHT}\" y2=\"{y:.1}\" stroke=\"#ddd\"/>"
        )?;
        writeln!(
            svg,
            "<text x=\"{}\" y=\"{:.1}\" text-anchor=\"end\">10<tspan dy=\"-5\" font-size=\"9\">{power}</tspan></text>",
            LEFT - 8.0,
            y + 5.0
        )?;
    }
    writeln!(
        svg,
        "<rect x=\"{LEFT}\" y=\"{TOP}\" width=\"{}\" height=\"{}\" fill=\"none\" stroke=\"#333\"/>",
        RIGHT - LEFT,
        BOTTOM - TOP
    )
}

fn draw(svg: &mut String, curves: &[Curve], decades: &Decades) -> std::fmt::Result {
    for (number, curve) in (0u8..).zip(curves) {
        let dashes = if curve.dashed {
            " stroke-dasharray=\"6 4\""
        } else {
            ""
        };
        let stroke = format!(
            "fill=\"none\" stroke=\"{}\" stroke-width=\"2\"{dashes}",
            curve.colour
        );
        let points: Vec<String> = curve
            .points
            .iter()
            .map(|(window, cost)| format!("{:.1},{:.1}", across(*window), decades.place(*cost)))
            .collect();
        writeln!(svg, "<polyline points=\"{}\" {stroke}/>", points.join(" "))?;
        let (x, y) = (RIGHT + 20.0, TOP + 14.0 + 24.0 * f64::from(number));
        writeln!(
            svg,
            "<line x1=\"{x}\" y1=\"{y}\" x2=\"{}\" y2=\"{y}\" {stroke}/>",
            x + 34.0
        )?;
        writeln!(
            svg,
            "<text x=\"{}\" y=\"{}\">{}</text>",
            x + 42.0,
            y + 4.0,
            curve.name
        )?;
    }
    Ok(())
}

#[cfg(test)]
mod tests {
    use super::*;

    #[test]
    fn the_points_lie_inside_the_frame() {
        let each = |nanos| Each {
            other: nanos,
            twin: 2.0 * nanos,
        };
        let points: Vec<Point> = (4..=20)
            .map(|span| Point {
                window: (1 << span) - 1,
                put: each(9.0),
                count: each(f64::from(1 << span)),
            })
            .collect();
        let svg = plot(&points, &points);
        let lines = svg
            .lines()
            .filter_map(|line| line.strip_prefix("<polyline points=\""));
        let places: Vec<(f64, f64)> = lines
            .filter_map(|line| line.split('"').next())
            .flat_map(|points| points.split(' '))
            .filter_map(|point| point.split_once(','))
            .map(|(x, y)| (x.parse().unwrap(), y.parse().unwrap()))
            .collect();
        assert_eq!(places.len(), 8 * points.len());
        for (x, y) in places {
            assert!((LEFT..=RIGHT).contains(&x) && (TOP..=BOTTOM).contains(&y));
        }
    }
}
