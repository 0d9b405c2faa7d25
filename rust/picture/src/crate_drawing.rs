//! The picture of crates.txt: a box for each crate in the colour of its group, and lines down from what it is built on.

use crate::crates::Crates;
use crate::layers::{Layers, Node};
use crate::svg::Svg;
use std::fmt::Write;

const MARGIN: usize = 20;
const BOX_HEIGHT: usize = 24;
/// Between two layers.
const LAYER_GAP: usize = 36;
/// A letter's width, and the room beside a name.
const LETTER: usize = 7;
const SIDE: usize = 22;
const LEGEND_ROW: usize = 22;
const MARK: usize = 11;

/// A colour for each group, again from the first where there are more.
const COLOURS: [&str; 10] =
    ["#57606a", "#8a5a2b", "#1668b8", "#12805c", "#7c3fb8", "#c2570c", "#a07c00", "#1f2328", "#b8186a", "#4d7c0f"];

/// The picture as the text of an SVG file.
pub fn draw(crates: &Crates) -> Result<String, String> {
    let widths: Vec<usize> = crates.crates.iter().map(|built| built.name.len() * LETTER + SIDE).collect();
    let layers = Layers::new(crates, &widths)?;
    let half = |node: &Node| if node.is_crate { widths[node.from] as f64 / 2.0 } else { 2.0 };
    let left = layers.nodes.iter().map(|node| node.middle - half(node)).fold(f64::MAX, f64::min);
    let right = layers.nodes.iter().map(|node| node.middle + half(node)).fold(f64::MIN, f64::max);
    let width = if right > left { (right - left).ceil() as usize } else { 0 };
    let mut drawing = Drawing { crates, layers: &layers, left, svg: Svg::default() };
    // Lines first, so that boxes stand over them.
    (0..layers.layers.len()).for_each(|depth| drawing.lines(depth));
    (0..layers.layers.len()).for_each(|depth| drawing.boxes(depth, &widths));
    let bottom = MARGIN + layers.layers.len() * (BOX_HEIGHT + LAYER_GAP);
    let legend = drawing.legend(bottom);
    let size = [width.max(legend[0]) + 2 * MARGIN, bottom + legend[1] + MARGIN];
    Ok(drawing.svg.finish("What each crate is built on", size, &styles()))
}

struct Drawing<'a> {
    crates: &'a Crates,
    layers: &'a Layers,
    left: f64,
    svg: Svg,
}

impl Drawing<'_> {
    /// The lines through a layer and down from it.
    fn lines(&mut self, depth: usize) {
        let (top, bottom) = (top(depth), top(depth) + BOX_HEIGHT);
        for &at in &self.layers.layers[depth] {
            let node = &self.layers.nodes[at];
            let class = format!("on g{}", self.group(node));
            let x = self.x(node);
            if !node.is_crate {
                self.svg.curve(&class, [x, top], [x, bottom]);
            }
            for &below in &node.below {
                let end = self.x(&self.layers.nodes[below]);
                self.svg.curve(&class, [x, bottom], [end, bottom + LAYER_GAP]);
            }
        }
    }

    fn boxes(&mut self, depth: usize, widths: &[usize]) {
        for &at in &self.layers.layers[depth] {
            let node = &self.layers.nodes[at];
            if !node.is_crate {
                continue;
            }
            let (x, width) = (self.x(node), widths[node.from]);
            let class = format!("box g{}", self.group(node));
            self.svg.rectangle(&class, [x - width / 2, top(depth)], [width, BOX_HEIGHT], 4);
            self.svg.text("crate middle", x, top(depth) + 16, &self.crates.crates[node.from].name);
        }
    }

    /// The groups in two columns; how wide and how high they are.
    fn legend(&mut self, top: usize) -> [usize; 2] {
        let groups = &self.crates.groups;
        let rows = groups.len().div_ceil(2);
        let column = groups.iter().map(String::len).max().unwrap_or(0) * LETTER + 2 * SIDE;
        for (k, group) in groups.iter().enumerate() {
            let (x, y) = (MARGIN + k / rows * column, top + k % rows * LEGEND_ROW);
            self.svg.rectangle(&format!("box g{}", k % COLOURS.len()), [x, y], [MARK, MARK], 2);
            self.svg.text("", x + MARK + 7, y + MARK - 1, group);
        }
        [2 * column, rows * LEGEND_ROW]
    }

    fn x(&self, node: &Node) -> usize {
        MARGIN + (node.middle - self.left).round() as usize
    }

    fn group(&self, node: &Node) -> usize {
        self.crates.crates[node.from].group % COLOURS.len()
    }
}

fn top(depth: usize) -> usize {
    MARGIN + depth * (BOX_HEIGHT + LAYER_GAP)
}

fn styles() -> String {
    let mut styles =
        ".crate { fill: #1f2328 }\n.on { fill: none; stroke-width: 1.4 }\n.box { fill: #ffffff; stroke-width: 1.6 }\n"
            .to_string();
    for (k, colour) in COLOURS.iter().enumerate() {
        // Writing to a string does not fail.
        let _ = writeln!(styles, ".g{k} {{ stroke: {colour} }}");
    }
    styles
}

#[cfg(test)]
mod tests {
    use super::*;

    #[test]
    fn a_box_for_each_crate_and_a_line_for_each_it_is_built_on() {
        let crates = Crates::read("# Bytes.\nendian:\ntext: endian\n\n# A plan.\nplan: endian text libc\n").unwrap();
        let svg = draw(&crates).unwrap();
        assert_eq!(svg.matches("<path class=\"on").count(), 2);
        for text in ["endian", "text", "plan", "Bytes", "A plan"] {
            assert_eq!(svg.matches(&format!(">{text}</text>")).count(), 1, "{text}");
        }
    }

    #[test]
    fn nothing_to_draw() {
        assert!(draw(&Crates::read("").unwrap()).is_ok());
    }
}
