//! Crates in layers, each below everything that it is built on, and where they stand side by side. A line that passes a
//! layer has a place in it like a crate, so that it goes around the boxes. All lines that start at one crate are one
//! line as far as they go together. The steps are Sugiyama's: layers, then an order with few crossings, then places.

use crate::crates::Crates;

/// A crate in its layer, or the line from it on its way past a layer.
pub struct Node {
    pub from: usize,
    pub is_crate: bool,
    pub middle: f64,
    width: f64,
    /// The nodes that it is joined with in the layer above, and in the layer below.
    pub above: Vec<usize>,
    pub below: Vec<usize>,
}

pub struct Layers {
    pub nodes: Vec<Node>,
    /// The nodes of each layer, from left to right.
    pub layers: Vec<Vec<usize>>,
}

/// Between two boxes, and beside a line.
const GAP: f64 = 20.0;
const LINE_GAP: f64 = 14.0;
const LINE_WIDTH: f64 = 4.0;
/// How often the layers are put in order, and then how often places are evened out.
const ROUNDS: usize = 60;
const STRAIGHTENING: usize = 400;

impl Layers {
    /// Where crates with boxes of these widths stand. An error where a crate is built on itself.
    pub fn new(crates: &Crates, widths: &[usize]) -> Result<Layers, String> {
        let depths = depths(crates)?;
        let on = without_detours(crates, &depths);
        let mut layers = Layers::joined(&on, &depths, widths);
        layers.order();
        for round in 0..STRAIGHTENING {
            layers.each_layer(round % 2 == 0, Layers::straighten);
        }
        Ok(layers)
    }

    /// The crates in their layers, and the lines between them.
    fn joined(on: &[Vec<usize>], depths: &[usize], widths: &[usize]) -> Layers {
        let count = depths.iter().max().map_or(0, |depth| depth + 1);
        let mut layers = Layers { nodes: Vec::new(), layers: vec![Vec::new(); count] };
        for (from, &depth) in depths.iter().enumerate() {
            layers.add(from, true, depth, widths[from] as f64);
        }
        for from in 0..on.len() {
            let users: Vec<usize> = (0..on.len()).filter(|&user| on[user].contains(&from)).collect();
            let last = users.iter().map(|&user| depths[user]).max().unwrap_or(0);
            let mut end = from;
            for depth in depths[from] + 1..=last {
                users.iter().filter(|&&user| depths[user] == depth).for_each(|&user| layers.join(end, user));
                if depth < last {
                    let next = layers.add(from, false, depth, LINE_WIDTH);
                    layers.join(end, next);
                    end = next;
                }
            }
        }
        layers
    }

    fn add(&mut self, from: usize, is_crate: bool, depth: usize, width: f64) -> usize {
        let node = self.nodes.len();
        let middle = 120.0 * self.layers[depth].len() as f64;
        self.nodes.push(Node { from, is_crate, middle, width, above: Vec::new(), below: Vec::new() });
        self.layers[depth].push(node);
        node
    }

    fn join(&mut self, upper: usize, lower: usize) {
        self.nodes[upper].below.push(lower);
        self.nodes[lower].above.push(upper);
    }

    /// Sorts the layers, downwards and upwards in turn, and keeps the best order that comes up.
    fn order(&mut self) {
        let mut best = (self.tangle(), self.layers.clone(), self.middles());
        for round in 0..ROUNDS {
            let down = round % 2 == 0;
            let both = round > ROUNDS / 3;
            self.each_layer(down, |layers, depth| layers.sort(depth, down, both));
            self.each_layer(down, Layers::exchange);
            let tangle = self.tangle();
            if tangle < best.0 {
                best = (tangle, self.layers.clone(), self.middles());
            }
        }
        self.layers = best.1;
        self.set_middles(&best.2);
    }

    fn each_layer(&mut self, down: bool, step: impl Fn(&mut Layers, usize)) {
        let count = self.layers.len();
        (0..count).for_each(|k| step(self, if down { k } else { count - 1 - k }));
    }

    /// Puts each node of a layer where those are that it is joined with in the layer before, or in both beside it.
    fn sort(&mut self, depth: usize, down: bool, both: bool) {
        let mut wanted: Vec<(usize, f64)> = Vec::new();
        for &node in &self.layers[depth] {
            let Node { above, below, .. } = &self.nodes[node];
            let (first, second) = if down { (above, below) } else { (below, above) };
            let second: &[usize] = if both || first.is_empty() { second } else { &[] };
            let near: Vec<f64> = first.iter().chain(second).map(|&other| self.nodes[other].middle).collect();
            let middle = if near.is_empty() { self.nodes[node].middle } else { mean(&near) };
            wanted.push((node, middle));
        }
        wanted.sort_by(|a, b| a.1.total_cmp(&b.1));
        self.layers[depth] = wanted.iter().map(|&(node, _)| node).collect();
        self.spread(depth, &wanted.iter().map(|&(_, middle)| (middle, 1.0)).collect::<Vec<_>>());
    }

    /// Exchanges neighbours in a layer where that leaves less tangle.
    fn exchange(&mut self, depth: usize) {
        for k in 1..self.layers[depth].len() {
            let (tangle, middles) = (self.tangle(), self.middles());
            let wanted: Vec<(f64, f64)> =
                self.layers[depth].iter().map(|&node| (self.nodes[node].middle, 1.0)).collect();
            self.layers[depth].swap(k - 1, k);
            self.spread(depth, &wanted);
            if self.tangle() >= tangle {
                self.layers[depth].swap(k - 1, k);
                self.set_middles(&middles);
            }
        }
    }

    /// Evens out a layer without a change of order: a line would rather be straight than a crate in the middle.
    fn straighten(&mut self, depth: usize) {
        let wanted = |&node: &usize| {
            let Node { is_crate, middle, above, below, .. } = &self.nodes[node];
            let (mut sum, mut weights) = (0.0, 0.0);
            for &other in above.iter().chain(below) {
                let weight = match (is_crate, self.nodes[other].is_crate) {
                    (true, true) => 1.0,
                    (false, false) => 8.0,
                    _ => 2.0,
                };
                sum += weight * self.nodes[other].middle;
                weights += weight;
            }
            if weights > 0.0 {
                (sum / weights, weights)
            } else {
                (*middle, 1.0)
            }
        };
        let wanted: Vec<(f64, f64)> = self.layers[depth].iter().map(wanted).collect();
        self.spread(depth, &wanted);
    }

    /// Puts a layer's nodes as near as can be to where they are wanted, by weight, in their order and clear of each
    /// other: without the room that those before them take, wanted places must rise, and those that fall are put at
    /// their mean.
    fn spread(&mut self, depth: usize, wanted: &[(f64, f64)]) {
        let mut room = 0.0;
        let mut rooms = Vec::new();
        let mut runs: Vec<(f64, f64, usize)> = Vec::new();
        for (k, &(middle, weight)) in wanted.iter().enumerate() {
            if k > 0 {
                room += self.clear(self.layers[depth][k - 1], self.layers[depth][k]);
            }
            rooms.push(room);
            let mut run = (middle - room, weight, 1);
            while let Some(before) = runs.pop_if(|before| before.0 > run.0) {
                let weights = before.1 + run.1;
                run = ((before.0 * before.1 + run.0 * run.1) / weights, weights, before.2 + run.2);
            }
            runs.push(run);
        }
        let places = runs.iter().flat_map(|&(place, _, count)| std::iter::repeat_n(place, count));
        for ((&node, place), room) in self.layers[depth].iter().zip(places).zip(rooms) {
            self.nodes[node].middle = place + room;
        }
    }

    /// How far the middles of two neighbours are apart at the least.
    fn clear(&self, left: usize, right: usize) -> f64 {
        let (left, right) = (&self.nodes[left], &self.nodes[right]);
        let gap = if left.is_crate && right.is_crate { GAP } else { LINE_GAP };
        (left.width + right.width) / 2.0 + gap
    }

    /// How many lines cross, and how far they go sideways.
    fn tangle(&self) -> (usize, f64) {
        let (mut crossings, mut sideways) = (0, 0.0);
        for layer in &self.layers {
            let lines = layer.iter().flat_map(|&node| self.nodes[node].below.iter().map(move |&lower| (node, lower)));
            let lines: Vec<(f64, f64)> =
                lines.map(|(node, lower)| (self.nodes[node].middle, self.nodes[lower].middle)).collect();
            for (k, line) in lines.iter().enumerate() {
                let crosses = |other: &&(f64, f64)| (line.0 - other.0) * (line.1 - other.1) < 0.0;
                crossings += lines[..k].iter().filter(crosses).count();
                sideways += (line.0 - line.1).abs();
            }
        }
        (crossings, sideways)
    }

    fn middles(&self) -> Vec<f64> {
        self.nodes.iter().map(|node| node.middle).collect()
    }

    fn set_middles(&mut self, middles: &[f64]) {
        self.nodes.iter_mut().zip(middles).for_each(|(node, &middle)| node.middle = middle);
    }
}

fn mean(values: &[f64]) -> f64 {
    values.iter().sum::<f64>() / values.len() as f64
}

/// A crate's layer: one below the lowest that it is built on.
fn depths(Crates { crates, .. }: &Crates) -> Result<Vec<usize>, String> {
    let mut depths = vec![0; crates.len()];
    for _ in 0..=crates.len() {
        let before = depths.clone();
        for (depth, built) in depths.iter_mut().zip(crates) {
            *depth = built.on.iter().map(|&on| before[on] + 1).max().unwrap_or(0);
        }
        if depths == before {
            return Ok(depths);
        }
    }
    Err("a crate is built on itself".to_string())
}

/// What each crate is built on, without what another of these is built on already.
fn without_detours(Crates { crates, .. }: &Crates, depths: &[usize]) -> Vec<Vec<usize>> {
    let mut upwards: Vec<usize> = (0..crates.len()).collect();
    upwards.sort_by_key(|&built| depths[built]);
    // For each crate all that is above it.
    let mut above = vec![Vec::new(); crates.len()];
    for built in upwards {
        above[built] = crates[built].on.iter().flat_map(|&on| [&above[on][..], &[on]].concat()).collect();
    }
    let direct = |on: &[usize]| {
        on.iter().filter(|&&one| !on.iter().any(|&other| above[other].contains(&one))).copied().collect()
    };
    crates.iter().map(|built| direct(&built.on)).collect()
}

#[cfg(test)]
mod tests {
    use super::*;

    fn crates(on: &[&[usize]]) -> Crates {
        let built = |on: &&[usize]| crate::crates::Crate { name: String::new(), group: 0, on: on.to_vec() };
        Crates { groups: vec![String::new()], crates: on.iter().map(built).collect() }
    }

    #[test]
    fn a_crate_stands_below_what_it_is_built_on() {
        let crates = crates(&[&[], &[0], &[0, 1], &[]]);
        let depths = depths(&crates).unwrap();
        assert_eq!(depths, [0, 1, 2, 0]);
        assert_eq!(without_detours(&crates, &depths), [vec![], vec![0], vec![1], vec![]]);
    }

    #[test]
    fn built_on_itself() {
        assert!(depths(&crates(&[&[1], &[0]])).is_err());
    }

    /// A line past two layers has a place in each, and boxes stand clear of each other.
    #[test]
    fn places() {
        let crates = crates(&[&[], &[], &[1], &[2], &[3, 0], &[1]]);
        let layers = Layers::new(&crates, &[80; 6]).unwrap();
        assert_eq!(layers.nodes.len(), 6 + 2);
        for layer in &layers.layers {
            for pair in layer.windows(2) {
                let apart = layers.nodes[pair[1]].middle - layers.nodes[pair[0]].middle;
                assert!(apart >= layers.clear(pair[0], pair[1]) - 1e-6, "{apart}");
            }
        }
    }

    #[test]
    fn no_crates() {
        assert!(Layers::new(&crates(&[]), &[]).unwrap().layers.is_empty());
    }
}
