//! Explanations as a picture, for `dot`.

use super::{ChainTold, Explanation, From, Place};

/// Text between double quotes.
fn spelled(text: &str) -> String {
    format!("\"{}\"", text.replace('\\', "\\\\").replace('"', "\\\""))
}

/// A step from one container to the next.
struct Edge {
    from: String,
    to: String,
    /// The step's number and what it does.
    step: String,
    /// What it carries.
    carried: Vec<String>,
    lacked: bool,
    rule: bool,
}

/// The part of one explanation.
struct Part {
    step: usize,
    /// Each with its attributes.
    nodes: Vec<(String, String)>,
    edges: Vec<Edge>,
}

impl Part {
    /// A node for each container, told apart by number and holder.
    fn node(&mut self, place: &Place, more: &str) -> String {
        let id = format!("s{}_{}_{}", self.step, place.number, place.holder);
        match self.nodes.iter_mut().find(|(other, _)| *other == id) {
            // What begins a chain of what is lacked is told first.
            Some((_, attributes)) if !attributes.contains("filled") => attributes.push_str(more),
            Some(_) => {}
            None => self.nodes.push((id.clone(), format!("label={}{more}", spelled(&place.name)))),
        }
        id
    }

    fn edge(&mut self, edge: Edge) {
        let same = |other: &&mut Edge| {
            (&other.from, &other.to, &other.step, other.rule) == (&edge.from, &edge.to, &edge.step, edge.rule)
        };
        match self.edges.iter_mut().find(same) {
            Some(known) => {
                known.carried.extend(edge.carried);
                known.lacked |= edge.lacked;
            }
            None => self.edges.push(edge),
        }
    }

    /// A chain of something. What carries what is lacked is red, a run rule dashed.
    fn chain(&mut self, chain: &ChainTold, carried: &str, rule: bool) {
        let fill = if chain.lacked { "#ffd0d0" } else { "#e8f0e8" };
        let mut from = self.node(&chain.begins, &format!(", style=filled, fillcolor=\"{fill}\""));
        for hop in &chain.hops {
            let to = self.node(&hop.to, "");
            let blocked = if hop.blocked { ", blocked" } else { "" };
            let step = format!("{} {}{blocked}", hop.step, hop.verb);
            self.edge(Edge { from, to: to.clone(), step, carried: vec![carried.into()], lacked: chain.lacked, rule });
            from = to;
        }
    }
}

impl Explanation {
    fn part(&self) -> String {
        let mut part = Part { step: self.step, nodes: Vec::new(), edges: Vec::new() };
        part.node(&self.receiver, ", color=red, penwidth=2");
        for chain in &self.chains {
            part.chain(chain, &chain.atom, false);
        }
        if let From::Run { chain, .. } = &self.rule.from {
            part.chain(chain, &format!("run rule of {}", chain.begins.name), true);
        }
        let label = format!("{}, step {}: {}\n{}", self.answer(), self.step, self.what, self.lines()[0]);
        let mut out = format!("  subgraph cluster_{} {{\n", self.step);
        out += &format!("    label={};\n", spelled(&label).replace('\n', "\\n"));
        for (node, attributes) in &part.nodes {
            out += &format!("    {node} [{attributes}];\n");
        }
        for edge in &part.edges {
            let red = if edge.lacked { ", color=red" } else { "" };
            let dashed = if edge.rule { ", style=dashed" } else { "" };
            let label = spelled(&format!("{}: {}", edge.step, edge.carried.join(", ")));
            out += &format!("    {} -> {} [label={label}{red}{dashed}];\n", edge.from, edge.to);
        }
        out + "  }\n"
    }
}

/// Explanations as one digraph, each in a cluster of its own: containers are boxes, the receiver has a red frame, the files where chains begin
/// are filled, and steps are arrows, red where they carry what the rule lacks.
#[must_use]
pub fn digraph(explanations: &[Explanation]) -> String {
    let parts: String = explanations.iter().map(Explanation::part).collect();
    format!("digraph explanations {{\n  rankdir=LR;\n  node [shape=box];\n{parts}}}\n")
}
