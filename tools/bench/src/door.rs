//! Into the original's graph and its walks, which are its module's own: this module stands inside it.
use super::{Analysis, Class, Graph, Memo};
use crate::oracle::{Map, Spec, Store};
use crate::unify::Node;
use std::time::{Duration, Instant};

/// The original's graph of these nodes, with heads of as many inputs as they have arguments.
fn graph(nodes: &[Node]) -> Result<(Spec, Graph), String> {
    let mut spec = Spec::parse("").map_err(|e| e.to_string())?;
    let mut graph = Graph::default();
    for node in nodes {
        match node {
            Node::Var { flex, rigid } => {
                let v = graph.var(0, *flex);
                graph.rigid[v as usize] = *rigid;
            }
            Node::App(head, args) => {
                let head = *head as usize;
                if spec.inputs.len() <= head {
                    spec.inputs.resize(head + 1, Vec::new());
                }
                spec.inputs[head] = vec![0; args.len()];
                graph.push(head as u32, super::NONE, args);
            }
        }
    }
    Ok((spec, graph))
}

/// The root of each node, unless the two clash.
pub(crate) fn unify(nodes: &[Node], x: u32, y: u32) -> Result<Option<Vec<u32>>, String> {
    let (spec, mut graph) = graph(nodes)?;
    let joined = graph.unify(&spec, x, y).is_ok();
    Ok(joined.then(|| (0..nodes.len() as u32).map(|i| graph.find(i)).collect()))
}

/// How long unifying the two takes, on a graph that is there; they must not clash.
pub(crate) fn time(nodes: &[Node], x: u32, y: u32) -> Result<Duration, String> {
    let (spec, mut graph) = graph(nodes)?;
    let start = Instant::now();
    let joined = graph.unify(&spec, x, y);
    let time = start.elapsed();
    joined.map_err(|e| e.to_string())?;
    Ok(time)
}

/// A store of patterns, and the tables of copying and reading back.
pub(crate) struct Walker {
    analysis: Analysis<'static>,
    copied: Memo,
    read: Memo,
    class: Class,
    vars: Vec<u32>,
}

impl Walker {
    /// A store of these nodes, whose variables are numbered below `variables`.
    pub(crate) fn new(nodes: &[Vec<u32>], variables: usize) -> Result<Walker, String> {
        let mut spec = Spec::parse("").map_err(|e| e.to_string())?;
        let mut pat = Store::new();
        for node in nodes {
            pat.intern(node);
            let head = node[0] as usize;
            if node[0] == super::VAR {
                continue;
            }
            if spec.inputs.len() <= head {
                spec.inputs.resize(head + 1, Vec::new());
            }
            spec.inputs[head] = vec![0; node.len() - 1];
        }
        Ok(Walker {
            analysis: Analysis {
                spec: Box::leak(Box::new(spec)),
                output: Vec::new(),
                ground: Store::new(),
                pat,
                graph: Graph::default(),
                lifted: Map::default(),
                scratch: Vec::new(),
            },
            copied: Memo::new(),
            read: Memo::new(),
            class: Class {
                conclusion: 0,
                flex: vec![false; variables],
            },
            vars: vec![super::NONE; variables],
        })
    }

    /// A copy of pattern `p` more.
    pub(crate) fn copy(&mut self, p: u32) -> u32 {
        self.copied.clear();
        self.analysis
            .copy(p, &mut self.copied, &self.class, &mut self.vars)
    }

    /// The only copy of pattern `p`.
    pub(crate) fn again(&mut self, p: u32) -> u32 {
        self.analysis.graph.clear();
        self.copy(p)
    }

    /// The pattern of node `x`, and how many variables are numbered; no copy is left.
    pub(crate) fn read(&mut self, x: u32) -> Result<(u32, usize), String> {
        self.read.clear();
        let mut numbering = Map::default();
        let p = self
            .analysis
            .resolve(x, &mut self.read, &mut numbering, &Map::default(), true)
            .map_err(|e| e.to_string())?;
        self.analysis.graph.clear();
        Ok((p, numbering.len()))
    }
}
