//! Pictures of a chunk graph, as text for Graphviz.
use crate::{Chunk, Edge, MoveGraph, Refusal};
use std::fmt::Write;

impl MoveGraph<'_> {
    /// The chunk graph as text for Graphviz: a box for each chunk with the names of its atoms and its set, an arrow for each
    /// edge, with its multiplicity above 1. Atoms past the names are called by their number.
    ///
    /// ```
    /// use nidskalm::{EntrySet, MoveGraph, OwnedLoad};
    ///
    /// let load = OwnedLoad::from_lists([vec![], vec![0, 0]], [None, None]);
    /// let graph = MoveGraph::owning(load, 4, &[EntrySet::from(3), EntrySet::from(1)])?;
    /// assert_eq!(
    ///     graph.to_dot(&["shared.js"])?,
    ///     r#"digraph chunks {
    ///     node [shape=box];
    ///     "{0}" [label="atom 1\n{0}"];
    ///     "{0, 1}" [label="shared.js\n{0, 1}"];
    ///     "{0}" -> "{0, 1}" [label="2"];
    /// }
    /// "#
    /// );
    /// # Ok::<(), nidskalm::Refusal>(())
    /// ```
    pub fn to_dot(&self, names: &[impl AsRef<str>]) -> Result<String, Refusal> {
        let name = |&atom: &u32| match names.get(atom as usize) {
            Some(name) => name.as_ref().to_string(),
            None => format!("atom {atom}"),
        };
        self.to_dot_with(|chunk| {
            let names: Vec<String> = chunk.atoms.iter().map(name).collect();
            format!("{}\n{}", names.join("\n"), chunk.set)
        })
    }

    /// The same with a label of your own for each chunk, of one line or more.
    ///
    /// ```
    /// use nidskalm::{EntrySet, MoveGraph, OwnedLoad};
    ///
    /// let graph = MoveGraph::owning(OwnedLoad::from_lists([[]], [None]), 2, &[EntrySet::from(1)])?;
    /// let dot = graph.to_dot_with(|chunk| format!("{} of {} atoms", chunk.set, chunk.atoms.len()))?;
    /// assert!(dot.contains(r#""{0}" [label="{0} of 1 atoms"];"#));
    /// # Ok::<(), nidskalm::Refusal>(())
    /// ```
    pub fn to_dot_with(&self, label: impl Fn(&Chunk) -> String) -> Result<String, Refusal> {
        let mut out = String::from("digraph chunks {\n    node [shape=box];\n");
        for chunk in self.chunks()? {
            let _ = writeln!(out, "    \"{}\" [label=\"{}\"];", chunk.set, quoted(&label(&chunk)));
        }
        self.edges()?.for_each(|edge| arrow(&mut out, edge));
        out.push_str("}\n");
        Ok(out)
    }
}

fn arrow(out: &mut String, edge: Edge) {
    let times = if edge.multiplicity > 1 { format!(" [label=\"{}\"]", edge.multiplicity) } else { String::new() };
    let _ = writeln!(out, "    \"{}\" -> \"{}\"{times};", edge.from, edge.to);
}

/// A text between quotes, as Graphviz reads it.
fn quoted(text: &str) -> String {
    text.replace('\\', "\\\\").replace('"', "\\\"").replace('\n', "\\n")
}
